#include "descent.h"
#include "host.h"
#include "judge_translation.h"
#include "random.h"
#include "runs.h"
#include "scene.h"

#define ADDRESSES_A_SCENE 512
/* A table outside the arena, where nothing else stands. */
#define OUTSIDE 0x4E000000ull
#define HIGHEST_OUTPUT (1ull << 48)

/* The rows of docs/DIFFERENCES.md, "The walk differs from the manual". */
enum cause { FLAG, L1_BLOCK, WRITE_ONLY, EXECUTE_00, EXECUTE_10, XNX_11, XNX_01, OUTSIDE_THE_ARENA, BEYOND_THE_REGIME, CAUSES };
static const char *const names[CAUSES] = {
    " access flag", " level 1 block", " write-only", " execute 00", " execute 10", " XNX 11", " XNX 01", " outside", " beyond the regime",
};
static uint64_t seen[CAUSES], addresses, agreeing;

/* A table that a word names: of the arena, outside it, or past the output bits. */
static uint64_t wild_table(uint64_t arena, unsigned bits)
{
    switch (below(8)) {
    case 0:
        return OUTSIDE;
    case 1:
        return bits == 48 ? arena : ((1ull << bits) + below(HIGHEST_OUTPUT - (1ull << bits))) & ADDRESS;
    case 2:
    case 3:
        return (SCRATCH_FIRST + below(MEMORY_END - SCRATCH_FIRST)) & ADDRESS;
    default:
        return arena + below(S2_TABLE_COUNT) * PAGE;
    }
}

static uint64_t wild_block(void)
{
    return (one_in(4) ? below(HIGHEST_OUTPUT) : SCRATCH_FIRST + below(MEMORY_END - SCRATCH_FIRST)) & ADDRESS;
}

/* Any bits around an address; mostly valid, with the access flag set, and a table or page. */
static uint64_t wild_word(uint64_t arena, unsigned bits)
{
    uint64_t d = any_number() & ~ADDRESS;
    if (!one_in(8))
        d |= VALID;
    if (!one_in(4))
        d |= TABLE_OR_PAGE;
    if (!one_in(8))
        d |= ACCESS_FLAG;
    return d | (d & TABLE_OR_PAGE ? wild_table(arena, bits) : wild_block());
}

static void fill_wild(uint64_t *words, size_t count, uint64_t arena, unsigned bits)
{
    for (size_t i = 0; i < count; i++)
        words[i] = one_in(16) ? 0 : wild_word(arena, bits);
}

/* By the definition, `translation` in crates/manual/specs/Translation.antt: what `judge_translation` is proved to answer. */
static struct translated by_definition(uint64_t arena, const struct s2_layout *l, const struct places *p, enum access access, uint64_t x)
{
    uint64_t pa;
    bool reached = judge_translation((const uint64_t *)arena, S2_ARENA_LEN, TABLES_OF(l), p->at, p->count, has_xnx(), access, x, &pa);
    return (struct translated){reached, pa};
}

/* Which listed difference lets the walk differ from the machine in an access, or CAUSES where none does. */
static enum cause cause_of(const struct end *end, enum access access)
{
    uint64_t d = *end->place;
    bool executes = access == EXECUTES_EL0 || access == EXECUTES_EL1;
    if (end->outside)
        return OUTSIDE_THE_ARENA;
    if (end->level == 1)
        return L1_BLOCK;
    if (!(d & ACCESS_FLAG))
        return FLAG;
    if (access == WRITES && S2AP(d) == 2)
        return WRITE_ONLY;
    if (executes && !(S2AP(d) & 1))
        return S2AP(d) ? EXECUTE_10 : EXECUTE_00;
    if (access == EXECUTES_EL1 && has_xnx() && XN(d) & 1)
        return XN(d) == 3 ? XNX_11 : XNX_01;
    return CAUSES;
}

/* The definition has 48 output bits: a byte that the regime has no bits for must fault on the machine, and that is all that may differ. */
static struct translated under_the_regime(struct translated t, unsigned bits)
{
    return t.reached && t.pa >> bits ? (struct translated){0} : t;
}

static void compare(uint64_t arena, const struct s2_layout *l, unsigned bits, uint64_t x)
{
    struct verdict walk = walked((const uint64_t *)arena, l, x);
    struct places places = places_of(arena, x);
    struct end end = end_of(arena, x);
    bool alike = true;
    for (enum access access = READS; access < ACCESSES; access++) {
        struct translated defined = by_definition(arena, l, &places, access, x), expected = under_the_regime(defined, bits);
        if (!access_agrees(access, x, expected))
            differ_in("the machine differs from the definition:", access, x, expected);
        if (same_translated(allowed(walk, access), expected))
            continue;
        enum cause cause = same_translated(defined, expected) ? cause_of(&end, access) : BEYOND_THE_REGIME;
        if (cause == CAUSES)
            differ_in("a difference of the walk that is not listed:", access, x, expected);
        else
            seen[cause]++;
        alike = false;
    }
    addresses++;
    agreeing += alike;
}

/* Mostly one of 39 bits; else one of any bits, or around the limit. */
static uint64_t wild_address(void)
{
    if (!one_in(16))
        return below(INPUT_LIMIT);
    return one_in(2) ? any_number() >> below(26) : INPUT_LIMIT - 2 + below(4);
}

static void report(uint64_t scenes)
{
    print("wild: ");
    print_number(scenes);
    print(" scenes");
    print_count(" addresses", addresses);
    print_count(" alike", agreeing);
    print_count(" fetches", fetches);
    print("; accesses in which the walk differs from machine and definition");
    for (int i = 0; i < CAUSES; i++)
        print_count(names[i], seen[i]);
    print_count(" other differences\n", differences);
}

bool run_wild(uint64_t scenes)
{
    for (uint64_t n = 0; n < scenes; n++) {
        uint64_t arena = draw_arena();
        unsigned bits = draw_bits();
        struct s2_layout l = tables_at(arena);
        fill_wild((uint64_t *)arena, S2_ARENA_LEN, arena, bits);
        fill_wild((uint64_t *)OUTSIDE, TABLE_LEN, arena, bits);
        run_under(arena, bits);
        for (int i = 0; i < ADDRESSES_A_SCENE; i++)
            compare(arena, &l, bits, wild_address());
    }
    report(scenes);
    return differences == 0 && all_seen(seen, XNX_11) && all_seen(seen + OUTSIDE_THE_ARENA, 2)
        && (!has_xnx() || all_seen(seen + XNX_11, 2));
}
