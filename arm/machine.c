#include "machine.h"

#include "dervhalt_s2.h"
#include "host.h"
#include "random.h"

#define HCR_VM (1ull << 0)
#define HCR_RW (1ull << 31)
#define PS_SHIFT 16
#define PAR_F 1ull
#define PAR_PA 0x0000FFFFFFFFF000ull
#define EC(esr) ((esr) >> 26)
#define EC_FETCH_ABORT 0x20
#define EC_BRK 0x3C
#define MDCR_TDE (1ull << 8)
#define MDSCR_SS (1ull << 0)

/* Every interrupt masked, and one step: whatever is fetched, it is one instruction. */
#define SPSR_EL0 0x2003C0
#define SPSR_EL1 0x2003C5

/* No stage 2 translation of 39 bits has this address: an exception that EL1 takes comes back as an abort. */
#define NO_VECTORS (1ull << 39)
#define SYNCHRONOUS_EL1 0x200
#define SYNCHRONOUS_EL0 0x400

#define READ(register, value) __asm__ volatile("mrs %0, " #register : "=r"(value))
#define WRITE(register, value) __asm__ volatile("msr " #register ", %0" : : "r"((uint64_t)(value)))

uint64_t fetches, unfetched;

uint64_t fetch_at(uint64_t address, uint64_t spsr, uint64_t *elr);

bool same_translated(struct translated a, struct translated b)
{
    return a.reached == b.reached && (!a.reached || a.pa == b.pa);
}

bool same_verdict(struct verdict a, struct verdict b)
{
    bool reached = a.reads || a.writes || a.executes;
    return a.reads == b.reads && a.writes == b.writes && a.executes == b.executes && (!reached || a.pa == b.pa);
}

struct translated allowed(struct verdict v, enum access access)
{
    bool reached = access == READS ? v.reads : access == WRITES ? v.writes : v.executes;
    return (struct translated){reached, v.pa};
}

bool has_xnx(void)
{
    uint64_t features;
    READ(id_aa64mmfr1_el1, features);
    return features >> 28 & 15;
}

static uint64_t physical_size(void)
{
    uint64_t features;
    READ(id_aa64mmfr0_el1, features);
    return (features & 15) < 5 ? features & 15 : 5;
}

unsigned draw_bits(void)
{
    static const unsigned bits[] = {32, 36, 40, 42, 44, 48};
    return one_in(2) ? BALEEN_OUTPUT_BITS : bits[physical_size()];
}

void run_under(uint64_t l1_pa, unsigned bits)
{
    uint64_t whole = (S2_VTCR_EL2 & ~(7ull << PS_SHIFT)) | physical_size() << PS_SHIFT;
    WRITE(sctlr_el2, 0x30C50830); /* stage 1 of EL2 off, little-endian */
    WRITE(vtcr_el2, bits == BALEEN_OUTPUT_BITS ? S2_VTCR_EL2 : whole);
    WRITE(vttbr_el2, l1_pa | 1ull << 48);
    WRITE(hcr_el2, HCR_RW | HCR_VM);
    WRITE(mdcr_el2, MDCR_TDE); /* a BRK of EL0 or EL1 comes to EL2, and so does a step */
    WRITE(mdscr_el1, MDSCR_SS);
    WRITE(oslar_el1, 0);
    WRITE(sctlr_el1, 0x30D00800); /* stage 1 off: an address of EL1 is an input of stage 2 */
    WRITE(tcr_el1, 0);
    WRITE(vbar_el1, NO_VECTORS);
    __asm__ volatile("isb"); /* what is invalidated is by VTTBR_EL2's VMID */
    invalidate();
}

void invalidate(void)
{
    __asm__ volatile("dsb ishst\n tlbi vmalls12e1is\n dsb ish\n isb" : : : "memory");
}

static uint64_t read_at(uint64_t address)
{
    uint64_t par;
    __asm__ volatile("at s12e1r, %1\n isb\n mrs %0, par_el1" : "=r"(par) : "r"(address) : "memory");
    return par;
}

static uint64_t write_at(uint64_t address)
{
    uint64_t par;
    __asm__ volatile("at s12e1w, %1\n isb\n mrs %0, par_el1" : "=r"(par) : "r"(address) : "memory");
    return par;
}

/* The page, or a fault. */
static bool par_agrees(uint64_t par, struct translated expected)
{
    return expected.reached ? !(par & PAR_F) && (par & PAR_PA) == (expected.pa & PAR_PA) : par & PAR_F;
}

/* An instruction that returns to EL2 with the low bits of its page's number. */
static uint32_t brk(uint64_t pa)
{
    return 0xD4200000 | (uint32_t)(pa >> 12 & 0xFFFF) << 5;
}

static void put_instruction(uint64_t pa)
{
    volatile uint32_t *place = (volatile uint32_t *)pa;
    if (*place == brk(pa))
        return;
    *place = brk(pa);
    __asm__ volatile("dsb ish\n ic iallu\n dsb ish\n isb" : : : "memory");
}

bool in_memory(uint64_t pa)
{
    return MEMORY_FIRST <= pa && pa < MEMORY_END;
}

bool in_scratch(uint64_t pa)
{
    return SCRATCH_FIRST <= pa && pa < MEMORY_END;
}

static bool fetch_agrees(bool at_el0, uint64_t address, struct translated expected)
{
    uint64_t at = address & ~3ull, vector = NO_VECTORS + (at_el0 ? SYNCHRONOUS_EL0 : SYNCHRONOUS_EL1), esr, elr;
    if (expected.reached && !in_scratch(expected.pa)) {
        unfetched++;
        return true;
    }
    fetches++;
    if (expected.reached)
        put_instruction(expected.pa & ~3ull);
    esr = fetch_at(at, at_el0 ? SPSR_EL0 : SPSR_EL1, &elr);
    if (expected.reached)
        return EC(esr) == EC_BRK && elr == at && (esr & 0xFFFF) == (expected.pa >> 12 & 0xFFFF);
    /* past the machine's inputs the fault is stage 1's, which EL1 takes */
    return EC(esr) == EC_FETCH_ABORT && (elr == at || (elr == vector && at >= NO_VECTORS));
}

bool access_agrees(enum access access, uint64_t address, struct translated expected)
{
    switch (access) {
    case READS:
        return par_agrees(read_at(address), expected);
    case WRITES:
        return par_agrees(write_at(address), expected);
    default:
        return fetch_agrees(access == EXECUTES_EL0, address, expected);
    }
}

bool agrees(uint64_t address, struct verdict expected)
{
    for (enum access access = READS; access < ACCESSES; access++)
        if (!access_agrees(access, address, allowed(expected, access)))
            return false;
    return true;
}

static void print_par(const char *name, uint64_t par)
{
    print(name);
    if (par & PAR_F)
        print("faults");
    else
        print_hex(par & PAR_PA);
}

static void print_machine(uint64_t address)
{
    print_par("; the machine: read ", read_at(address));
    print_par(", write ", write_at(address));
    print("\n");
}

void print_difference(uint64_t address, struct verdict expected)
{
    print("  address ");
    print_hex(address);
    print(": expected ");
    print(expected.reads ? "R" : "-");
    print(expected.writes ? "W" : "-");
    print(expected.executes ? "X" : "-");
    print(" at ");
    print_hex(expected.pa);
    print_machine(address);
}

void print_access_difference(enum access access, uint64_t address, struct translated expected)
{
    static const char *const names[ACCESSES] = {"read ", "write ", "executed at EL0 ", "executed at EL1 "};
    print("  address ");
    print_hex(address);
    print(": expected ");
    print(names[access]);
    if (expected.reached)
        print_hex(expected.pa);
    else
        print("faults");
    print_machine(address);
}
