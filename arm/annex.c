#include "annex.h"

#include "host.h"
#include "runs.h"

#define LINE_LEN 40
#define MOST_LINES (S2_ANNEX_MAX / LINE_LEN - 1)
#define LAST_LINE "=======================================\n"

uint64_t annex_lines, annex_addresses;

/* A line: its first and last address, and what it says of the first. */
struct line {
    uint64_t first, last;
    struct verdict of_first;
};

struct lines {
    size_t count;
    struct line at[MOST_LINES];
};

static void must(bool readable)
{
    if (readable)
        return;
    print("the page has a line of another form\n");
    leave(2);
}

/* Passes the text, if it is what comes next. */
static bool take(const uint8_t **at, const char *text)
{
    const uint8_t *next = *at;
    while (*text)
        if (*next++ != (uint8_t)*text++)
            return false;
    *at = next;
    return true;
}

static uint64_t take_hex(const uint8_t **at, int digits)
{
    uint64_t number = 0;
    while (digits--) {
        uint8_t digit = *(*at)++;
        bool decimal = '0' <= digit && digit <= '9';
        must(decimal || ('A' <= digit && digit <= 'F'));
        number = number * 16 + (decimal ? digit - '0' : digit - 'A' + 10);
    }
    return number;
}

static struct line take_line(const uint8_t **at)
{
    struct line line = {.of_first.reads = true};
    line.first = take_hex(at, 10);
    must(take(at, " "));
    line.last = take_hex(at, 10);
    must(take(at, " "));
    line.of_first.pa = take_hex(at, 12);
    line.of_first.writes = take(at, " RW");
    must(line.of_first.writes || take(at, " RO"));
    line.of_first.executes = take(at, " X\n");
    must(line.of_first.executes || take(at, " -\n"));
    return line;
}

static void read_page(struct lines *lines, const struct scene *s)
{
    static uint8_t page[S2_ANNEX_MAX];
    const uint8_t *at = page;
    uint64_t values[8];
    uint32_t row = s2_annex(page, S2_ANNEX_MAX, MAPS(s), &s->layout, values);
    if (row)
        refused("a page", row);
    must(LINE_LEN <= values[0] && values[0] <= S2_ANNEX_MAX && values[0] % LINE_LEN == 0);
    lines->count = values[0] / LINE_LEN - 1;
    for (size_t i = 0; i < lines->count; i++)
        lines->at[i] = take_line(&at);
    must(take(&at, LAST_LINE));
}

/* What the page says of an address: nothing, where it lies in no line. */
static struct verdict said(const struct lines *lines, uint64_t address)
{
    for (size_t i = 0; i < lines->count; i++) {
        const struct line *line = &lines->at[i];
        struct verdict verdict = line->of_first;
        verdict.pa += address - line->first;
        if (line->first <= address && address <= line->last)
            return verdict;
    }
    return (struct verdict){0};
}

static void judge(const struct lines *lines, uint64_t address)
{
    struct verdict page = said(lines, address);
    annex_addresses++;
    if (!agrees(address, page))
        differ("the machine differs from the page:", address, page);
}

void judge_annex(const struct scene *s, const struct addresses *list)
{
    static struct lines lines;
    read_page(&lines, s);
    annex_lines += lines.count;
    for (size_t i = 0; i < lines.count; i++) {
        judge(&lines, lines.at[i].first - 1);
        judge(&lines, lines.at[i].first);
        judge(&lines, lines.at[i].last);
        judge(&lines, lines.at[i].last + 1);
    }
    for (size_t i = 0; i < list->count; i++)
        judge(&lines, list->at[i]);
}
