/* What a fitter does with the editor: types in the description of two_vats item by item, meets refusals, and writes it out. What is
 * written is that description, byte for byte. The program returns 0 if all answers are the expected ones. examples/run builds and
 * runs it. */
#include <stdbool.h>
#include <stdio.h>
#include <string.h>

#include "shq.h"
#include "mill.h" /* the bytes of examples/ as arrays, those of two_vats among them */

enum { FILL = 0xA5, BEHIND = 16 };

/* The state that is lent to each call, with bytes behind it that no call may change; and the buffer. */
static uint8_t state[SHQ_EDITOR_BYTES + BEHIND], before[sizeof state];
static uint8_t buffer[SHQ_DESCRIPTION_MOST];

/* The names that the bytes do not have. Entry e is literal 2e, its complement the next. */
enum role { PART, PROBE, FEEDS };
enum kind { TOP, NAME, BOTH, EVERY, AT_LEAST };
enum literal {
    VAT = 2, HOT = 4, LIVE = 6, NO_LIVE_PART = 8, HAS_PROBE = 10, FEEDS_NO_VAT = 12, HOT_VAT = 14, WANTED = 16, RUNS = 18, IDLE_VAT = 20
};
#define NOT(literal) ((literal) ^ 1)

static const struct concept {
    uint8_t kind, role, first, second;
    uint16_t number;
} concepts[] = {
    {TOP, 0, 0, 0, 0},
    {NAME, 0, 0, 0, 0},                      /* vat */
    {NAME, 0, 0, 0, 0},                      /* hot */
    {NAME, 0, 0, 0, 0},                      /* live */
    {EVERY, PART, NOT(LIVE), 0, 0},          /* no live part */
    {AT_LEAST, PROBE, 0, 0, 1},              /* has a probe */
    {EVERY, FEEDS, NOT(VAT), 0, 0},          /* feeds no vat */
    {BOTH, 0, VAT, HOT, 0},                  /* a hot vat */
    {BOTH, 0, HOT_VAT, NO_LIVE_PART, 0},     /* the root */
    {BOTH, 0, HAS_PROBE, NOT(FEEDS_NO_VAT), 0}, /* runs */
    {BOTH, 0, VAT, NOT(RUNS), 0},            /* an idle vat */
};

/* Keeps the state as it is before a call that is to be refused. */
static void remember(void) { memcpy(before, state, sizeof state); }

static bool answers(const char *item, uint32_t answer, uint32_t expected)
{
    if (answer != expected)
        printf("%s: expected %lu, got %lu\n", item, (unsigned long)expected, (unsigned long)answer);
    return answer == expected;
}

static bool done(const char *item, uint32_t answer) { return answers(item, answer, SHQ_DONE * 65536UL); }

/* A refusal has its number and leaves every byte of the state. */
static bool refused(const char *item, uint32_t answer, uint32_t number)
{
    printf("%s: refused by rule %u\n", item, shq_number(answer));
    return answers(item, answer, number * 256) && memcmp(before, state, sizeof state) == 0;
}

static bool type_in(void)
{
    bool right = done("start", shq_edit_start(state, sizeof state));
    right &= done("part", shq_edit_role(state, sizeof state, 1));
    right &= done("probe", shq_edit_role(state, sizeof state, 0));
    right &= done("feeds", shq_edit_role(state, sizeof state, 0));
    right &= done("a probe is a part", shq_edit_inclusion(state, sizeof state, PROBE, PART));
    for (size_t e = 0; e < sizeof concepts / sizeof *concepts; e++) {
        const struct concept *c = concepts + e;
        right &= done("concept", shq_edit_concept(state, sizeof state, c->kind, c->role, c->first, c->second, c->number));
    }
    return right;
}

/* What a fitter may meet on the way. */
static bool stumble(void)
{
    remember();
    /* "Part" is transitive and probes are counted: were every part a probe, the count would go over parts of parts. */
    bool right = refused("every part a probe", shq_edit_inclusion(state, sizeof state, PART, PROBE), 5);
    /* Were every part fed, "feeds no vat" would ask for an "every" over the parts, which is not there. */
    right &= refused("every part fed", shq_edit_inclusion(state, sizeof state, PART, FEEDS), 7);
    right &= refused("a second top", shq_edit_concept(state, sizeof state, TOP, 0, 0, 0, 0), 4);
    right &= refused("a root that is not there", shq_edit_root(state, sizeof state, 22), 8);
    right &= refused("a state that is too short", shq_edit_rule(state, SHQ_EDITOR_BYTES - 1, NOT(IDLE_VAT)), 22);
    right &= refused("writing without a root", shq_edit_write(state, sizeof state, buffer, sizeof buffer), 2);
    return right;
}

static bool untouched(const uint8_t *from, size_t length)
{
    for (size_t i = 0; i < length; i++)
        if (from[i] != FILL)
            return false;
    return true;
}

/* Writes out, into a buffer that is one byte too short and then into one that is not. */
static bool write_out(void)
{
    size_t length = SHQ_EDITOR_WRITES(state);
    remember();
    bool right = refused("a short buffer", shq_edit_write(state, sizeof state, buffer, length - 1), 22) && untouched(buffer, sizeof buffer);
    right &= answers("write", shq_edit_write(state, sizeof state, buffer, sizeof buffer), SHQ_WRITTEN * 65536UL);
    bool same = length == sizeof two_vats_description && memcmp(buffer, two_vats_description, length) == 0;
    printf("written out: %u bytes, %s of two_vats\n", (unsigned)length, same ? "those" : "NOT those");
    return right && same && untouched(buffer + length, sizeof buffer - length);
}

int main(void)
{
    memset(state, FILL, sizeof state);
    memset(buffer, FILL, sizeof buffer);
    bool right = type_in();
    right &= stumble();
    right &= done("root", shq_edit_root(state, sizeof state, WANTED));
    right &= done("rule", shq_edit_rule(state, sizeof state, NOT(IDLE_VAT)));
    right &= write_out();
    right &= untouched(state + SHQ_EDITOR_BYTES, BEHIND);
    right &= shq_word(shq_check(buffer, SHQ_EDITOR_WRITES(state), two_vats_graph, sizeof two_vats_graph)) == SHQ_INHABITED;
    puts(right ? "all as expected" : "NOT as expected");
    return right ? 0 : 1;
}
