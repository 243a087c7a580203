/* What a panel does with a description and evidence: it weighs the evidence, acts on the answer, and writes and reads back the line of
 * a sample; and it judges a claim. The program returns 0 if all answers are the expected ones. examples/run builds and runs it. */
#include <stdbool.h>
#include <stdio.h>
#include <string.h>

#include "shq.h"
#include "mill.h" /* the bytes of examples/ as arrays; on a panel they lie in flash or come over a wire */

struct bytes {
    const uint8_t *at;
    size_t length;
};
#define BYTES(array) {array, sizeof array}

/* Room for every line. A panel may lend less: a line that does not fit is refused with 22, and nothing is written. */
static uint8_t buffer[SHQ_LINE_MOST];

enum { FILL = 0xA5 };

/* Whether the buffer from a place on is as it was before the writing. */
static bool untouched(size_t from)
{
    for (size_t i = from; i < sizeof buffer; i++)
        if (buffer[i] != FILL)
            return false;
    return true;
}

/* A refusal is neither yes nor no. Whoever stores a default in its place may store a false EMPTY. */
static void show_refusal(uint32_t answer)
{
    printf("refused by rule %u at record %u; that says neither yes nor no\n", shq_number(answer), shq_record(answer));
}

static bool as_expected(uint32_t answer, uint32_t expected)
{
    if (answer != expected)
        printf("    expected %lu, got %lu\n", (unsigned long)expected, (unsigned long)answer);
    return answer == expected;
}

/* Writes the line of a sample that keeps the rules and has the root, and reads it back. */
static bool build(struct bytes description, struct bytes sample)
{
    memset(buffer, FILL, sizeof buffer);
    uint32_t written = shq_write(description.at, description.length, sample.at, sample.length, buffer, sizeof buffer);
    if (shq_word(written) != SHQ_WRITTEN) { /* 21: more than 64 elements; or 11: the root is not in record 0 */
        show_refusal(written);
        return untouched(0);
    }
    size_t length = SHQ_LINE_BYTES(shq_entries(description.at, description.length), buffer[0]);
    bool holds = shq_word(shq_read(description.at, description.length, buffer, length)) == SHQ_HOLDS;
    printf("    a line of %u elements, %u bytes; read back it %s\n", (unsigned)buffer[0], (unsigned)length,
           holds ? "HOLDS" : "does not hold");
    return holds && untouched(length);
}

/* Weighs evidence and acts on the answer; true if it is the expected one and all that follows from it is kept. */
static bool weigh(const char *name, struct bytes description, struct bytes evidence, uint32_t expected)
{
    uint32_t answer = shq_check(description.at, description.length, evidence.at, evidence.length);
    bool kept = true;
    printf("%s: ", name);
    switch (shq_word(answer)) {
    case SHQ_INHABITED:
        puts("such a line can be built");
        kept = build(description, evidence);
        break;
    case SHQ_EMPTY:
        puts("no such line can be built");
        break;
    case SHQ_REFUSED:
        show_refusal(answer);
        break;
    case SHQ_WRITTEN: /* answers of the other functions */
    case SHQ_HOLDS:
    case SHQ_FAILS:
    case SHQ_HOLDS_OF_NOTHING:
    case SHQ_DONE:
        puts("no answer of shq_check");
        kept = false;
        break;
    }
    return as_expected(answer, expected) && kept;
}

/* What is no sample the writer refuses, a list with 9, and leaves every byte. */
static bool no_line(struct bytes description, struct bytes evidence, uint32_t number)
{
    memset(buffer, FILL, sizeof buffer);
    uint32_t answer = shq_write(description.at, description.length, evidence.at, evidence.length, buffer, sizeof buffer);
    return as_expected(answer, number * 256) && untouched(0);
}

/* The claim "every vat has a live probe": the literals C and D. They are the same in the three descriptions of live_probe; four_presses
 * has another D, as there the probe may be that of a press. */
enum { VAT = 2, LIVE_PROBE = 7, LIVE_PART = 77 };

/* Judges the claim and acts on the answer: only HOLDS may let a line run. True as in weigh. */
static bool judge(const char *name, struct bytes description, uint8_t live, struct bytes first, struct bytes second, uint32_t expected)
{
    uint32_t answer = shq_claim(description.at, description.length, VAT, live,
                                first.at, first.length, second.at, second.length);
    bool kept = true;
    printf("%s: ", name);
    switch (shq_word(answer)) {
    case SHQ_HOLDS:
        puts("HOLDS: there can be a vat, and every vat has a live probe");
        break;
    case SHQ_FAILS:
        puts("FAILS: there can be a vat without a live probe");
        kept = build(description, first); /* for the bench; the writer asks for the root in record 0, which a claim does not */
        break;
    case SHQ_HOLDS_OF_NOTHING:
        puts("HOLDS OF NOTHING: no vat can be built to these limits; they are to be looked at");
        break;
    case SHQ_REFUSED:
        show_refusal(answer);
        break;
    case SHQ_INHABITED: /* answers of the other functions */
    case SHQ_EMPTY:
    case SHQ_WRITTEN:
    case SHQ_DONE:
        puts("no answer of shq_claim");
        kept = false;
        break;
    }
    return as_expected(answer, expected) && kept;
}

static bool plain_questions(void)
{
    static const struct bytes two_vats = BYTES(two_vats_description), two_vats_sample = BYTES(two_vats_graph);
    static const struct bytes limits = BYTES(four_limits_description), limits_false = BYTES(four_limits_list);
    static const struct bytes limits_sample = BYTES(four_limits_graph);
    static const struct bytes none = BYTES(no_such_line_description), none_list = BYTES(no_such_line_list);
    static const struct bytes standby = BYTES(standby_probe_description), standby_list = BYTES(standby_probe_list);
    static const struct bytes gone_out = BYTES(standby_probe_row_gone_out);

    bool right = weigh("two vats, a sample", two_vats, two_vats_sample, SHQ_INHABITED * 65536UL);
    right &= weigh("four limits, a list", limits, limits_false, 19 * 256 + 7);
    right &= weigh("four limits, a sample", limits, limits_sample, SHQ_INHABITED * 65536UL);
    right &= weigh("no such line, a list", none, none_list, SHQ_EMPTY * 65536UL);
    right &= weigh("standby probes, a list", standby, standby_list, SHQ_EMPTY * 65536UL);
    right &= weigh("standby probes, a cell with a role too many", standby, gone_out, 18 * 256 + 2);
    right &= no_line(limits, limits_false, 9) && no_line(none, none_list, 9);
    return right;
}

static bool claims(void)
{
    static const struct bytes built = BYTES(live_probe_as_built_description), built_list = BYTES(live_probe_as_built_list);
    static const struct bytes built_sample = BYTES(live_probe_as_built_graph);
    static const struct bytes dead = BYTES(live_probe_two_dead_description), dead_sample = BYTES(live_probe_two_dead_graph);
    static const struct bytes no_vat = BYTES(live_probe_no_vat_description), no_vat_list = BYTES(live_probe_no_vat_list);
    static const struct bytes plain_list = BYTES(live_probe_no_vat_plain_list);
    static const struct bytes nothing = {live_probe_as_built_list, 0}; /* no second piece; the pointer is valid all the same */

    bool right = judge("as built, a list and a sample", built, LIVE_PROBE, built_list, built_sample, SHQ_HOLDS * 65536UL);
    right &= judge("two dead probes, a sample", dead, LIVE_PROBE, dead_sample, nothing, SHQ_FAILS * 65536UL);
    right &= judge("no vat, a list", no_vat, LIVE_PROBE, no_vat_list, nothing, SHQ_HOLDS_OF_NOTHING * 65536UL);

    /* Alone the list of "as built" is refused (20): it does not show that there can be a vat, nor that there can be none. With the sample
     * of "as built" that sample is refused (15): its vat has a probe too few by now. */
    right &= judge("no vat, the list as built", no_vat, LIVE_PROBE, built_list, nothing, 20 * 256 + 7);
    right &= judge("no vat, the list and the sample as built", no_vat, LIVE_PROBE, built_list, built_sample, 15 * 256);

    /* The plain question, "a vat without a live probe", is EMPTY both times. EMPTY is no yes to the claim. */
    right &= weigh("as built, the plain question", built, plain_list, SHQ_EMPTY * 65536UL);
    right &= weigh("no vat, the plain question", no_vat, plain_list, SHQ_EMPTY * 65536UL);
    return right;
}

/* The line of four_presses without the name of the fourth press, which the vat then lacks; and the line cut to the length that it would
 * have with name masks of 4 bytes, which is refused with 23. */
static bool lost_press(struct bytes description, struct bytes sample)
{
    enum { FOURTH = 33, RECORD = 4, RECORDS = 7 }; /* the name's entry; the press among the records of the sample */
    if (shq_word(shq_write(description.at, description.length, sample.at, sample.length, buffer, sizeof buffer)) != SHQ_WRITTEN)
        return false;
    size_t d = buffer[0], entries = shq_entries(description.at, description.length);
    size_t press = RECORD * (d / RECORDS); /* its copy 0, which is the one that a vat has */
    uint8_t *byte = buffer + SHQ_NAME_BYTES(entries) * (press + 1) - FOURTH / 8; /* in its name mask, high byte first */
    bool named = *byte >> FOURTH % 8 & 1;
    *byte ^= 1 << FOURTH % 8;
    uint32_t lost = shq_read(description.at, description.length, buffer, SHQ_LINE_BYTES(entries, d));
    uint32_t cut = shq_read(description.at, description.length, buffer, SHQ_LINE_BYTES(SHQ_NARROW_MOST, d));
    printf("four presses, the line without the fourth: it %s\n", shq_word(lost) == SHQ_FAILS ? "FAILS" : "does not fail");
    return as_expected(lost, SHQ_FAILS * 65536UL) && as_expected(cut, 23 * 256) && named;
}

/* Tables on both sides of 32 entries. */
static bool several_presses(void)
{
    static const struct bytes three = BYTES(three_presses_description), three_sample = BYTES(three_presses_graph);
    static const struct bytes four = BYTES(four_presses_description), four_sample = BYTES(four_presses_graph);
    static const struct bytes narrow_sample = BYTES(four_presses_narrow_graph), four_list = BYTES(four_presses_live_probe_list);
    static const struct bytes one = BYTES(one_press_for_two_description), one_list = BYTES(one_press_for_two_list);

    bool right = weigh("three presses, a sample", three, three_sample, SHQ_INHABITED * 65536UL);
    right &= weigh("four presses, a sample", four, four_sample, SHQ_INHABITED * 65536UL);
    right &= weigh("four presses, labels of 8 bytes", four, narrow_sample, 10 * 256);
    right &= weigh("one press for two, a list", one, one_list, SHQ_EMPTY * 65536UL);
    right &= weigh("four presses, the list of another root", four, one_list, 20 * 256 + 10);
    right &= no_line(four, narrow_sample, 10) && no_line(one, one_list, 9);
    right &= judge("four presses, a list and a sample", four, LIVE_PART, four_list, four_sample, SHQ_HOLDS * 65536UL);
    right &= lost_press(four, four_sample);
    return right;
}

/* The line of four_sensors with a fixed probe that is a standby probe, too: the vat has all that it asks for, but the two roles share a
 * filler. */
static bool shared_probe(struct bytes description, struct bytes sample)
{
    enum { FIXED = 1, STANDBY = 2, COPIES = 4 }; /* the roles; the copies of the sample's records: the vat is 0, its probes are 4 to 7 */
    if (shq_word(shq_write(description.at, description.length, sample.at, sample.length, buffer, sizeof buffer)) != SHQ_WRITTEN)
        return false;
    size_t d = buffer[0], entries = shq_entries(description.at, description.length);
    uint8_t *byte = buffer + 1 + SHQ_NAME_BYTES(entries) * d + 2 * COPIES + 1; /* low byte of the roles from the vat to its first probe */
    bool fixed = (*byte >> FIXED & 1) && !(*byte >> STANDBY & 1);
    *byte |= 1 << STANDBY;
    uint32_t shared = shq_read(description.at, description.length, buffer, SHQ_LINE_BYTES(entries, d));
    printf("four sensors, the line with a probe of both kinds: it %s\n", shq_word(shared) == SHQ_FAILS ? "FAILS" : "does not fail");
    return as_expected(shared, SHQ_FAILS * 65536UL) && fixed;
}

/* A fixed probe is never a standby probe. */
static bool kinds_of_probe(void)
{
    static const struct bytes three = BYTES(fixed_probe_description), three_list = BYTES(fixed_probe_list);
    static const struct bytes cited = BYTES(fixed_probe_cited_cell), shared = BYTES(fixed_probe_shared_probe);
    static const struct bytes four = BYTES(four_sensors_description), four_sample = BYTES(four_sensors_graph);

    bool right = weigh("three sensors, a list", three, three_list, SHQ_EMPTY * 65536UL);
    right &= weigh("three sensors, a barred cell that cites", three, cited, 18 * 256 + 1);
    right &= weigh("three sensors, probes of both kinds", three, shared, 13 * 256);
    right &= weigh("four sensors, a sample", four, four_sample, SHQ_INHABITED * 65536UL);
    right &= no_line(three, shared, 13);
    right &= shared_probe(four, four_sample);
    return right;
}

int main(void)
{
    bool right = plain_questions();
    right &= claims();
    right &= several_presses();
    right &= kinds_of_probe();
    puts(right ? "all as expected" : "NOT as expected");
    return right ? 0 : 1;
}
