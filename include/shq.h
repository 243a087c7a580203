/* shq.h: the evidence checker for SHQ line descriptions, for programs in C.
 *
 * A description says what a production line is made of and asks for a class. Evidence says that a line with this class can be
 * built (a sample graph) or that none can (a closing list). A claim says of two classes that everything in the first is in the second.
 * The editor makes a description item by item and refuses what would break a rule.
 * docs/FORMAT.md has the bytes of all this, examples/firmware.c and examples/editor.c a use of it.
 *
 * Promised, for inputs of every length and every content:
 *   - each function returns, and its answer is the one that docs/FORMAT.md defines (of an editor's state that no shq_edit_* made, one
 *     that it allows); nothing has to be tested beforehand;
 *   - only shq_write and shq_edit_* write. shq_write and shq_edit_write write to the buffer: on WRITTEN the bytes of the output and none
 *     behind them, on a refusal none at all. The other shq_edit_* write to the state: on DONE its SHQ_EDITOR_BYTES and none behind them,
 *     on a refusal none at all;
 *   - no heap and no globals, so that calls may run beside each other; no recursion deeper than 9 calls;
 *   - description, evidence and line are read where they lie and are never copied.
 * The first two are proved (docs/DECISIONS.md, 5: what that rests on). Stack is measured, and held below 4,096 bytes a call (docs/COST.md).
 *
 * Asked of the caller:
 *   - each pointer is valid for the length given with it, and is not NULL, not even with length 0;
 *   - these bytes are changed by nobody else during the call;
 *   - the buffer overlaps neither the description nor the evidence, nor the editor's state. What is only read may overlap.
 * Built for x86-64 the library calls memcpy and memset of the C library and nothing else; built for a processor of 32 bits it may call the
 * compiler's runtime too.
 */
#ifndef SHQ_H
#define SHQ_H

#include <stddef.h>
#include <stdint.h>

#ifdef __cplusplus
extern "C" {
#endif

/* An answer is word * 65536 + number * 256 + record. Number and record are 0 unless the word is SHQ_REFUSED. */
enum shq_words {
    SHQ_REFUSED = 0,   /* a rule is broken: this says nothing of the class or the claim, neither yes nor no */
    SHQ_INHABITED = 1, /* shq_check: such a line can be built */
    SHQ_EMPTY = 2,     /* shq_check: no finite line of any size has the class, and no more than that: it is no yes to a claim */
    SHQ_WRITTEN = 3,   /* shq_write: the line stands in the buffer; shq_edit_write: the description does */
    SHQ_HOLDS = 4,     /* shq_read: this is a line of the description, and it has the class; shq_claim: see there */
    SHQ_FAILS = 5,     /* shq_read: it is not, or has not; shq_claim: see there */
    SHQ_HOLDS_OF_NOTHING = 6, /* shq_claim: see there */
    SHQ_DONE = 7       /* shq_edit_*: it is put in */
};

static inline enum shq_words shq_word(uint32_t answer) { return (enum shq_words)(answer >> 16); }
static inline unsigned shq_number(uint32_t answer) { return (unsigned)(answer >> 8 & 255); }
static inline unsigned shq_record(uint32_t answer) { return (unsigned)(answer & 255); }

/* The numbers of refusals. The first that applies is answered, in the order of FORMAT 8, and of FORMAT 11 for a claim. The record is that
 * of the evidence that breaks the rule, from 0; of 20 it is the last, and of 1 to 9 and 21 to 26 it is 0. Of a state that it
 * made the editor answers 2 to 8, 22 and 25, in the order that is told below.
 *
 *    1  directory      the description is shorter than its head, or its three parts, four if the first offset is 16, do not fill it one
 *                      after another
 *    2  part           roles, concepts, question or the fourth part have a length that is no whole number of items, or too few or too
 *                      many; of shq_edit_write: a role, an entry or the root is not put in yet
 *    3  role           a transitive byte above 1, or an inclusion in a role that is not there; of shq_edit_inclusion: either role is not
 *    4  entry          a field of a concept entry that its kind does not allow
 *    5  simple         "at least" on a role that is transitive or includes a transitive one; of shq_edit_inclusion: it would make it so
 *    6  twin           a concept entry that stands in the table already
 *    7  missing every  an "every R l" without the "every T l" of a transitive T below R; of shq_edit_inclusion: it would put T below R
 *    8  question       root or rule past the table, as it is when the editor is given them
 *    9  bundle         the evidence's head or its records' places are off, or a closing list was to be written as a line
 *   10  form           a record of a length, step or shape that there is not, so also a graph with labels of the other width
 *   11  label          a graph's label with a literal too many, too few, or beside its opposite
 *   12  both           a "both" in a label without its two literals, or its complement without the opposite of one
 *   13  edge           an edge with a target, a set of roles or a count that there cannot be, so also with two roles that never share a
 *                      filler
 *   14  every          an edge to a target that an "every" does not allow, or no edge that its complement asks for
 *   15  count          an "at least" with too few fillers, or its complement with too many or with undecided ones
 *   16  cite           a closing record names a record that does not come before it, or a literal, an entry or a rule that there is not;
 *                      with three parts also a cell byte of 254
 *   17  step           a step does not follow, or a counting step's rows are not rows of its label, rising
 *   18  cell           a cell is shut by a record that does not fit what is known of its fillers; with four parts also a cell that its
 *                      roles bar and that has not the byte 254, or another that has
 *   19  tree           a counting step's tree splits what it may not, or a leaf leaves its limits open
 *   20  end            the last record rules out less than is wanted: that nothing has the root, or what a claim wants of a list
 *   21  big            the line would have 65 elements or more
 *   22  short          the buffer does not hold the line or the description, or the editor's state has fewer than SHQ_EDITOR_BYTES
 *   23  line form      a line of a wrong length, of no elements or more than 64, or with a name or role that there is not
 *   24  claim          C or D is no literal of the table, or no answer has pieces of these kinds in this order
 *   25  full           the editor's table of roles, entries or rules has as many as there may be: 16, 64 and 16
 *   26  disjoint       a record of two roles that never share a filler names a role that is not there, the same role twice, or a role
 *                      that is transitive or includes a transitive one; it comes right after 8
 */

/* The most bytes that each can have without a refusal: a graph, as INHABITED or in a claim; a list, as EMPTY or for HOLDS OF NOTHING, and
 * for HOLDS; evidence, to pass test 9. */
#define SHQ_DESCRIPTION_MOST 497 /* the editor's have three parts, and 461 at most */
#define SHQ_GRAPH_MOST 11522
#define SHQ_LIST_MOST 65557
#define SHQ_CLAIM_LIST_MOST 69394
#define SHQ_EVIDENCE_MOST 131070
#define SHQ_LINE_MOST 8705

/* A description of more than 32 concept entries is wide: each label of its evidence takes 16 bytes in place of 8, and each name mask of its
 * lines 8 in place of 4. shq_entries gives the number of entries that a description's directory tells, 0 if it has fewer than 12 bytes; it
 * means something for an accepted description alone. */
#define SHQ_ENTRIES_MOST 64
#define SHQ_NARROW_MOST 32
#define SHQ_LABEL_BYTES(entries) ((entries) > SHQ_NARROW_MOST ? 16 : 8)
#define SHQ_NAME_BYTES(entries) ((entries) > SHQ_NARROW_MOST ? 8 : 4)

static inline size_t shq_entries(const uint8_t *description, size_t description_length) {
    return description_length < 12 ? 0 : (size_t)(description[6] * 256 + description[7]) / 6;
}

/* The bytes of a line of d elements, of a description with so many entries; d is the line's first byte, 1 to 64. */
#define SHQ_LINE_BYTES(entries, d) ((size_t)1 + SHQ_NAME_BYTES(entries) * (size_t)(d) + 2 * (size_t)(d) * (size_t)(d))

/* Weighs evidence: SHQ_INHABITED, SHQ_EMPTY, or SHQ_REFUSED with 1 to 20 or 26. */
uint32_t shq_check(const uint8_t *description, size_t description_length,
                   const uint8_t *evidence, size_t evidence_length);

/* Judges the claim "every C is D", where c and d are the numbers of the literals C and D. The root is not used; it is tested all the same.
 *
 *   SHQ_HOLDS             no finite line has an element with C and not D, and some line has one with C.
 *                         Asked for: a list that ends with no literal but 0, C and the opposite of D; behind it a graph with C in record 0.
 *   SHQ_FAILS             some finite line has an element with C and not D.
 *                         Asked for: a graph with C and the opposite of D in record 0; no second piece.
 *   SHQ_HOLDS_OF_NOTHING  no finite line of any size has an element with C: the claim is true, and says nothing of any line.
 *                         Asked for: a list that ends with no literal but 0 and C; no second piece.
 *   SHQ_REFUSED           with 1 to 20, 24 or 26, in this order: 1 to 8; 26; 24 of C and D; 9 of the first piece, and of the second if it
 *                         is not empty; 24 of the pieces' kinds; 10 to 20 of the first piece, then of the second. From 10 on the record
 *                         counts within the piece that is refused; the answer does not say which of the two that is.
 *
 * No second piece is a length of 0; its pointer may not be NULL all the same. shq_write asks for the root: it writes the graph of a claim
 * only if record 0 of it has the root, too. */
uint32_t shq_claim(const uint8_t *description, size_t description_length, uint8_t c, uint8_t d,
                   const uint8_t *first, size_t first_length,
                   const uint8_t *second, size_t second_length);

/* Writes the line of a sample graph: SHQ_WRITTEN, or SHQ_REFUSED with 1 to 15, 21, 22 or 26.
 * It is written exactly if shq_check answers SHQ_INHABITED, 64 elements are enough and so is the buffer.
 * What it wrote, SHQ_LINE_BYTES(shq_entries(description, description_length), buffer[0]) bytes, shq_read answers with SHQ_HOLDS. */
uint32_t shq_write(const uint8_t *description, size_t description_length,
                   const uint8_t *evidence, size_t evidence_length,
                   uint8_t *buffer, size_t buffer_length);

/* Reads a line by the meaning of SHQ: SHQ_HOLDS, SHQ_FAILS, or SHQ_REFUSED with 1 to 8, 23 or 26. */
uint32_t shq_read(const uint8_t *description, size_t description_length,
                  const uint8_t *line, size_t line_length);

/* The editor. The caller lends its state, SHQ_EDITOR_BYTES or more, of which the first SHQ_EDITOR_BYTES are used; nothing is kept between
 * calls but these bytes, so they may be copied, stored and lent again. shq_edit_start makes them, whatever they were before, and the
 * others take them as the last call left them. Byte 0 is the number of roles, 1 of entries, 2 whether a root is set, 3 of rules; then
 * come the 48 bytes of the roles, 384 of the concepts and 17 of the question, as in a description, with 0 behind what is there.
 *
 * Each operation answers SHQ_DONE, or SHQ_REFUSED: with 22 if the state has too few bytes; then with 25 if the table that it adds to is
 * full; then with the smallest number of 3 to 8 that the description would break with the item put in. A refusal leaves every byte.
 *
 *   shq_edit_start      nothing is put in. SHQ_DONE, or 22.
 *   shq_edit_role       adds a role without parents, the next number; transitive is 0 or 1, else 3. Or 25.
 *   shq_edit_inclusion  puts a role below a parent: every pair of the role is one of the parent. 3 if either is not there, then 5, then 7.
 *   shq_edit_concept    adds an entry, the next number, with the fields of FORMAT 2; the first is "top". Or 25, then 4 to 7.
 *   shq_edit_root       sets the root; one that was set before is forgotten. 8 if there is no such literal.
 *   shq_edit_rule       adds a rule behind those that are there. 25, or 8.
 *   shq_edit_write      writes the description out: SHQ_WRITTEN, or 22 if the state has too few bytes, then 2, then 22 if the buffer has.
 *
 * Of a state made by these alone, what is written out is exactly what was put in, each part in the order of the calls, and shq_check never
 * refuses it with 1 to 8 or 26. It has SHQ_EDITOR_WRITES(state) bytes.
 *
 * Bytes that no operation made are safe to lend: the answer is SHQ_DONE, SHQ_WRITTEN or a refusal, no byte changes but the
 * SHQ_EDITOR_BYTES of the state or what is written to the buffer, 461 bytes at most, and a refusal leaves them all. But what
 * is then written out may be a description that shq_check refuses, and SHQ_EDITOR_WRITES(state) need not be its length. */
#define SHQ_EDITOR_BYTES 453
#define SHQ_EDITOR_WRITES(state) ((size_t)13 + 3 * (size_t)(state)[0] + 6 * (size_t)(state)[1] + (size_t)(state)[3])

uint32_t shq_edit_start(uint8_t *state, size_t state_length);
uint32_t shq_edit_role(uint8_t *state, size_t state_length, uint8_t transitive);
uint32_t shq_edit_inclusion(uint8_t *state, size_t state_length, uint8_t role, uint8_t parent);
uint32_t shq_edit_concept(uint8_t *state, size_t state_length, uint8_t kind, uint8_t role, uint8_t first, uint8_t second, uint16_t number);
uint32_t shq_edit_root(uint8_t *state, size_t state_length, uint8_t literal);
uint32_t shq_edit_rule(uint8_t *state, size_t state_length, uint8_t literal);
uint32_t shq_edit_write(const uint8_t *state, size_t state_length, uint8_t *buffer, size_t buffer_length);

#ifdef __cplusplus
}
#endif

#endif
