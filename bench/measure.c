/* Makes the one call that an input asks for, to be counted by callgrind, and prints its answer and the stack that it took.
 * The ending of the file's name says the call: .weigh, .claim, .write, .read or .edit. The file has the description's length in two bytes,
 * the description, then evidence or a line; for a claim C, D, the first piece's length in three bytes, the first piece, the second.
 * A .edit is a script of the editor, in the notation of the rows of editor_vectors: its last item is the one call.
 * Exits with 1 if a line that was written does not read HOLDS, a description that was written is refused by 1 to 8, or an item before the
 * last is not done. */
#include <stdbool.h>
#include <stdio.h>
#include <stdlib.h>
#include <string.h>

#include "shq.h"

static uint8_t input[2 + 65535 + 5 + 2 * SHQ_EVIDENCE_MOST + 1];
static uint8_t buffer[SHQ_LINE_MOST];

/* The editor's state; it is to take less than a kilobyte. */
static uint8_t state[SHQ_EDITOR_BYTES];
typedef char state_is_small[SHQ_EDITOR_BYTES < 1024 ? 1 : -1];

/* The stack below the caller is painted before the call; the lowest byte that is another colour afterwards was the call's. */
enum { PAINTED = 65536, COLOUR = 0xA5 };
static volatile uint8_t *lowest;
static uintptr_t top;

__attribute__((noinline)) static void paint(void)
{
    volatile uint8_t region[PAINTED];
    for (size_t i = 0; i < PAINTED; i++)
        region[i] = COLOUR;
    lowest = region;
    top = (uintptr_t)__builtin_frame_address(0) + 2 * sizeof(void *); /* the caller's end: above its frame pointer and return address */
}

/* From the end of the caller's frame, so with the return address. */
__attribute__((noinline)) static size_t painted_over(void)
{
    size_t i = 0;
    while (i < PAINTED && lowest[i] == COLOUR)
        i++;
    return (size_t)(top - (uintptr_t)lowest) - i;
}

/* The call that a file asks for, by the ending of its name; the order of `endings`. */
enum call { WEIGH, CLAIM, WRITE, READ, EDIT, CALLS };
static const char *const endings[CALLS] = {".weigh", ".claim", ".write", ".read", ".edit"};

static enum call call_of(const char *name)
{
    const char *ending = strrchr(name, '.');
    enum call call = WEIGH;
    while (call < CALLS && (ending == NULL || strcmp(ending, endings[call]) != 0))
        call++;
    return call;
}

struct bytes {
    const uint8_t *at;
    size_t length;
};

/* The first `length` bytes are cut off and answered; no bytes at address 0 if there are fewer. */
static struct bytes cut(struct bytes *rest, size_t length)
{
    struct bytes front = {NULL, 0};
    if (rest->length < length)
        return front;
    front.at = rest->at;
    front.length = length;
    rest->at += length;
    rest->length -= length;
    return front;
}

/* Calls with the stack painted, and tells how much of it the call took. */
static uint32_t make(enum call call, struct bytes description, struct bytes head, struct bytes first, struct bytes rest, size_t *stack)
{
    uint32_t answer = 0;
    paint();
    if (call == WRITE)
        answer = shq_write(description.at, description.length, rest.at, rest.length, buffer, sizeof buffer);
    else if (call == READ)
        answer = shq_read(description.at, description.length, rest.at, rest.length);
    else if (call == CLAIM)
        answer = shq_claim(description.at, description.length, head.at[0], head.at[1], first.at, first.length, rest.at, rest.length);
    else
        answer = shq_check(description.at, description.length, rest.at, rest.length);
    *stack = painted_over();
    return answer;
}

/* An item of a script: a letter, and up to five numbers with commas between. */
struct item {
    char letter;
    unsigned long given[5];
};

/* Cuts the next item off the text; its letter is 0 if there is none. */
static struct item next_item(const char **text)
{
    struct item item = {0, {0, 0, 0, 0, 0}};
    *text += strspn(*text, " \n");
    if (**text == 0)
        return item;
    item.letter = *(*text)++;
    for (size_t k = 0; k < 5; k++) {
        char *end;
        item.given[k] = strtoul(*text, &end, 10);
        *text = *end == ',' ? end + 1 : end;
    }
    return item;
}

/* What an item asks for; a refusal without a number if there is no such item. */
static inline uint32_t play(const struct item *item)
{
    const unsigned long *x = item->given;
    switch (item->letter) {
    case 'S': return shq_edit_start(state, sizeof state);
    case 'R': return shq_edit_role(state, sizeof state, (uint8_t)x[0]);
    case 'I': return shq_edit_inclusion(state, sizeof state, (uint8_t)x[0], (uint8_t)x[1]);
    case 'C':
        return shq_edit_concept(state, sizeof state, (uint8_t)x[0], (uint8_t)x[1], (uint8_t)x[2], (uint8_t)x[3], (uint16_t)x[4]);
    case 'Q': return shq_edit_root(state, sizeof state, (uint8_t)x[0]);
    case 'U': return shq_edit_rule(state, sizeof state, (uint8_t)x[0]);
    case 'W': return shq_edit_write(state, sizeof state, buffer, sizeof buffer);
    default: return 0;
    }
}

/* The last item, which callgrind counts; with the few instructions here that find the call. Not static, so that it keeps its name. */
__attribute__((noinline)) uint32_t last_item(const struct item *item);
uint32_t last_item(const struct item *item) { return play(item); }

/* Whether the description in the buffer is accepted: then no evidence is 9. */
static bool accepted(void) { return shq_number(shq_check(buffer, SHQ_EDITOR_WRITES(state), buffer, 0)) == 9; }

/* Plays a script. Whether all items before the last were done, and what was written, if it was, is accepted. */
static bool play_script(const char *text, uint32_t *answer, size_t *stack)
{
    bool done = true;
    struct item item = next_item(&text), next = next_item(&text);
    for (; next.letter != 0; item = next, next = next_item(&text))
        done &= shq_word(play(&item)) == SHQ_DONE;
    paint();
    *answer = last_item(&item);
    *stack = painted_over();
    return done && (shq_word(*answer) != SHQ_WRITTEN || accepted());
}

static void tell(uint32_t answer, size_t stack)
{
    static const char *const names[] = {"REFUSED", "INHABITED", "EMPTY", "WRITTEN", "HOLDS", "FAILS", "HOLDS OF NOTHING", "DONE"};
    printf("%s %u %u\t%u\n", names[shq_word(answer)], shq_number(answer), shq_record(answer), (unsigned)stack);
}

int main(int count, char **words)
{
    FILE *file = count == 2 ? fopen(words[1], "rb") : NULL;
    enum call call = count == 2 ? call_of(words[1]) : CALLS;
    if (file == NULL || call == CALLS) {
        fputs("usage: measure FILE, a .weigh, .claim, .write, .read or .edit that can be read\n", stderr);
        return 2;
    }
    struct bytes rest = {input, fread(input, 1, sizeof input, file)};
    bool whole = rest.length < sizeof input;
    uint32_t answer;
    size_t stack;
    if (whole && call == EDIT) {
        bool right = play_script((const char *)input, &answer, &stack); /* behind what was read stand zeros */
        tell(answer, stack);
        return right ? 0 : 1;
    }
    struct bytes length = cut(&rest, 2);
    struct bytes description = cut(&rest, length.at == NULL ? sizeof input : (size_t)length.at[0] * 256 + length.at[1]);
    struct bytes head = {NULL, 0}, first = {NULL, 0};
    if (call == CLAIM) {
        head = cut(&rest, 5);
        first = cut(&rest, head.at == NULL ? sizeof input : (size_t)head.at[2] * 65536 + (size_t)head.at[3] * 256 + head.at[4]);
    }
    if (!whole || description.at == NULL || (call == CLAIM && first.at == NULL)) {
        fputs("the file is shorter than it says, or too long\n", stderr);
        return 2;
    }
    answer = make(call, description, head, first, rest, &stack);
    tell(answer, stack);
    size_t written = SHQ_LINE_BYTES(shq_entries(description.at, description.length), buffer[0]);
    bool read_back = shq_word(answer) != SHQ_WRITTEN || shq_word(shq_read(description.at, description.length, buffer, written)) == SHQ_HOLDS;
    return read_back ? 0 : 1;
}
