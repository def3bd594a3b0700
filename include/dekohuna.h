/* Dekohuna: from a process table to a Petri net, its firings, and back to states of the process.
 *
 * For x86-64 Linux. `scripts/archive` writes target/staticlib/libcapi.a; link that archive, and the C library for
 * these functions:
 *     C library: memcpy memset
 * What each call returns and what it leaves in each buffer is proved in crates/capi.
 *
 * What a call returns. One word: DEKOHUNA_CODE(word) is how the call ended, an enum dekohuna_code;
 * DEKOHUNA_VALUE(word) is what was counted, as said at each call, and 0 where a call counts nothing.
 *
 * Buffers. A buffer is a pointer and its length in elements, not bytes. The pointer is aligned for its elements, is
 * valid for the whole length, and is not null, also where the length is 0. A buffer that a call may write overlaps no
 * other buffer of that call. Pointers are the caller's duty and no call checks them; every content of a buffer, and
 * every number, is allowed: what does not fit is refused.
 *
 * Where a call is refused by cause 1 to 11, 13, or 17 to 20, or a look or a call on a summary by any cause, no buffer
 * changes. Of other calls causes 12, 14, 15 and 16 leave the marking, and a run's history, as after the firings made
 * before the refusal; the value says how many these are. Where the answer is shorter than the buffer lent for it, the
 * rest of the buffer does not change.
 *
 * No call keeps anything for the next, allocates, or does input or output. Calls on buffers of their own may be made
 * at the same time.
 *
 * Words. A table has 16-bit words, an image and labels 32-bit words, a marking a byte for each place, 0 or 1. A state
 * has a word for each thread, its node, then one for each bound name, its value or 65535 where it is not held. A label
 * is three words, kind, a, b: 0 copy, node, formal; 1 release, node, name; 2 new, node, name; 3 silent, branch, 0;
 * 4 communication, send branch, receive branch; 5 call, node, 0. Kinds 0 and 1 are bookkeeping, the others are steps of
 * the process. docs/FORMATS.md has the layout of tables and images, the numbers of the places, and every cause.
 *
 * Order of calls. Build writes the image of a table, into as many words as size tells; the image's first word counts
 * the places, so it is the length of a marking. A replay of no numbers leaves the initial marking. A firing and a run
 * start at the marking that is lent, whatever it is; a run settles first: each time it fires the lowest enabled
 * bookkeeping transition, else the lowest enabled one. A look shows what a firing would leave, and fires nothing. Read
 * tells which state a marking stands for.
 *
 * Summaries. A summary beside a marking tells what can be done next without a search: for each transition a 32-bit
 * count of its inputs that are not marked, and a set of 64-bit words in which transition k is bit k mod 64 of word
 * k div 64, set where it is enabled; spare bits of the last word are 0. There are as many counts as transitions t, and
 * (t + 63) div 64 words. Make a summary once, and fire with it: it is then the summary of the marking after the firing.
 * A firing by another call leaves it as it was; a check finds out.
 *
 * Definitions that call themselves. Rewrite and the calls for originals take a table with such definitions, and every
 * other call refuses it by 9: rewrite it first, and lend the rewritten table to the others. There each such definition
 * has a copy, and the two call each other. A table without self-calls is rewritten to itself.
 */
#ifndef DEKOHUNA_H
#define DEKOHUNA_H

#include <stddef.h>
#include <stdint.h>

#ifdef __cplusplus
extern "C" {
#endif

#define DEKOHUNA_VALUE(word) ((uint64_t)(word) >> 8)
#define DEKOHUNA_CODE(word) ((unsigned)((uint64_t)(word) & 255u))

enum dekohuna_code {
    /* nothing is refused */
    DEKOHUNA_DONE = 0,

    /* a table under 13 words */
    DEKOHUNA_TABLE_SHORT = 1,
    /* a count beyond its bound, of the table or of the rewritten one */
    DEKOHUNA_TABLE_COUNTS = 2,
    /* an offset or the table's length not as the counts give */
    DEKOHUNA_TABLE_LAYOUT = 3,
    /* unknown kind; a field that must be 0 is not; choice of 0 branches */
    DEKOHUNA_TABLE_KINDS = 4,
    /* a number or range outside its section; New, receive or formal names no bound name; a number that the rewritten
       table does not have */
    DEKOHUNA_TABLE_RANGES = 5,
    /* a node not exactly once a root or child; child not above its parent; branch ranges, or non-empty argument
       ranges, not consecutive from 0 to the count in node order */
    DEKOHUNA_TABLE_SHAPE = 6,
    /* a bound name not bound exactly once, by its own kind */
    DEKOHUNA_TABLE_BINDING = 7,
    /* a name used where not held (publics are held everywhere) */
    DEKOHUNA_TABLE_SCOPE = 8,
    /* entry definition of another thread or with formals; call into another thread or to the caller's own
       definition, which rewrite and the calls for originals spare */
    DEKOHUNA_TABLE_CALLS = 9,
    /* lent output shorter than the answer */
    DEKOHUNA_OUTPUT_SHORT = 10,
    /* net header, length or initial list wrong */
    DEKOHUNA_IMAGE_WRONG = 11,
    /* record or arcs of the transition wrong */
    DEKOHUNA_RECORD_WRONG = 12,
    /* marking length not the place count, or a byte above 1 */
    DEKOHUNA_MARKING_WRONG = 13,
    /* transition number not below the count */
    DEKOHUNA_NO_TRANSITION = 14,
    /* not enabled */
    DEKOHUNA_NOT_ENABLED = 15,
    /* an output place marked that is not also an input */
    DEKOHUNA_CONTACT = 16,
    /* marking stands for no state */
    DEKOHUNA_NO_STATE = 17,
    /* state words malformed */
    DEKOHUNA_STATE_MALFORMED = 18,
    /* step not open */
    DEKOHUNA_NOT_OPEN = 19,
    /* a summary of a wrong length, or not the marking's */
    DEKOHUNA_SUMMARY_WRONG = 20,

    /* why a run ended where no cause stopped it; 202 also where a set has no transition */
    DEKOHUNA_LIMIT_REACHED = 200,
    DEKOHUNA_HISTORY_FULL = 201,
    DEKOHUNA_NOTHING_ENABLED = 202
};

/* Checks a table: 0, or the first of the causes 1 to 9 that applies. */
uint64_t dekohuna_check(const uint16_t *table, size_t table_words);

/* Writes the image of a table's net to the start of `out`; the value is the words written. Causes 1 to 10. After 10,
 * call again with the room that dekohuna_size tells. The image's first five words count places, transitions, input
 * arcs, output arcs and initial tokens; the sixth and seventh are where the initial places and the transitions start.
 * A transition has six words, of which the first three are its label. */
uint64_t dekohuna_build(const uint16_t *table, size_t table_words, uint32_t *out, size_t out_words);

/* Tells how many words the image of a table's net has, the room that dekohuna_build needs; the value is that number.
 * Causes 1 to 9. */
uint64_t dekohuna_size(const uint16_t *table, size_t table_words);

/* Fires a transition by its number; the value is 1 if it was made, else 0. Causes 11, 13, 14, 12, 15 and 16, looked at
 * in this order. Any image may be lent, also one that no table has. */
uint64_t dekohuna_fire(const uint32_t *image, size_t image_words, uint8_t *marking, size_t marking_bytes,
                       uint32_t transition);

/* Writes the marking that firing a transition would leave to the start of `next`, a byte for each place; the value is
 * the bytes written, the number of places. The marking is only read. Causes 11, 13, 14, 12, 15 and 16, as the firing
 * has them, then 10. */
uint64_t dekohuna_look(const uint32_t *image, size_t image_words, const uint8_t *marking, size_t marking_bytes,
                       uint32_t transition, uint8_t *next, size_t next_bytes);

/* Sets the marking to the image's initial one, whatever it held, and fires the numbers in turn; the value is the
 * firings made. Causes 11, 13 (for the length alone), then those of a firing. A replay of no numbers leaves the
 * initial marking. */
uint64_t dekohuna_replay(const uint32_t *image, size_t image_words, uint8_t *marking, size_t marking_bytes,
                         const uint32_t *numbers, size_t number_count);

/* Starts at the marking lent, fires the lowest enabled bookkeeping transition, else the lowest enabled one, over and
 * over, and writes the numbers to the history; the value is the firings made, and just as many words of the history
 * change. Before each firing it looks, in this order, whether `limit` firings are made (200), whether the history is
 * full (201) and whether nothing is enabled (202). Causes 11 and 13 before any firing; 12 at a malformed record met in
 * the search, which passes over all records up to an enabled bookkeeping transition; 16 where the transition to be
 * fired has it. Bookkeeping is told by the kind in the record, 0 or 1. */
uint64_t dekohuna_run(const uint32_t *image, size_t image_words, uint8_t *marking, size_t marking_bytes,
                      uint64_t limit, uint32_t *history, size_t history_words);

/* The same by the old rule: fires the lowest enabled transition. Its search passes over the records up to that one. */
uint64_t dekohuna_run_lowest(const uint32_t *image, size_t image_words, uint8_t *marking, size_t marking_bytes,
                             uint64_t limit, uint32_t *history, size_t history_words);

/* Writes the summary of a marking to the start of both lists; the value is the number of transitions. The marking is
 * only read. Causes 11, 13, 12 (for every record), then 10. */
uint64_t dekohuna_summary_make(const uint32_t *image, size_t image_words, const uint8_t *marking, size_t marking_bytes,
                               uint32_t *counts, size_t count_words, uint64_t *enabled, size_t enabled_words);

/* Fires a transition by its number, as the marking decides, and works out again the counts and bits of the transitions
 * that have a place in common with it; the others stay as they were lent. The value is 1 if it was made, else 0.
 * Causes 11, 13, 20 (a length that is not exact), 14, 12 (for every record), 15 and 16; none of them changes a
 * buffer. */
uint64_t dekohuna_summary_fire(const uint32_t *image, size_t image_words, uint8_t *marking, size_t marking_bytes,
                               uint32_t *counts, size_t count_words, uint64_t *enabled, size_t enabled_words,
                               uint32_t transition);

/* Checks that a summary is the marking's; the value is 0. Causes 11, 13, 20 (for the lengths), 12 (for every record),
 * 20 (for the contents, spare bits too). */
uint64_t dekohuna_summary_check(const uint32_t *image, size_t image_words, const uint8_t *marking, size_t marking_bytes,
                                const uint32_t *counts, size_t count_words, const uint64_t *enabled,
                                size_t enabled_words);

/* Tells the lowest transition of a set as it is lent, spare bits and further words too; the value is its number. Code
 * 202 where the set has none. */
uint64_t dekohuna_summary_lowest(const uint64_t *enabled, size_t enabled_words);

/* Tells how many transitions a set has as it is lent, spare bits and further words too; the value is that number. */
uint64_t dekohuna_summary_number(const uint64_t *enabled, size_t enabled_words);

/* Writes the words of the state that a marking of the table's net stands for; the value is the words written. Causes
 * 1 to 9, 13, 17, then 10. */
uint64_t dekohuna_read(const uint16_t *table, size_t table_words, const uint8_t *marking, size_t marking_bytes,
                       uint16_t *state, size_t state_words);

/* Writes the words of the starting state; the value is the words written. Causes 1 to 10. */
uint64_t dekohuna_start(const uint16_t *table, size_t table_words, uint16_t *state, size_t state_words);

/* Lists the steps that are open in a state as labels, in the image's label order; the value is the number of labels,
 * which take three words each. Causes 1 to 9, 18, then 10. */
uint64_t dekohuna_open_steps(const uint16_t *table, size_t table_words, const uint16_t *state, size_t state_words,
                             uint32_t *labels, size_t label_words);

/* Writes the words of the state after the step that the label (kind, a, b) names; the value is the words written.
 * Causes 1 to 9, 18, 19, then 10. */
uint64_t dekohuna_step(const uint16_t *table, size_t table_words, const uint16_t *state, size_t state_words,
                       uint32_t kind, uint32_t a, uint32_t b, uint16_t *next, size_t next_words);

/* Writes the rewritten table, in which no definition calls itself, to the start of `out`; the value is the words
 * written, at most 2,229. Causes 1 to 9, with self-calls spared, then 2 where the rewritten table is beyond a bound,
 * then 10. */
uint64_t dekohuna_rewrite(const uint16_t *table, size_t table_words, uint16_t *out, size_t out_words);

/* Tell which node, branch or name of the table one of the rewritten table is, or is a copy of; the value is its
 * number. The table is the one that was rewritten, not the rewritten one. Public names are themselves. Causes 1 to 9
 * and 2, as of dekohuna_rewrite, then 5 where the rewritten table does not have the number. */
uint64_t dekohuna_original_node(const uint16_t *table, size_t table_words, uint32_t number);
uint64_t dekohuna_original_branch(const uint16_t *table, size_t table_words, uint32_t number);
uint64_t dekohuna_original_name(const uint16_t *table, size_t table_words, uint32_t number);

#ifdef __cplusplus
}
#endif

#endif
