/* Tinzoher: the pruning pass of the Starlark compiler, its verdicts, how often a truth is known, its inlining checks,
 * and the stored form of a rule.
 *
 * Link crates/exports/out/libexports.a, which `rt lib` in crates/exports proves and writes (x86-64 Linux). It needs
 * nothing but memset, allocates nothing, keeps no state and has no global data that changes: any number of threads may
 * call it.
 *
 * Every function that answers returns 0 where an answer is given, and else the number of a refusal:
 *
 *    1  the file is empty, over 65,536 bytes or no multiple of 512     place: its length
 *    2  a block's number or its count of words is wrong                place: the byte where the block begins
 *    3  a block's sum is wrong                                         place: the same byte
 *    4  a word behind the last rule word is not zero                   place: the byte where its block begins
 *    5  there are no words, or over 16,128                             place: how many
 *    6  the work words are under 16 * words + 64                       place: that number
 *    7  a node is deeper than 200                                      place: its word, counted from 0
 *    8  the words end early                                            place: the word that is missing
 *    9  a kind, detail or payload is wrong                             place: its word
 *   10  words remain                                                   place: the first of them
 *   11  the result is short                                            place: the size needed, in the result's elements
 *   19  expressions of no node, or of over 20, are not counted         place: how many nodes
 *
 * `values` takes the answer's values, or the place in values[0] where a number was returned. As many of them as there
 * is room for (`values_len`) are written, and the rest of `values` stays as it was, so that a caller who wants fewer
 * lends fewer; three are always enough, and two for all functions but tinzoher_truth_counts.
 *
 * Buffers. A pointer and the count of its elements stand for a buffer. Where the count is not 0, the pointer must be
 * aligned for its type and all those elements must be readable, and writable where the pointer is not const; where it
 * is 0, the pointer may be null. A buffer that is written must not overlap any other buffer of the same call. Nothing
 * is asked of the content: any bytes, words and counts get an answer, and nothing is read or written outside the
 * buffers.
 *
 * A refusal leaves `result` as it was, and an answer leaves the elements behind it as they were.
 *
 * What each function gives is stated in crates/exports/src (entry.rt, and state.rt for a last block) and proved: the
 * number, the values and every lent buffer equal what the definitions in crates/spec/specs give, for every input; for
 * the state of a last block and for the counts of truths, those in crates/last_block/specs and crates/counting/specs
 * too.
 *
 * Stack. Calls nest by the depth of the words, of which at most 200 levels are read; the chains of Seq that pruning
 * joins, thousands of links long, are passed along by loops. The needs below were measured on a painted stack, over
 * words of 200 levels, of every kind and of kinds in turn, and for pruning by a search for the rules that take most, of
 * 18,418 rules (docs/PERFORMANCE.md). They are no bound for all rules; 512 KiB leave room for more.
 *
 * Time. Real rules take microseconds, but a rule of 14,741 words was found for which tinzoher_prune took 8.2 seconds on
 * one machine and 16.9 on another (docs/PERFORMANCE.md). A call cannot be stopped from outside: where rules come from
 * strangers, call it where it can be given up.
 */
#ifndef TINZOHER_H
#define TINZOHER_H

#include <stdbool.h>
#include <stddef.h>
#include <stdint.h>

#ifdef __cplusplus
extern "C" {
#endif

/* Reads a file of blocks: its rule words go to the start of `result`. 16,128 words of room are always enough.
 * values[0]: how many words. Refusals: 1 to 4, 11. Stack: under 1 KiB. */
uint32_t tinzoher_read_blocks(
    const uint8_t *file, size_t file_len,
    uint32_t *result, size_t result_len,
    uint64_t *values, size_t values_len);

/* Writes rule words as a file of blocks to the start of `result`; the words are not looked at. 512 bytes of room for
 * every 126 words are enough. values[0]: how many bytes. Refusals: 5, 11. Stack: under 1 KiB. */
uint32_t tinzoher_write_blocks(
    const uint32_t *words, size_t words_len,
    uint8_t *result, size_t result_len,
    uint64_t *values, size_t values_len);

/* The last block of a file, for whoever is handed its words one at a time and once, as a card store is. The caller
 * keeps the state: six numbers, which are told here for their size alone. Begin it by tinzoher_last_block_new, hand
 * over the words in order by tinzoher_last_block_step, and ask for the answer by tinzoher_last_block_answer, at any
 * time and as often as wanted. Nothing is asked of the state's content either: every function is defined for any six
 * numbers. `block` must not be null, must be aligned, and must not overlap `values`. Stack of each: under 1 KiB. */
struct tinzoher_last_block {
    uint32_t number;
    uint32_t seen;
    uint32_t head;
    uint32_t sum;
    uint32_t filled;
    uint32_t latest;
};

/* The state before any word, for a block that is to have this number, whatever `block` holds. The number of a file's
 * last block is how many blocks come before it. */
void tinzoher_last_block_new(struct tinzoher_last_block *block, uint16_t number);

/* Takes the next word. Behind the 128th no word changes anything. */
void tinzoher_last_block_step(struct tinzoher_last_block *block, uint32_t word);

/* What tinzoher_read_blocks would say of that block.
 * values[0] and values[1]: 0 and 0 while fewer than 128 words were taken; then 1 and the count of its rule words, which
 * are its words 1 and on. Refusals: 2 to 4, at 512 times the number that the block was to have. */
uint32_t tinzoher_last_block_answer(
    const struct tinzoher_last_block *block,
    uint64_t *values, size_t values_len);

/* Whether the expression that the words hold cannot fail and has no effect.
 * values[0]: 0 no, 1 yes. Refusals: 5, 7 to 10. Stack: 23 KiB. */
uint32_t tinzoher_is_pure_infallible(
    const uint32_t *words, size_t words_len,
    uint64_t *values, size_t values_len);

/* The truth of the expression, where it is known without running anything.
 * values[0]: 0 no, 1 yes, 2 unknown. Refusals: 5, 7 to 10. Stack: 23 KiB. */
uint32_t tinzoher_is_pure_infallible_to_bool(
    const uint32_t *words, size_t words_len,
    uint64_t *values, size_t values_len);

/* Whether the expression can only give a bool.
 * values[0]: 0 no, 1 yes. Refusals: 5, 7 to 10. Stack: 23 KiB. */
uint32_t tinzoher_is_definitely_bool(
    const uint32_t *words, size_t words_len,
    uint64_t *values, size_t values_len);

/* Whether a loop over the expression does nothing: it is a list, tuple or dict with no parts, or an other constant
 * marked empty. A string is none, not even the empty one, for a loop over a string fails.
 * values[0]: 0 no, 1 yes. Refusals: 5, 7 to 10. Stack: 23 KiB. */
uint32_t tinzoher_is_iterable_empty(
    const uint32_t *words, size_t words_len,
    uint64_t *values, size_t values_len);

/* Whether the expression is safe to inline into the calls of a function of `param_count` parameters.
 * values[0]: 0 no, 1 yes. values[1]: the nodes that were entered. On a yes these are all of them. On a no they are, in
 * word order, those up to and including the first that is forbidden (a captured local, a module's value, a def, or a
 * local not below `param_count`), or 101 if the limit came first: no node is entered after 101 others.
 * Refusals: 5, 7 to 10. Stack: 23 KiB. */
uint32_t tinzoher_is_safe_to_inline_expr(
    const uint32_t *words, size_t words_len,
    uint32_t param_count,
    uint64_t *values, size_t values_len);

/* What the body that the words hold (a rule) gives to inlining, of a function with `params` parameters of which the
 * first takes a position or not, with star parameters or none, and with `param_variables` parameter variables.
 * values[0] and values[1]: 0 and 0, neither; 1 and a text's number, a type test; 2 and the word where its expression
 * begins, a safe return; 3 and 0, None. Refusals: 5, 7 to 10. Stack: 45 KiB. */
uint32_t tinzoher_inline_def_body(
    const uint32_t *words, size_t words_len,
    uint32_t params, bool first_positional, bool star, uint32_t param_variables,
    uint64_t *values, size_t values_len);

/* Prunes the rule that the words hold: the pruned rule's words go to the start of `result`; three times the words are
 * always enough. The pruned rule runs as the rule does: the same operations on the same operands in the same order, and
 * the same end, whatever the operations answer. In every list of it, at any depth, no statement follows a Break,
 * Continue or Return, no expression statement is pure (as tinzoher_is_pure_infallible tells it), no If statement has
 * two empty arms, or a Not or a Seq as its condition, and no loop is over an empty iterable (as
 * tinzoher_is_iterable_empty tells it).
 * `work` lends at least 16 * words_len + 64 words of any content; it is as it was after refusals 5 and 6, and all zero
 * after everything else. Lend no more than is needed: all of it is cleared.
 * values[0]: how many words. values[1]: the foldable places that were met. Refusals: 5 to 11. Stack: 184 KiB. */
uint32_t tinzoher_prune(
    const uint32_t *words, size_t words_len,
    uint32_t *work, size_t work_len,
    uint32_t *result, size_t result_len,
    uint64_t *values, size_t values_len);

/* How often truth is known: of all expressions of exactly `n` nodes, built from True, False, Local 0, Not, And and Or,
 * how many have truth yes, no and unknown, as tinzoher_is_pure_infallible_to_bool tells it. `n` is from 1 to 20.
 * values[0]: yes. values[1]: no. values[2]: unknown. Refusals: 19. Stack: under 1 KiB. */
uint32_t tinzoher_truth_counts(uint32_t n, uint64_t *values, size_t values_len);

#ifdef __cplusplus
}
#endif

#endif
