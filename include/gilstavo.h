/* The public calls of libgilstavo.a: from a claimed budget to a loadable graph.
 *
 * `tests/library build` writes target/staticlib/libgilstavo.a (x86-64, System V calling convention).
 *
 * A sheet is a row of 16-bit words; records are numbered from 1, and 0 ends a chain (docs/FORMATS.md has an example of each). Sheets have
 * two versions: in the first a sheet has one budget, in the second, whose first word is 0, 1 to 4 of them (k), strictly rising, each at
 * most 500. The records are the same, and a build makes a bounded sheet of the version of its graph sheet, a conversion a graph sheet of the
 * version of its operation sheet.
 *   Graph sheet:   N, E, B, or 0, N, E, k, k budgets; then N block records of cost, first edge; E edge records of target block, next edge.
 *   Bounded sheet: C, F, B, or 0, C, F, k, k budgets, k entries; then C copy records of block, low, first edge; F edge records of target
 *                  copy (0: the exception exit), next edge.
 *                  First version: copy 1 is the start, copy 2 the exit; the record of copy i begins at word 3 * i, so sheet[3 * i] is
 *                  its block.
 *                  Second version: an entry is the copy of block 1 with which its budget starts, or 0 where nothing fits it; equal ones
 *                  are one copy. The copies of block 1 stand first, and the only copy of block 2, the exit, is behind them. The record of
 *                  copy i begins at word 1 + 2k + 3 * i.
 *   Operation sheet: a graph sheet with the number of a first operation record (0 for none) in the place of each block's cost; then R, the
 *                  number of operation records, and R records of operation, next record. Operations 0 to 7 take 1 cycle, 8 to 11 take 2,
 *                  12 to 14 take 3, and 15 takes 8. Each record stands in one block's chain; blocks 1 and 2 have none, every other some.
 *
 * The exception handler, which a diverted run goes on to, costs cycles too. The four calls that weigh (gilstavo_weigh, gilstavo_build,
 * gilstavo_start_guarded and gilstavo_guarded_move) are given its cost h in cycles (handler), the same for all budgets and 0 for none, and
 * lower every budget of the graph sheet by h before anything is weighed, also where nothing would be diverted. The budgets in a graph sheet
 * are the claimed ones, and 4, 41 and 43 test these; the bounded sheet of a build carries the lowered ones, and calls on it take no h.
 * Whatever is chosen, the blocks of a diverted run and the handler together stay within the claimed budget, and a run that ends at the exit
 * does so within the claimed budget less h. Give one h to the build, the guarded starts and the guarded moves of a routine: with it they
 * agree, and with another the walks are those of other budgets.
 * Below, B is a lowered budget: of a sheet of the first version its one, in the second the largest, and for a walk the one that it has
 * chosen. Of a bounded sheet it is a budget as it stands there.
 *
 * Every call returns, whatever the content and the length of what it is lent:
 *
 *   0        accepted
 *   1        fewer than 3 words
 *   2        N or E outside its limit (N 2 to 128, E 1 to 512)
 *   3        not exactly 3 + 2N + 2E words, in the second version 4 + k + 2N + 2E; or a row that ends before its budgets; of an operation
 *            sheet not exactly 1 + 2R words more than these, or a row that ends before R
 *   4        a claimed budget above 500, of all that the sheet names
 *   5        block 1 or 2 with a cost, or another block with cost 0
 *   6        a target that is 0, 1 or above N
 *   7        following all chains meets an edge number above E, or an edge twice, or misses an edge
 *   8        the exit has a chain
 *   9        block 1 has no completion cost at or below B: nothing fits the lowered budget, in the second version the largest
 *   10       more than 4,096 copies or more than 8,192 edges
 *   11       a bounded sheet that breaks a rule of its format
 *   21       work area shorter than N * (B + 1) bytes
 *   22       output row shorter than the sheet that would be written: of a build 3 + 3C + 2F words, in the second version 4 + 2k + 3C + 2F;
 *            of a conversion 3 + 2N + 2E, in the second version 4 + k + 2N + 2E
 *   31       choice 0 or beyond the place's successors
 *   32       the walk has ended
 *   33       walk out of shape; a block, a copy or a budget number outside the sheet
 *   41       k outside 1 to 4, or claimed budgets that do not rise strictly
 *   42       R above 4,096; an operation above 15; following all chains of operations meets a record number above R, or a record twice, or
 *            misses a record; block 1 or 2 with an operation, or another block with none
 *   43       h above the smallest claimed budget; where they are equal, that budget becomes 0
 *
 * Where several hold, the first in the order that stands at the call is answered. "1 to 8" stands for 1, 2, 3, 4, 41, 5, 6, 7, 8, and
 * "1 to 8 with 43", at the four calls that are given h, for 1, 2, 3, 4, 41, 43, 5, 6, 7, 8. gilstavo_check_graph,
 * gilstavo_count_successors, gilstavo_convert_operations and the calls on bounded sheets never answer 43.
 *
 * What the caller owes: pointers that are not NULL (also for a length of 0) and aligned, to as many elements as the length says, and
 * no two of them to the same memory where one of them is written. Lengths are numbers of elements: words for uint16_t, bytes for uint8_t.
 * Nothing is kept between calls, nothing is allocated, and no call is made to anything but memcpy and memset.
 */
#ifndef GILSTAVO_H
#define GILSTAVO_H

#include <stddef.h>
#include <stdint.h>

#ifdef __cplusplus
extern "C" {
#endif

/* The version of these declarations, which changes with every change of a format, a number or a call. */
#define GILSTAVO_VERSION 4

/* A work area of so many bytes is never answered 21, whatever h is; an output row of so many words is never answered 22, of a build and of a
 * conversion. */
#define GILSTAVO_MOST_AREA 64128
#define GILSTAVO_MOST_OUTPUT 28684
#define GILSTAVO_MOST_GRAPH 1288

/* A walk is four words: place, count, end, budget number (from 1; 1 for a sheet of the first version). Any other end is out of shape (33). */
#define GILSTAVO_WALK_WORDS 4
#define GILSTAVO_PLACE 0
#define GILSTAVO_COUNT 1
#define GILSTAVO_END 2
#define GILSTAVO_BUDGET 3
#define GILSTAVO_GOING 0
#define GILSTAVO_EXIT 1
#define GILSTAVO_DIVERTED 2

/* Checks a graph sheet: 1 to 8, else 0. */
uint16_t gilstavo_check_graph(const uint16_t *sheet, size_t sheet_words);

/* The number of successors of a block: 1 to 8, 33, else 0. *count is the number; under a refusal it keeps its content. */
uint16_t gilstavo_count_successors(const uint16_t *sheet, size_t sheet_words, uint16_t block, uint16_t *count);

/* Converts an operation sheet to the graph sheet that it stands for: 1, 2, 3, 4, 41, 6, 7, 8, 42, 22, else 0 (never 5).
 * Under 0 the first words of the output row are the graph sheet, 3 + 2N + 2E of them, in the second version 4 + k + 2N + 2E: the words
 * before R with the sum of each block's cycles as its cost; it passes gilstavo_check_graph. The rest of the row keeps its content; under a
 * refusal the whole row does. */
uint16_t gilstavo_convert_operations(const uint16_t *sheet, size_t sheet_words, uint16_t *output, size_t output_words);

/* Weighs a graph sheet: 1 to 8 with 43, 21, 9, else 0.
 * Under 1 to 8 with 43 and 21 the area keeps its content. Under 9 and 0 its byte at (block - 1) * (B + 1) + cost is 1 where that block has
 * a path to the exit of that cost, else 0, for every block and every cost up to B; the bytes behind these N * (B + 1) keep their content. */
uint16_t gilstavo_weigh(const uint16_t *sheet, size_t sheet_words, uint16_t handler, uint8_t *area, size_t area_bytes);

/* Builds the bounded sheet of a graph sheet, with the lowered budgets: 1 to 8 with 43, 21, 9, 10, 22, else 0.
 * Under 0 the first words of the output row are the bounded sheet, 3 + 3C + 2F of them (C is its first word, F its second), in the second
 * version 4 + 2k + 3C + 2F (C is its second word, F its third, k its fourth), and the rest keep their content; under a refusal the whole
 * output row keeps its content. The area is left as by gilstavo_weigh: filled under every answer but 1 to 8 with 43 and 21. Takes at most
 * 284 KB of stack (measured, docs/MEASUREMENTS.md). */
uint16_t gilstavo_build(const uint16_t *sheet, size_t sheet_words, uint16_t handler, uint8_t *area, size_t area_bytes, uint16_t *output,
                        size_t output_words);

/* Checks a bounded sheet: 11, else 0. */
uint16_t gilstavo_check_bounded(const uint16_t *sheet, size_t sheet_words);

/* Where the edge words of one copy stand in a bounded sheet: 11, 33, else 0.
 * They are the *size words from sheet[*start] on, two for each edge (target copy, next edge); none for the exit. Under a refusal *start
 * and *size are 0. */
uint16_t gilstavo_edge_words(const uint16_t *sheet, size_t sheet_words, uint16_t copy, size_t *start, size_t *size);

/* Writes the starting walk: place 1, count 0, going, budget number 1. It is how every walk on a sheet of the first version starts; a walk
 * with one of several budgets starts by one of the two calls behind it. */
void gilstavo_start(uint16_t walk[4]);

/* Starts a walk on a graph sheet with one of its budgets: 1 to 8 with 43, 21, 9, 33 (a budget number outside the sheet), else 0.
 * Under 0 the walk is place 1, count 0, going, that number, or diverted where nothing fits that budget once lowered; under a refusal it
 * keeps its content, and what it held before plays no part. The area is left as by gilstavo_weigh. */
uint16_t gilstavo_start_guarded(const uint16_t *sheet, size_t sheet_words, uint16_t handler, uint8_t *area, size_t area_bytes,
                                uint16_t walk[4], uint16_t budget);

/* Starts a walk on a bounded sheet with one of its budgets: 11, 33 (a budget number outside the sheet), else 0.
 * Under 0 the walk is the entry of that budget (copy 1 in the first version), count 0, going, that number; or place 1, count 0, diverted,
 * that number where the entry is 0. Under a refusal it keeps its content, and what it held before plays no part. */
uint16_t gilstavo_start_bounded(const uint16_t *sheet, size_t sheet_words, uint16_t walk[4], uint16_t budget);

/* Moves a walk on a graph sheet by one choice, guarded by the completion costs: 1 to 8 with 43, 21, 9, 33, 32, 31, else 0.
 * Under 0 the walk is the walk after the move, with its budget number; under a refusal it keeps its content. The area is left as by
 * gilstavo_weigh. Out of shape: a budget number or a place outside the sheet, end exit and place 2 not together, a count above B. */
uint16_t gilstavo_guarded_move(const uint16_t *sheet, size_t sheet_words, uint16_t handler, uint8_t *area, size_t area_bytes,
                               uint16_t walk[4], uint16_t choice);

/* Moves a walk on a bounded sheet by one choice: 11, 33, 32, 31, else 0.
 * Under 0 the walk is the walk after the move, with its budget number; under a refusal it keeps its content. Out of shape: a budget number
 * or a place outside the sheet, end exit and the exit's copy not together, a count above B while going or above B + 1 if ended. */
uint16_t gilstavo_bounded_move(const uint16_t *sheet, size_t sheet_words, uint16_t walk[4], uint16_t choice);

#ifdef __cplusplus
}
#endif

#endif
