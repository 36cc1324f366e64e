/* A controller in C: reads a graph sheet of either version on standard input, builds its bounded sheet, starts a walk with one of its
 * budgets, number 1 unless -b names another, and follows the choices given as arguments. -h names the cost of the exception handler in
 * cycles, 0 unless it is named. Options stand before the choices, in either order, each once at most.
 *
 *   tests/library build
 *   gcc -std=c99 -Wall -Wextra -Iinclude examples/controller.c target/staticlib/libgilstavo.a -o target/controller
 *   target/controller 1 2 1 1 1 < crates/listing/stdin
 *   target/controller -b 2 1 2 1 1 1 < two_budgets.sheet
 *   target/controller -h 1 1 2 1 1 1 < crates/listing/stdin
 *
 * The first line shows the bounded sheet with its budgets, which are lowered by the handler's cost; with -h a second line shows those that
 * the graph sheet claims. A build or a start that is refused is told by its number and ends with status 1; a move that is refused leaves
 * the walk as it was.
 */
#include <errno.h>
#include <stdio.h>
#include <stdlib.h>
#include <string.h>

#include "gilstavo.h"

#define MOST_SHEET 66820 /* one word more than any row that is not 3 by its length: 4, 65,535 budgets, 128 blocks, 512 edges */

static uint16_t sheet[MOST_SHEET];
static uint8_t area[GILSTAVO_MOST_AREA];
static uint16_t bounded[GILSTAVO_MOST_OUTPUT];

static const char *const ends[] = {"going", "exit", "diverted"};

/* A file has two bytes a word, the lower first; an odd number of bytes is answered 1, whatever they are, and a read that fails -1. */
static int read_words(size_t *words) {
    size_t bytes = 0;
    int byte;
    for (; (byte = getchar()) != EOF; bytes++) {
        size_t word = bytes / 2;
        if (word < MOST_SHEET) {
            sheet[word] = (uint16_t)(bytes % 2 == 0 ? byte : sheet[word] + 256 * byte);
        }
    }
    *words = bytes / 2 < MOST_SHEET ? bytes / 2 : MOST_SHEET;
    return ferror(stdin) ? -1 : (int)(bytes % 2);
}

/* A budget number, a cost or a choice is a number from 0 to 65,535; any other text is none, and ends the program. */
static uint16_t read_number(const char *text) {
    char *end;
    errno = 0;
    unsigned long number = strtoul(text, &end, 10);
    if (text[0] < '0' || text[0] > '9' || *end != '\0' || errno != 0 || number > UINT16_MAX) {
        fprintf(stderr, "%s is no number from 0 to 65535\n", text);
        exit(2);
    }
    return (uint16_t)number;
}

static void show_numbers(const uint16_t *numbers, size_t count) {
    for (size_t i = 0; i < count; i++) {
        printf(" %u", numbers[i]);
    }
    printf("\n");
}

static int refused(uint16_t answer) {
    printf("refused %u\n", answer);
    return 1;
}

/* What a walk shows: the block in the copy record at its place. `first` is where the record of copy 1 begins. */
static void show(uint16_t answer, const uint16_t *walk, size_t first) {
    unsigned block = bounded[first + 3 * (size_t)(walk[GILSTAVO_PLACE] - 1)];
    printf("answer %u, block %u, moves %u, %s\n", answer, block, walk[GILSTAVO_COUNT], ends[walk[GILSTAVO_END]]);
}

int main(int count, char **arguments) {
    /* Where the numbers of the options stand, 0 for an option that is not given; behind them the choices begin. */
    int next = 1, budget_at = 0, handler_at = 0;
    for (; next + 1 < count; next += 2) {
        int *at = strcmp(arguments[next], "-b") == 0 ? &budget_at : strcmp(arguments[next], "-h") == 0 ? &handler_at : NULL;
        if (at == NULL || *at != 0) {
            break;
        }
        *at = next + 1;
    }
    uint16_t budget = budget_at != 0 ? read_number(arguments[budget_at]) : 1;
    uint16_t handler = handler_at != 0 ? read_number(arguments[handler_at]) : 0;
    size_t words;
    int odd = read_words(&words);
    if (odd < 0) {
        perror("standard input");
        return 2;
    }
    uint16_t answer = odd ? 1 : gilstavo_build(sheet, words, handler, area, sizeof area, bounded, GILSTAVO_MOST_OUTPUT);
    if (answer != 0) {
        return refused(answer);
    }

    /* The header: C, F, B in the first version; 0, C, F, the number of budgets, the budgets and the entries in the second. */
    int second = bounded[0] == 0;
    const uint16_t *sizes = bounded + (second ? 1 : 0);
    const uint16_t *budgets = bounded + (second ? 4 : 2);
    size_t several = second ? bounded[3] : 1;
    size_t first = second ? 4 + 2 * several : 3;
    size_t filled = first + 3 * (size_t)sizes[0] + 2 * (size_t)sizes[1];
    printf("copies %u edges %u budget", sizes[0], sizes[1]);
    show_numbers(budgets, several);
    if (handler_at != 0) {
        /* The graph sheet has its budgets where the bounded sheet has them. */
        printf("handler %u, claimed", handler);
        show_numbers(sheet + (budgets - bounded), several);
    }

    uint16_t walk[GILSTAVO_WALK_WORDS];
    answer = gilstavo_start_bounded(bounded, filled, walk, budget);
    if (answer != 0) {
        return refused(answer);
    }
    printf("budget number %u: ", budget);
    show(answer, walk, first);
    for (; next < count; next++) {
        uint16_t choice = read_number(arguments[next]);
        answer = gilstavo_bounded_move(bounded, filled, walk, choice);
        printf("choice %u: ", choice);
        show(answer, walk, first);
    }
    return 0;
}
