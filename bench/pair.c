/* Times one clause of families 8 and 4, asked for by its number, and plain C's three ways from a number to its pair, after all of these clauses, and some
 * hundred pairs of each way, were held against nested loops. A call judges the whole file and fills its index, so a clause of family 1 of the same file, which
 * has no pair, is timed too: a pair takes at most the time beyond it. Files have one variable and actions of two bytes, as few as the rules allow. */
#define _XOPEN_SOURCE 700
#include "../include/wawrolen.h"

#include <stdio.h>
#include <stdlib.h>
#include <time.h>

enum {
    HORIZON = 2,
    ROWS = 4,
    ROW_BYTES = 4,
    CONTENTS_BYTES = ROWS * ROW_BYTES,
    MOST_ACTIONS = 512,
    MOST_FILE = CONTENTS_BYTES + 2 + 2 * MOST_ACTIONS,
    ROUNDS = 1000,
    WAY_ROUNDS = 25, /* a walk over all pairs takes a while */
    CALLS = 32,      /* in a round */
    CHECKED = 512, /* pairs of a way: a walk to each of them would take seconds */
    APART = 7919   /* from a spread number to the next, around the end: a prime, so that they fall everywhere */
};

/* a file with the clauses of one family: how many values or actions there are, their pairs at a step, the steps, and the first clause; of the formula's
 * variables, how many stand before the first that a pair names, and how many are in a step */
struct asked {
    uint8_t file[MOST_FILE];
    size_t length, below, pairs, steps, first_clause;
    int32_t before, width;
};

static size_t pairs_below(size_t m) {
    return m * (m - 1) / 2;
}

/* ---- files */

static void put_word(uint8_t *at, size_t word) {
    at[0] = (uint8_t)(word % 256);
    at[1] = (uint8_t)(word / 256);
}

static void make_file(struct asked *asked, size_t values, size_t actions) {
    const size_t lengths[ROWS] = {1, 1, 0, 2 * actions};
    size_t start = CONTENTS_BYTES;
    for (size_t row = 0; row < ROWS; row++) {
        put_word(asked->file + ROW_BYTES * row, start);
        put_word(asked->file + ROW_BYTES * row + 2, lengths[row]);
        start += lengths[row];
    }
    asked->file[CONTENTS_BYTES] = (uint8_t)values;
    asked->length = start;
    asked->width = (int32_t)(values + actions);
}

/* clauses of family 4 are behind those of families 1 and 3 */
static void ask_values(struct asked *asked, size_t values) {
    *asked = (struct asked){.below = values, .pairs = pairs_below(values), .steps = HORIZON + 1, .first_clause = 1 + (HORIZON + 1)};
    make_file(asked, values, 0);
}

/* with one value, clauses of family 8 are behind those of families 1, 3 and 7 */
static void ask_actions(struct asked *asked, size_t actions) {
    *asked = (struct asked){.below = actions, .pairs = pairs_below(actions), .steps = HORIZON, .first_clause = 1 + (HORIZON + 1) + HORIZON, .before = 1};
    make_file(asked, 1, actions);
}

static int32_t room[2];
static size_t written;

static void ask(const struct asked *asked, size_t clause) {
    size_t detail;
    if (wawrolen_literals(asked->file, asked->length, HORIZON, clause, room, 2, &written, &detail) == 0)
        return;
    fprintf(stderr, "bench/pair.c: clause %zu is refused\n", clause);
    exit(1);
}

/* ---- plain C's three ways */

struct pair {
    size_t first, second;
};

__attribute__((noinline)) static struct pair by_walk(size_t m, size_t number) {
    for (size_t i = 0;; i++)
        for (size_t j = i + 1; j < m; j++)
            if (number-- == 0)
                return (struct pair){i, j};
}

__attribute__((noinline)) static struct pair by_table(size_t m, size_t number) {
    size_t starts[MOST_ACTIONS + 1], i = 0;
    starts[0] = 0;
    for (size_t row = 0; row < m; row++)
        starts[row + 1] = starts[row] + (m - 1 - row);
    while (starts[i + 1] <= number)
        i++;
    return (struct pair){i, i + 1 + (number - starts[i])};
}

__attribute__((noinline)) static struct pair by_halving(size_t m, size_t number) {
    size_t low = 0, high = m;
    while (high - low > 1) {
        size_t middle = low + (high - low) / 2;
        if (number < middle * (2 * m - middle - 1) / 2)
            high = middle;
        else
            low = middle;
    }
    return (struct pair){low, low + 1 + (number - low * (2 * m - low - 1) / 2)};
}

typedef struct pair way(size_t, size_t);

/* ---- nested loops */

static void hold(int right, const char *what, size_t below, size_t number) {
    if (right)
        return;
    fprintf(stderr, "bench/pair.c: %s: pair %zu below %zu is wrong\n", what, number, below);
    exit(1);
}

static void check_step(const struct asked *asked, size_t step) {
    int32_t before = asked->before + (int32_t)step * asked->width;
    size_t number = 0;
    for (size_t i = 0; i < asked->below; i++)
        for (size_t j = i + 1; j < asked->below; j++, number++) {
            ask(asked, asked->first_clause + step * asked->pairs + number);
            hold(written == 2 && room[0] == -(before + (int32_t)i + 1) && room[1] == -(before + (int32_t)j + 1), "the literals", asked->below, number);
        }
}

static void check_way(way *way, size_t m) {
    size_t number = 0, apart = 1 + pairs_below(m) / CHECKED;
    for (size_t i = 0; i < m; i++)
        for (size_t j = i + 1; j < m; j++, number++) {
            struct pair pair = number % apart == 0 ? way(m, number) : (struct pair){i, j};
            hold(pair.first == i && pair.second == j, "plain C", m, number);
        }
}

/* ---- times */

static double now(void) {
    struct timespec time;
    clock_gettime(CLOCK_MONOTONIC, &time);
    return (double)time.tv_sec * 1e9 + (double)time.tv_nsec;
}

static int by_size(const void *a, const void *b) {
    double first = *(const double *)a, second = *(const double *)b;
    return (first > second) - (first < second);
}

/* the middle one of so many times, which what else the machine does hardly moves */
static double middle_of(double *times, size_t many) {
    qsort(times, many, sizeof *times, by_size);
    return times[many / 2];
}

/* ns a clause, from a number on, the next one so far behind it, around the end */
static double time_clauses(const struct asked *asked, size_t from, size_t number, size_t apart) {
    double start = now();
    for (size_t n = 0; n < CALLS; n++)
        ask(asked, from + (number + n * apart) % asked->pairs);
    return (now() - start) / CALLS;
}

/* what these clauses take beyond one of family 1, timed right before */
static double beyond(const struct asked *asked, size_t number, size_t apart, double *family_1) {
    *family_1 = time_clauses(asked, 0, 0, 0);
    return time_clauses(asked, asked->first_clause, number, apart) - *family_1;
}

static void run_clauses(const char *what, const struct asked *asked) {
    static double family_1[ROUNDS], first[ROUNDS], last[ROUNDS], spread[ROUNDS];
    for (size_t step = 0; step < asked->steps; step++)
        check_step(asked, step);
    for (size_t round = 0; round < ROUNDS; round++) {
        first[round] = beyond(asked, 0, 0, &family_1[round]);
        last[round] = beyond(asked, asked->pairs - 1, 0, &family_1[round]);
        spread[round] = beyond(asked, round * CALLS * APART, APART, &family_1[round]);
    }
    printf("%-24s %5zu %7zu %9.1f %9.1f %9.1f %9.1f\n", what, asked->below, asked->pairs, middle_of(family_1, ROUNDS), middle_of(first, ROUNDS),
           middle_of(last, ROUNDS), middle_of(spread, ROUNDS));
}

static volatile size_t kept; /* so that no way is left out as unused */

static double time_way(way *way, size_t m, size_t number, size_t apart) {
    double start = now();
    for (size_t n = 0; n < CALLS; n++)
        kept = way(m, (number + n * apart) % pairs_below(m)).second;
    return (now() - start) / CALLS;
}

static void run_way(const char *what, way *way, size_t m) {
    static double first[WAY_ROUNDS], last[WAY_ROUNDS], spread[WAY_ROUNDS];
    check_way(way, m);
    for (size_t round = 0; round < WAY_ROUNDS; round++) {
        first[round] = time_way(way, m, 0, 0);
        last[round] = time_way(way, m, pairs_below(m) - 1, 0);
        spread[round] = time_way(way, m, round * CALLS * APART, APART);
    }
    printf("%-24s %5zu %7zu %9s %9.1f %9.1f %9.1f\n", what, m, pairs_below(m), "", middle_of(first, WAY_ROUNDS), middle_of(last, WAY_ROUNDS),
           middle_of(spread, WAY_ROUNDS));
}

static void head(const char *what, const char *family_1) {
    printf("%s\n%-24s %5s %7s %9s %9s %9s %9s\n", what, "", "among", "pairs", family_1, "first", "last", "spread");
}

int main(void) {
    static const size_t ACTIONS[] = {4, 32, 128, MOST_ACTIONS}, VALUES[] = {4, 16, 64};
    static struct asked asked;
    head("wawrolen_literals: ns of a clause of family 1, and ns beyond it of a clause with a pair", "family 1");
    for (size_t i = 0; i < sizeof ACTIONS / sizeof *ACTIONS; i++) {
        ask_actions(&asked, ACTIONS[i]);
        run_clauses("family 8, two actions", &asked);
    }
    for (size_t i = 0; i < sizeof VALUES / sizeof *VALUES; i++) {
        ask_values(&asked, VALUES[i]);
        run_clauses("family 4, two values", &asked);
    }
    head("\nplain C, the pair alone, no file and no literals: ns", "");
    for (size_t i = 0; i < sizeof ACTIONS / sizeof *ACTIONS; i++) {
        run_way("a walk over the pairs", by_walk, ACTIONS[i]);
        run_way("a table made in the call", by_table, ACTIONS[i]);
        run_way("halving", by_halving, ACTIONS[i]);
    }
    return 0;
}
