/* How much stack a call takes: calls are made on a stack of their own, painted before, and what they wrote there is counted. A pair of
 * families 4 and 8 must take as much among few as among the most, and hardly more than a clause without a pair; no function may take
 * more than the header says. */
#define _XOPEN_SOURCE 700
#include "../include/wawrolen.h"
#include "cases.h"

#include <stdarg.h>
#include <stdio.h>
#include <string.h>
#include <ucontext.h>

/* ---- the largest task: every list of it at its limit, and every pair the value 0 */

enum {
    HORIZON = 64,
    FAMILIES = 8,
    ROWS = 4,
    ROW_BYTES = 4,
    CONTENTS_BYTES = ROWS * ROW_BYTES,
    VARIABLES = 96,
    VALUES = 1024,
    SMALL_DOMAIN = VALUES / VARIABLES,
    LARGER_DOMAINS = VALUES % VARIABLES, /* so many variables have a value more */
    DOMAIN = 64,
    ACTIONS = 512,
    PAIRS = 8,
    ACTION_BYTES = 2 + 2 * (PAIRS + PAIRS),
    LARGEST_TEXT = 131072,
    LITERALS = 514,
    LINE_BYTES = 4096,
    FOUR_DIGITS = 1000,
    LINES_ROOM = 65536,
    SHORT_ROOM = 16, /* for a line of two literals and no longer one */
    HIGHEST = HORIZON * (VALUES + ACTIONS) + VALUES,
    WORDS = HIGHEST / 64
};

static uint8_t largest[WAWROLEN_FILE_ROOM];
static char largest_text[LARGEST_TEXT];
static size_t largest_text_length;

static size_t domain(size_t x) {
    return SMALL_DOMAIN + (x < LARGER_DOMAINS);
}

/* the variable of pair i of action a, in its preconditions and in its effects */
static size_t variable_of(size_t a, size_t i) {
    return VARIABLES / PAIRS * i + a % (VARIABLES / PAIRS);
}

static void put_word(uint8_t *at, size_t word) {
    at[0] = (uint8_t)(word % 256);
    at[1] = (uint8_t)(word / 256);
}

/* the table of contents over bodies of these lengths; how long the file is */
static size_t put_contents(uint8_t *file, const size_t lengths[ROWS]) {
    size_t start = CONTENTS_BYTES;
    for (size_t row = 0; row < ROWS; row++) {
        put_word(file + ROW_BYTES * row, start);
        put_word(file + ROW_BYTES * row + 2, lengths[row]);
        start += lengths[row];
    }
    return start;
}

static void put_action(uint8_t *at, size_t a) {
    at[0] = at[1] = PAIRS;
    for (size_t i = 0; i < PAIRS + PAIRS; i++) {
        at[2 + 2 * i] = (uint8_t)variable_of(a, i % PAIRS);
        at[3 + 2 * i] = 0;
    }
}

static void make_largest(void) {
    const size_t lengths[] = {VARIABLES, VARIABLES, 2 * VARIABLES, ACTIONS * ACTION_BYTES};
    uint8_t *sizes = largest + CONTENTS_BYTES, *start = sizes + VARIABLES, *goal = start + VARIABLES, *actions = goal + 2 * VARIABLES;
    put_contents(largest, lengths);
    for (size_t x = 0; x < VARIABLES; x++) {
        sizes[x] = (uint8_t)domain(x);
        goal[2 * x] = (uint8_t)x;
    }
    for (size_t a = 0; a < ACTIONS; a++)
        put_action(actions + ACTION_BYTES * a, a);
}

/* ---- the same task as the translator writes it */

static void say(const char *format, ...) {
    va_list words;
    va_start(words, format);
    largest_text_length += (size_t)vsnprintf(largest_text + largest_text_length, LARGEST_TEXT - largest_text_length, format, words);
    va_end(words);
}

static void say_variable(size_t x) {
    say("begin_variable\nv\n-1\n%zu\n", domain(x));
    for (size_t v = 0; v < domain(x); v++)
        say("Atom a\n");
    say("end_variable\n");
}

static void say_operator(size_t a) {
    say("begin_operator\no\n0\n%d\n", PAIRS);
    for (size_t i = 0; i < PAIRS; i++)
        say("0 %zu 0 0\n", variable_of(a, i));
    say("1\nend_operator\n");
}

static void make_largest_text(void) {
    say("begin_version\n3\nend_version\nbegin_metric\n0\nend_metric\n%d\n", VARIABLES);
    for (size_t x = 0; x < VARIABLES; x++)
        say_variable(x);
    say("0\nbegin_state\n");
    for (size_t x = 0; x < VARIABLES; x++)
        say("0\n");
    say("end_state\nbegin_goal\n%d\n", VARIABLES);
    for (size_t x = 0; x < VARIABLES; x++)
        say("%zu 0\n", x);
    say("end_goal\n%d\n", ACTIONS);
    for (size_t a = 0; a < ACTIONS; a++)
        say_operator(a);
    say("0\n");
}

/* ---- a call on a stack of its own */

enum { STACK_ROOM = 4 * WAWROLEN_STACK };

/* a call is made on both: a byte that it writes differs from the paint of one of them */
static uint8_t stack_rooms[2][STACK_ROOM];
static const uint8_t PAINTS[] = {0xa5, 0x5a};
static ucontext_t caller;

/* how far down a call wrote, and to how many bytes */
struct taken {
    size_t depth, bytes;
};

static void run_on(uint8_t *room, void (*call)(void)) {
    ucontext_t context;
    getcontext(&context);
    context.uc_stack.ss_sp = room;
    context.uc_stack.ss_size = STACK_ROOM;
    context.uc_link = &caller;
    makecontext(&context, call, 0);
    swapcontext(&caller, &context);
}

static void paint_and_run(void (*call)(void)) {
    for (size_t i = 0; i < 2; i++) {
        memset(stack_rooms[i], PAINTS[i], STACK_ROOM);
        run_on(stack_rooms[i], call);
    }
}

static struct taken all_taken(void (*call)(void)) {
    struct taken taken = {0, 0};
    paint_and_run(call);
    for (size_t down = 1; down <= STACK_ROOM; down++) {
        size_t at = STACK_ROOM - down;
        if (stack_rooms[0][at] == PAINTS[0] && stack_rooms[1][at] == PAINTS[1])
            continue;
        taken.depth = down;
        taken.bytes++;
    }
    return taken;
}

static void nothing(void) {
}

/* what changing stacks takes is no part of a call */
static struct taken taken_by(void (*call)(void)) {
    struct taken all = all_taken(call), none = all_taken(nothing);
    all.depth -= none.depth;
    all.bytes -= none.bytes;
    return all;
}

/* ---- the calls, each on the largest task where nothing else is said */

static struct {
    const uint8_t *file;
    size_t length, clause;
} asked;

/* where each call leaves its answers; a result other than 0 is kept over all of them */
static size_t refused, first_cell, second_cell, detail_cell, phase, held;
static int32_t literal_room[LITERALS];
static uint8_t byte_room[LINES_ROOM], line_room[WAWROLEN_LINE_ROOM], line[LINE_BYTES + 1];
static uint64_t given[WORDS], truth[WORDS];
static uint32_t entries[HORIZON];

static void call_check_file(void) {
    refused |= wawrolen_check_file(asked.file, asked.length, &detail_cell);
}

static void call_body(void) {
    refused |= wawrolen_body(asked.file, asked.length, ROWS, &first_cell, &second_cell, &detail_cell);
}

static void call_translate(void) {
    refused |= wawrolen_translate((const uint8_t *)largest_text, largest_text_length, byte_room, WAWROLEN_FILE_ROOM, &first_cell, &detail_cell);
}

static void call_counts(void) {
    refused |= wawrolen_counts(asked.file, asked.length, HORIZON, &first_cell, &second_cell, &detail_cell);
}

static void call_literals(void) {
    refused |= wawrolen_literals(asked.file, asked.length, HORIZON, asked.clause, literal_room, LITERALS, &first_cell, &detail_cell);
}

static void call_header(void) {
    refused |= wawrolen_header(asked.file, asked.length, HORIZON, byte_room, LINES_ROOM, &first_cell, &detail_cell);
}

static void call_clause_line(void) {
    refused |= wawrolen_clause_line(asked.file, asked.length, HORIZON, asked.clause, byte_room, LINES_ROOM, &first_cell, &detail_cell);
}

static void call_short_line(void) {
    refused |= wawrolen_clause_line(asked.file, asked.length, HORIZON, asked.clause, byte_room, SHORT_ROOM, &first_cell, &detail_cell);
}

static void call_lines(void) {
    refused |= wawrolen_lines(asked.file, asked.length, HORIZON, asked.clause, byte_room, LINES_ROOM, &first_cell, &second_cell, &detail_cell);
}

static void call_start_reading(void) {
    refused |= wawrolen_start_reading(asked.file, asked.length, HORIZON, given, WORDS, truth, WORDS, &first_cell, &phase, &detail_cell);
}

/* a line is read as the first of a model */
static void clear_rows(void) {
    memset(given, 0, sizeof given);
    memset(truth, 0, sizeof truth);
    phase = WAWROLEN_MODEL_OPEN;
    held = 0;
}

static void call_read_line(void) {
    clear_rows();
    refused |= wawrolen_read_line(HIGHEST, &phase, given, WORDS, truth, WORDS, line, LINE_BYTES, &detail_cell);
}

static void call_read_bytes(void) {
    clear_rows();
    refused |= wawrolen_read_bytes(HIGHEST, &phase, &held, given, WORDS, truth, WORDS, line_room, WAWROLEN_LINE_ROOM, line, sizeof line, &detail_cell);
}

static void call_read_rest(void) {
    clear_rows();
    refused |= wawrolen_read_rest(HIGHEST, &phase, LINE_BYTES, given, WORDS, truth, WORDS, line_room, WAWROLEN_LINE_ROOM, &detail_cell);
}

static void call_way_back(void) {
    refused |= wawrolen_way_back(asked.file, asked.length, HORIZON, entries, HORIZON, given, WORDS, truth, WORDS, &detail_cell);
}

static void call_end_reading(void) {
    refused |= wawrolen_end_reading(asked.file, asked.length, HORIZON, WAWROLEN_MODEL_CLOSED, given, WORDS, truth, WORDS, entries, HORIZON, &detail_cell);
}

static void call_check_schedule(void) {
    refused |= wawrolen_check_schedule(asked.file, asked.length, HORIZON, entries, HORIZON, &detail_cell);
}

/* ---- a pair by its number: families 4 and 8 */

enum {
    FEW = 4,
    PAIR_STACK = 256, /* some registers and no more: 513 starts of two bytes each would be 1,026 */
    INDEX_NUMBERS = 2 * (VARIABLES + 1) + 3 * (ACTIONS + 1) + 1,
    CLAUSE_STACK = 2 * INDEX_NUMBERS + 512 /* the file's index, two bytes a number, and nothing else of its size */
};

/* a task of one variable and of actions without pairs, in as few bytes as the rules allow */
static uint8_t pair_file[CONTENTS_BYTES + 2 + 2 * ACTIONS];

/* at the last step that has it, a clause of two values or of two actions: the pair of that number below so many */
struct pair {
    size_t family, below, number;
};

static size_t pairs_below(size_t m) {
    return m * (m - 1) / 2;
}

/* asks for that clause; how many of the formula's variables stand before the first value or action that it may name */
static size_t ask_pair(struct pair pair) {
    size_t values = pair.family == 4 ? pair.below : FEW, actions = pair.family == 8 ? pair.below : FEW;
    size_t family_4 = 1 + (HORIZON + 1), family_7 = family_4 + (HORIZON + 1) * pairs_below(values), family_8 = family_7 + HORIZON * values;
    const size_t lengths[ROWS] = {1, 1, 0, 2 * actions};
    pair_file[CONTENTS_BYTES] = (uint8_t)values;
    asked.file = pair_file;
    asked.length = put_contents(pair_file, lengths);
    if (pair.family == 4) {
        asked.clause = family_4 + HORIZON * pairs_below(values) + pair.number;
        return HORIZON * (values + actions);
    }
    asked.clause = family_8 + (HORIZON - 1) * pairs_below(actions) + pair.number;
    return (HORIZON - 1) * (values + actions) + values;
}

/* whether the literals last written are of that pair, which is found by a walk */
static int is_pair(struct pair pair, size_t before) {
    size_t first = 0, second = pair.number + 1;
    while (second >= pair.below) {
        first++;
        second -= pair.below - first - 1;
    }
    return first_cell == 2 && literal_room[0] == -(int32_t)(before + first + 1) && literal_room[1] == -(int32_t)(before + second + 1);
}

static int hardly_more(struct taken taken, struct taken than) {
    return taken.depth <= than.depth + PAIR_STACK && taken.bytes <= than.bytes + PAIR_STACK;
}

static void pair_case(struct pair pair, const char *what, int ok) {
    char name[128];
    snprintf(name, sizeof name, "family %zu, pair %zu below %zu: %s", pair.family, pair.number, pair.below, what);
    expect(name, ok);
}

/* what the clause of a pair takes, held against one without a pair, and against the counts, which need the same index */
static struct taken taken_by_pair(struct pair pair) {
    size_t before = ask_pair(pair);
    struct taken taken = taken_by(call_literals);
    pair_case(pair, "its literals", is_pair(pair, before));
    pair_case(pair, "no more stack than the index and some registers", taken.depth <= CLAUSE_STACK);
    struct taken by_line = taken_by(call_clause_line), by_short_line = taken_by(call_short_line);
    asked.clause = 0;
    pair_case(pair, "hardly more stack than a clause of family 1", hardly_more(taken, taken_by(call_literals)));
    pair_case(pair, "hardly more stack than the counts", hardly_more(taken, taken_by(call_counts)));
    pair_case(pair, "as a line, hardly more stack than a clause of family 1", hardly_more(by_line, taken_by(call_clause_line)));
    pair_case(pair, "as a line in short room, hardly more stack than a clause of family 1", hardly_more(by_short_line, taken_by(call_short_line)));
    return taken;
}

/* the first, a middle and the last pair, among few and among the most */
static void pair_cases(size_t family, size_t most) {
    for (size_t half = 0; half <= 2; half++) {
        struct pair among_few = {family, FEW, half * (pairs_below(FEW) - 1) / 2};
        struct pair among_most = {family, most, half * (pairs_below(most) - 1) / 2};
        struct taken few = taken_by_pair(among_few), many = taken_by_pair(among_most);
        pair_case(among_most, "as much stack as among few", few.depth == many.depth && few.bytes == many.bytes);
    }
}

/* ---- all functions, on the largest task */

static const size_t FAMILY_COUNTS[FAMILIES] = {
    VARIABLES,
    VARIABLES,
    (HORIZON + 1) * VARIABLES,
    (HORIZON + 1) * (VARIABLES * SMALL_DOMAIN * (SMALL_DOMAIN - 1) / 2 + LARGER_DOMAINS * SMALL_DOMAIN),
    HORIZON * ACTIONS * PAIRS,
    HORIZON * ACTIONS * PAIRS,
    HORIZON * VALUES,
    HORIZON * ACTIONS * (ACTIONS - 1) / 2,
};

struct export {
    const char *name;
    void (*call)(void);
};

/* in an order in which each call finds what it needs: wawrolen_end_reading reads the rows that wawrolen_way_back wrote */
static const struct export EXPORTS[] = {
    {"wawrolen_check_file", call_check_file},
    {"wawrolen_body", call_body},
    {"wawrolen_translate", call_translate},
    {"wawrolen_counts", call_counts},
    {"wawrolen_literals", call_literals},
    {"wawrolen_header", call_header},
    {"wawrolen_clause_line", call_clause_line},
    {"wawrolen_lines", call_lines},
    {"wawrolen_start_reading", call_start_reading},
    {"wawrolen_read_line", call_read_line},
    {"wawrolen_read_bytes", call_read_bytes},
    {"wawrolen_read_rest", call_read_rest},
    {"wawrolen_way_back", call_way_back},
    {"wawrolen_end_reading", call_end_reading},
    {"wawrolen_check_schedule", call_check_schedule},
};

static void make_line(void) {
    size_t length = 1;
    line[0] = 'v';
    for (size_t number = FOUR_DIGITS; length < LINE_BYTES; number++)
        length += (size_t)snprintf((char *)line + length, sizeof line - length, " %zu", number);
    line[LINE_BYTES] = '\n';
    memcpy(line_room, line, LINE_BYTES);
}

static void ask_largest(void) {
    make_largest();
    make_largest_text();
    make_line();
    asked.file = largest;
    asked.length = sizeof largest;
    for (size_t s = 0; s < HORIZON; s++)
        entries[s] = (uint32_t)(ACTIONS - s);
}

/* the deepest over the first clause of each family */
static size_t most_taken(void (*call)(void)) {
    size_t most = 0;
    asked.clause = 0;
    for (size_t f = 0; f < FAMILIES; f++) {
        size_t depth = taken_by(call).depth;
        most = depth > most ? depth : most;
        asked.clause += FAMILY_COUNTS[f];
    }
    return most;
}

static size_t all_clauses(void) {
    size_t clauses = 0;
    for (size_t f = 0; f < FAMILIES; f++)
        clauses += FAMILY_COUNTS[f];
    return clauses;
}

/* the largest task is what it is meant to be */
static void largest_cases(void) {
    refused = 0;
    call_translate();
    expect("the largest text becomes the largest file", refused == 0 && first_cell == sizeof largest && memcmp(byte_room, largest, sizeof largest) == 0);
    call_counts();
    expect("the counts of the largest file", refused == 0 && first_cell == HIGHEST && second_cell == all_clauses());
}

static void export_case(const struct export *export, int figures) {
    char name[128];
    refused = 0;
    size_t most = most_taken(export->call);
    snprintf(name, sizeof name, "%s: %zu bytes of stack", export->name, most);
    expect(name, refused == 0 && most <= WAWROLEN_STACK);
    if (figures)
        puts(name);
}

void stack_cases(int figures) {
    pair_cases(4, DOMAIN);
    pair_cases(8, ACTIONS);
    ask_largest();
    largest_cases();
    for (size_t i = 0; i < sizeof EXPORTS / sizeof *EXPORTS; i++)
        export_case(&EXPORTS[i], figures);
}
