/* Calls every function of include/wawrolen.h from C: accepted and refused, with guards around every cell and behind every room.
 * The last line says how many cases passed and how many failed; with the word "stacks" the lines before it say how much stack each
 * function took. */
#include "../include/wawrolen.h"
#include "cases.h"

#include <stdio.h>
#include <string.h>

/* ---- the folder example of the rules */

static const uint8_t FOLDER[] = {0x10, 0x00, 0x02, 0x00, 0x12, 0x00, 0x02, 0x00, 0x14, 0x00, 0x02, 0x00, 0x16,
                                 0x00, 0x10, 0x00, 0x02, 0x02, 0x00, 0x00, 0x01, 0x01, 0x01, 0x01, 0x00, 0x00,
                                 0x00, 0x01, 0x02, 0x02, 0x00, 0x01, 0x01, 0x00, 0x00, 0x00, 0x01, 0x01};

/* the same task as the translator writes it, line by line */
static const char *const TEXT_LINES[] = {
    "begin_version", "3", "end_version", "begin_metric", "0", "end_metric",
    "2",
    "begin_variable", "var0", "-1", "2", "Atom free(folder)", "NegatedAtom free(folder)", "end_variable",
    "begin_variable", "var1", "-1", "2", "Atom waiting(run)", "Atom done(run)", "end_variable",
    "0",
    "begin_state", "0", "0", "end_state",
    "begin_goal", "1", "1 1", "end_goal",
    "2",
    "begin_operator", "take folder", "0", "1", "0 0 0 1", "1", "end_operator",
    "begin_operator", "run folder", "0", "2", "0 1 0 1", "0 0 1 0", "1", "end_operator",
    "0",
};

/* a text in order whose task has no variable */
static const char NO_VARIABLE[] = "begin_version\n3\nend_version\nbegin_metric\n0\nend_metric\n0\n0\nbegin_state\nend_state\n"
                                  "begin_goal\n0\nend_goal\n0\n0\n";

/* the folder example's formula at horizon 1 */
static const char HEADER[] = "p cnf 10 22\n";
static const char CLAUSES[] = "1 0\n3 0\n10 0\n1 2 0\n3 4 0\n7 8 0\n9 10 0\n-1 -2 0\n-3 -4 0\n-7 -8 0\n-9 -10 0\n-5 1 0\n-6 2 0\n"
                              "-6 3 0\n-5 8 0\n-6 7 0\n-6 10 0\n-7 1 6 0\n-8 2 5 0\n-9 3 0\n-10 4 6 0\n-5 -6 0\n";

/* the model of its one good schedule at horizon 2, as a solver says it, and as bits: 1 3 5 8 9 12 13 16 are true */
static const char OUTPUT[] = "c a solver\ns SATISFIABLE\nv 1 -2 3 -4 5 -6 -7 8\nv 9 -10 -11 12 13 -14 -15 16 0";
static const uint64_t ALL_GIVEN = 0xffff;
static const uint64_t MODEL_TRUE = 0x9995;

/* a task of one value and two actions without pairs, which change nothing; its formula at horizon 1 is 1, 1, 4, -4 1, -2 -3 */
static const uint8_t IDLE[] = {0x10, 0x00, 0x01, 0x00, 0x11, 0x00, 0x01, 0x00, 0x12, 0x00, 0x00,
                               0x00, 0x12, 0x00, 0x04, 0x00, 0x01, 0x00, 0x00, 0x00, 0x00, 0x00};

enum {
    FOLDER_LENGTH = sizeof FOLDER,
    SIZES_AT = 16, /* the first domain size */
    ALL_LINES = sizeof TEXT_LINES / sizeof *TEXT_LINES,
    VERSION_LINE = 2,
    END_METRIC_LINE = 6,
    LAYER_LINE = 10,
    START_LINE = 24,
    GOAL_LINE = 29,
    EFFECT_LINE = 36,
    CLAUSE_COUNT = 22,
    ALL_BYTES = sizeof CLAUSES - 1,
    CLAUSE_WITH_THREE = 17, /* -7 1 6 */
    BIT_OF_5 = 4,
    BIT_OF_6 = 5,
    BIT_OF_16 = 15
};

/* ---- guards */

#define GUARD ((size_t)0xdeadbeefdeadbeef)
#define GUARD_BYTE ((uint8_t)0xa5)
#define GUARD_LITERAL ((int32_t)0x5a5a5a5a)
#define GUARD_ENTRY ((uint32_t)0xfeedface)

struct cell {
    size_t before, value, after;
};

/* two words and a guard word behind each row */
struct rows {
    uint64_t given[3], truth[3];
};

static const struct cell FRESH = {GUARD, GUARD, GUARD};
static const struct rows DIRTY = {{~(uint64_t)0, 7, GUARD}, {~(uint64_t)0, 9, GUARD}};

static int holds(struct cell cell, size_t value) {
    return cell.before == GUARD && cell.value == value && cell.after == GUARD;
}

/* only the first words may differ from those of DIRTY */
static int rows_hold(const struct rows *rows, uint64_t given, uint64_t truth) {
    struct rows expected = DIRTY;
    expected.given[0] = given;
    expected.truth[0] = truth;
    return memcmp(rows, &expected, sizeof expected) == 0;
}

static int as_found(const struct rows *rows) {
    return memcmp(rows, &DIRTY, sizeof DIRTY) == 0;
}

static int all_bytes(const uint8_t *bytes, size_t length, uint8_t value) {
    for (size_t i = 0; i < length; i++)
        if (bytes[i] != value)
            return 0;
    return 1;
}

/* ---- cases */

static unsigned passed, failed;

void expect(const char *name, int ok) {
    if (ok) {
        passed++;
        return;
    }
    failed++;
    printf("failed: %s\n", name);
}

/* a result and its detail */
static int told(size_t result, struct cell detail, size_t number, size_t about) {
    return result == number && holds(detail, about);
}

/* ---- task files */

static int file_told(const uint8_t *file, size_t length, size_t number, size_t about) {
    struct cell detail = FRESH;
    size_t result = wawrolen_check_file(file, length, &detail.value);
    return told(result, detail, number, about);
}

static void files(void) {
    uint8_t changed[FOLDER_LENGTH];
    memcpy(changed, FOLDER, FOLDER_LENGTH);
    changed[SIZES_AT + 1] = 65;
    expect("the folder file is accepted", file_told(FOLDER, FOLDER_LENGTH, 0, 0));
    expect("an empty file gives 1", file_told(FOLDER, 0, 1, 0));
    expect("a file cut short gives 2 at row 3", file_told(FOLDER, FOLDER_LENGTH - 1, 2, 3));
    expect("a domain of 65 gives 4 at its variable", file_told(changed, FOLDER_LENGTH, 4, 1));
    changed[SIZES_AT + 1] = 64;
    expect("a domain of 64 is accepted", file_told(changed, FOLDER_LENGTH, 0, 0));
}

static int body_told(size_t length, size_t number, size_t at, size_t bytes, size_t refusal, size_t about) {
    struct cell start = FRESH, size = FRESH, detail = FRESH;
    size_t result = wawrolen_body(FOLDER, length, number, &start.value, &size.value, &detail.value);
    return told(result, detail, refusal, about) && holds(start, at) && holds(size, bytes);
}

static void bodies(void) {
    expect("body 1", body_told(FOLDER_LENGTH, 1, 16, 2, 0, 0));
    expect("body 2", body_told(FOLDER_LENGTH, 2, 18, 2, 0, 0));
    expect("body 3", body_told(FOLDER_LENGTH, 3, 20, 2, 0, 0));
    expect("body 4", body_told(FOLDER_LENGTH, 4, 22, 16, 0, 0));
    expect("there is no body 0", body_told(FOLDER_LENGTH, 0, 0, 0, 0, 0));
    expect("there is no body 5", body_told(FOLDER_LENGTH, 5, 0, 0, 0, 0));
    expect("there is no body of the largest number", body_told(FOLDER_LENGTH, SIZE_MAX, 0, 0, 0, 0));
    expect("a body of a file of 15 bytes: 1", body_told(15, 1, 0, 0, 1, 0));
    expect("a body of a file cut short: 2", body_told(FOLDER_LENGTH - 1, 1, 0, 0, 2, 3));
}

/* ---- the translator's text */

enum { NO_LINE = 0, SAS_ROOM = 1024, FILE_ROOM = FOLDER_LENGTH + 2 };

/* the room that is lent, with guards on both sides */
struct translated {
    uint8_t before[8], room[FILE_ROOM], after[8];
};

static int translation_told(const char *text, size_t length, size_t lent, size_t number, size_t about) {
    struct translated translated;
    struct cell bytes = FRESH, detail = FRESH;
    size_t many = number == 0 ? FOLDER_LENGTH : 0;
    memset(&translated, GUARD_BYTE, sizeof translated);
    size_t result = wawrolen_translate((const uint8_t *)text, length, translated.room, lent, &bytes.value, &detail.value);
    return told(result, detail, number, about) && holds(bytes, many) && memcmp(translated.room, FOLDER, many) == 0 &&
           all_bytes(translated.room + many, FILE_ROOM - many, GUARD_BYTE) &&
           all_bytes(translated.before, sizeof translated.before, GUARD_BYTE) &&
           all_bytes(translated.after, sizeof translated.after, GUARD_BYTE);
}

/* the folder example's first lines, one of them, from 1, replaced */
static int lines_translated(size_t many, size_t changed, const char *line, size_t lent, size_t number, size_t about) {
    char text[SAS_ROOM];
    size_t length = 0;
    for (size_t i = 1; i <= many; i++)
        length += (size_t)snprintf(text + length, sizeof text - length, "%s\n", i == changed ? line : TEXT_LINES[i - 1]);
    return translation_told(text, length, lent, number, about);
}

static int changed_told(size_t changed, const char *line, size_t number, size_t about) {
    return lines_translated(ALL_LINES, changed, line, FILE_ROOM, number, about);
}

static void translations(void) {
    expect("the folder text in just its file's room", lines_translated(ALL_LINES, NO_LINE, "", FOLDER_LENGTH, 0, 0));
    expect("the folder text in more room", changed_told(NO_LINE, "", 0, 0));
    expect("an empty text: 30 at line 1", translation_told("", 0, FILE_ROOM, 30, 1));
    expect("a line against the format: 30 at it", changed_told(END_METRIC_LINE, "end_metrics", 30, END_METRIC_LINE));
    expect("a text that stops early: 30 at the line after its last",
           lines_translated(ALL_LINES - 1, NO_LINE, "", FILE_ROOM, 30, ALL_LINES));
    expect("an axiom layer of 0: 31 at its line", changed_told(LAYER_LINE, "0", 31, LAYER_LINE));
    expect("an effect with a condition: 31 at its line", changed_told(EFFECT_LINE, "1 0 0 0 1", 31, EFFECT_LINE));
    expect("an axiom: 31 at the last line", changed_told(ALL_LINES, "1", 31, ALL_LINES));
    expect("another version: 32 at its line", changed_told(VERSION_LINE, "4", 32, VERSION_LINE));
    expect("a text without a variable: 3", translation_told(NO_VARIABLE, strlen(NO_VARIABLE), FILE_ROOM, 3, 0));
    expect("a start value outside its domain: 5", changed_told(START_LINE + 1, "256", 5, 1));
    expect("a goal pair outside: 6", changed_told(GOAL_LINE, "1 2", 6, 0));
    expect("an effect outside: 7", changed_told(EFFECT_LINE, "0 2 0 1", 7, 0));
    expect("the folder text in short room: 10", lines_translated(ALL_LINES, NO_LINE, "", FOLDER_LENGTH - 1, 10, 0));
    expect("the folder text without room: 10", lines_translated(ALL_LINES, NO_LINE, "", 0, 10, 0));
    expect("32 comes before 10", lines_translated(ALL_LINES, VERSION_LINE, "2", 0, 32, VERSION_LINE));
    expect("6 comes before 10", lines_translated(ALL_LINES, GOAL_LINE, "1 2", 0, 6, 0));
}

/* ---- the formula */

static int counts_told(size_t horizon, size_t n, size_t c, size_t number) {
    struct cell variables = FRESH, clauses = FRESH, detail = FRESH;
    size_t result = wawrolen_counts(FOLDER, FOLDER_LENGTH, horizon, &variables.value, &clauses.value, &detail.value);
    return told(result, detail, number, 0) && holds(variables, n) && holds(clauses, c);
}

static void counts(void) {
    struct cell variables = FRESH, clauses = FRESH, detail = FRESH;
    size_t result = wawrolen_counts(FOLDER, FOLDER_LENGTH - 1, 1, &variables.value, &clauses.value, &detail.value);
    expect("counts at horizon 0", counts_told(0, 4, 7, 0));
    expect("counts at horizon 1", counts_told(1, 10, CLAUSE_COUNT, 0));
    expect("counts at horizon 2", counts_told(2, 16, 37, 0));
    expect("counts at horizon 64", counts_told(64, 388, 967, 0));
    expect("counts at horizon 65: 8", counts_told(65, 0, 0, 8));
    expect("counts at the largest horizon: 8", counts_told(SIZE_MAX, 0, 0, 8));
    expect("counts of a file cut short: 2", told(result, detail, 2, 3) && holds(variables, 0) && holds(clauses, 0));
}

static int literals_told(size_t horizon, size_t c, size_t lent, size_t number, const int32_t *literals, size_t many) {
    int32_t room[4] = {GUARD_LITERAL, GUARD_LITERAL, GUARD_LITERAL, GUARD_LITERAL};
    struct cell count = FRESH, detail = FRESH;
    size_t result = wawrolen_literals(FOLDER, FOLDER_LENGTH, horizon, c, room, lent, &count.value, &detail.value);
    for (size_t i = many; i < 4; i++)
        if (room[i] != GUARD_LITERAL)
            return 0;
    return told(result, detail, number, 0) && holds(count, many) && memcmp(room, literals, many * sizeof *room) == 0;
}

static void literals(void) {
    static const int32_t THREE[] = {-7, 1, 6}, LAST[] = {-5, -6};
    expect("the literals of clause 17 in just their room", literals_told(1, CLAUSE_WITH_THREE, 3, 0, THREE, 3));
    expect("the literals of clause 17 in more room", literals_told(1, CLAUSE_WITH_THREE, 4, 0, THREE, 3));
    expect("the literals of clause 17 in short room: 10", literals_told(1, CLAUSE_WITH_THREE, 2, 10, THREE, 0));
    expect("the literals of the last clause", literals_told(1, CLAUSE_COUNT - 1, 4, 0, LAST, 2));
    expect("the literals behind the last clause: 9", literals_told(1, CLAUSE_COUNT, 4, 9, LAST, 0));
    expect("9 comes before 10", literals_told(1, SIZE_MAX, 0, 9, LAST, 0));
    expect("8 comes before 9", literals_told(65, SIZE_MAX, 0, 8, LAST, 0));
}

/* ---- the text */

enum { TEXT_ROOM = sizeof CLAUSES + 16 };

static int text_is(const uint8_t *room, const char *text, size_t many) {
    return memcmp(room, text, many) == 0 && all_bytes(room + many, TEXT_ROOM - many, GUARD_BYTE);
}

static int header_told(size_t horizon, size_t lent, size_t number, size_t many) {
    uint8_t room[TEXT_ROOM];
    struct cell bytes = FRESH, detail = FRESH;
    memset(room, GUARD_BYTE, sizeof room);
    size_t result = wawrolen_header(FOLDER, FOLDER_LENGTH, horizon, room, lent, &bytes.value, &detail.value);
    return told(result, detail, number, 0) && holds(bytes, many) && text_is(room, HEADER, many);
}

static int line_told(size_t c, size_t lent, size_t number, const char *line) {
    uint8_t room[TEXT_ROOM];
    struct cell bytes = FRESH, detail = FRESH;
    memset(room, GUARD_BYTE, sizeof room);
    size_t result = wawrolen_clause_line(FOLDER, FOLDER_LENGTH, 1, c, room, lent, &bytes.value, &detail.value);
    return told(result, detail, number, 0) && holds(bytes, strlen(line)) && text_is(room, line, strlen(line));
}

static int lines_told(size_t c, size_t lent, size_t number, const char *text, size_t many, size_t count) {
    uint8_t room[TEXT_ROOM];
    struct cell lines = FRESH, bytes = FRESH, detail = FRESH;
    memset(room, GUARD_BYTE, sizeof room);
    size_t result = wawrolen_lines(FOLDER, FOLDER_LENGTH, 1, c, room, lent, &lines.value, &bytes.value, &detail.value);
    return told(result, detail, number, 0) && holds(lines, count) && holds(bytes, many) && text_is(room, text, many);
}

/* the whole text in runs that fit a room of so many bytes */
static int in_runs_of(size_t lent) {
    size_t c = 0, at = 0;
    while (c < CLAUSE_COUNT) {
        uint8_t room[TEXT_ROOM];
        size_t lines, bytes, detail;
        if (wawrolen_lines(FOLDER, FOLDER_LENGTH, 1, c, room, lent, &lines, &bytes, &detail) != 0)
            return 0;
        if (at + bytes > ALL_BYTES || memcmp(room, CLAUSES + at, bytes) != 0)
            return 0;
        c += lines;
        at += bytes;
    }
    return c == CLAUSE_COUNT && at == ALL_BYTES;
}

static void texts(void) {
    expect("the header in just its room", header_told(1, strlen(HEADER), 0, strlen(HEADER)));
    expect("the header in more room", header_told(1, TEXT_ROOM, 0, strlen(HEADER)));
    expect("the header in short room: 10", header_told(1, strlen(HEADER) - 1, 10, 0));
    expect("the header at horizon 65: 8", header_told(65, TEXT_ROOM, 8, 0));
    expect("the line of clause 17 in just its room", line_told(CLAUSE_WITH_THREE, 9, 0, "-7 1 6 0\n"));
    expect("the line of clause 17 in short room: 10", line_told(CLAUSE_WITH_THREE, 8, 10, ""));
    expect("the line behind the last clause: 9", line_told(CLAUSE_COUNT, TEXT_ROOM, 9, ""));
    expect("all lines in just their room", lines_told(0, ALL_BYTES, 0, CLAUSES, ALL_BYTES, CLAUSE_COUNT));
    expect("all lines in more room", lines_told(0, TEXT_ROOM, 0, CLAUSES, ALL_BYTES, CLAUSE_COUNT));
    expect("all lines but the last", lines_told(0, ALL_BYTES - 1, 0, CLAUSES, ALL_BYTES - strlen("-5 -6 0\n"), CLAUSE_COUNT - 1));
    expect("one line fits, and no part of the next", lines_told(CLAUSE_WITH_THREE, 12, 0, "-7 1 6 0\n", 9, 1));
    expect("not one line fits: 10", lines_told(CLAUSE_WITH_THREE, 8, 10, "", 0, 0));
    expect("lines from behind the last clause: 9", lines_told(CLAUSE_COUNT, TEXT_ROOM, 9, "", 0, 0));
    expect("the text in runs", in_runs_of(strlen("-10 4 6 0\n")) && in_runs_of(16) && in_runs_of(50));
}

/* ---- solver output */

static void starts(void) {
    struct rows rows = DIRTY;
    struct cell highest = FRESH, phase = FRESH, detail = FRESH;
    size_t result = wawrolen_start_reading(FOLDER, FOLDER_LENGTH, 1, rows.given, 0, rows.truth, 1, &highest.value, &phase.value,
                                           &detail.value);
    expect("a start without the words needed: 10",
           told(result, detail, 10, 0) && holds(highest, GUARD) && holds(phase, GUARD) && as_found(&rows));
    result = wawrolen_start_reading(FOLDER, FOLDER_LENGTH, 65, rows.given, 2, rows.truth, 2, &highest.value, &phase.value,
                                    &detail.value);
    expect("a start at horizon 65: 8",
           told(result, detail, 8, 0) && holds(highest, GUARD) && holds(phase, GUARD) && as_found(&rows));
    result = wawrolen_start_reading(FOLDER, FOLDER_LENGTH, 1, rows.given, 1, rows.truth, 2, &highest.value, &phase.value,
                                    &detail.value);
    expect("a start", told(result, detail, 0, 0) && holds(highest, 10) && holds(phase, WAWROLEN_NO_STATUS) && rows_hold(&rows, 0, 0));
}

/* one line at horizon 1, from given bits; what it leaves of the phase and the bits */
struct read {
    const char *line;
    size_t phase;
    uint64_t given, truth;
    size_t number, about, next_phase;
    uint64_t next_given, next_truth;
};

static const struct read READS[] = {
    {"c", 0, 0, 0, 0, 0, 0, 0, 0},
    {"s SATISFIABLE", 0, 0, 0, 0, 0, 1, 0, 0},
    {"s UNSATISFIABLE", 0, 0, 0, 0, 0, 3, 0, 0},
    {"s UNKNOWN", 0, 0, 0, 0, 0, 4, 0, 0},
    {"s SAT", 0, 0, 0, 11, 5, 0, 0, 0},
    {"", 0, 0, 0, 11, 0, 0, 0, 0},
    {"s SATISFIABLE", 1, 0, 0, 12, 0, 1, 0, 0},
    {"v 1", 0, 0, 0, 12, 0, 0, 0, 0},
    {"v 1 -2", 1, 0, 0, 0, 0, 1, 3, 1},
    {"v 3 0", 1, 3, 1, 0, 0, 2, 7, 5},
    {"v -1", 1, 0, 1, 0, 0, 1, 1, 0},
    {"v 11", 1, 0, 0, 13, 2, 1, 0, 0},
    {"v 1 1", 1, 0, 0, 14, 4, 1, 0, 0},
    {"v -0", 1, 0, 0, 11, 3, 1, 0, 0},
    {"v 1 -2 0 3", 1, 0, 0, 12, 9, 1, 0, 0},
    {"v 1", 2, 7, 5, 12, 0, 2, 7, 5},
    {"c made-up phases are no status", 5, 0, 0, 0, 0, 0, 0, 0},
    {"s SATISFIABLE", SIZE_MAX, 0, 0, 0, 0, 1, 0, 0},
    {"v 1", 77, 0, 0, 12, 0, 77, 0, 0},
};

enum { HIGHEST_AT_1 = 10, HIGHEST_AT_2 = 16 };

static int line_read(const struct read *read, size_t words) {
    struct rows rows = DIRTY;
    struct cell phase = FRESH, detail = FRESH;
    rows.given[0] = read->given;
    rows.truth[0] = read->truth;
    phase.value = read->phase;
    size_t result = wawrolen_read_line(HIGHEST_AT_1, &phase.value, rows.given, words, rows.truth, words, (const uint8_t *)read->line,
                                       strlen(read->line), &detail.value);
    if (words == 0)
        return told(result, detail, 10, 0) && holds(phase, read->phase) && rows_hold(&rows, read->given, read->truth);
    return told(result, detail, read->number, read->about) && holds(phase, read->next_phase) &&
           rows_hold(&rows, read->next_given, read->next_truth);
}

static void lines_read(void) {
    char name[64];
    for (size_t i = 0; i < sizeof READS / sizeof *READS; i++) {
        snprintf(name, sizeof name, "line \"%s\" in phase %zu", READS[i].line, READS[i].phase);
        expect(name, line_read(&READS[i], 1) && line_read(&READS[i], 2));
    }
    expect("a line without rows: 10", line_read(&READS[1], 0));
}

/* a whole output, piece by piece */
struct feed {
    struct cell phase, held, detail;
    struct rows rows;
    uint8_t line[WAWROLEN_LINE_ROOM + 1];
};

static void feed_begins(struct feed *feed) {
    feed->phase = feed->held = feed->detail = FRESH;
    feed->phase.value = WAWROLEN_NO_STATUS;
    feed->held.value = 0;
    feed->rows = DIRTY;
    feed->rows.given[0] = feed->rows.truth[0] = 0;
    memset(feed->line, GUARD_BYTE, sizeof feed->line);
}

static size_t feed_takes(struct feed *feed, size_t room, const char *bytes, size_t length) {
    return wawrolen_read_bytes(HIGHEST_AT_2, &feed->phase.value, &feed->held.value, feed->rows.given, 1, feed->rows.truth, 1,
                               feed->line, room, (const uint8_t *)bytes, length, &feed->detail.value);
}

static size_t feed_ends(struct feed *feed, size_t room) {
    return wawrolen_read_rest(HIGHEST_AT_2, &feed->phase.value, feed->held.value, feed->rows.given, 1, feed->rows.truth, 1,
                              feed->line, room, &feed->detail.value);
}

static int feed_left(const struct feed *feed, size_t phase, size_t held, uint64_t given, uint64_t truth) {
    return holds(feed->phase, phase) && holds(feed->held, held) && rows_hold(&feed->rows, given, truth) &&
           feed->line[WAWROLEN_LINE_ROOM] == GUARD_BYTE;
}

static int in_pieces_of(size_t piece) {
    struct feed feed;
    size_t length = strlen(OUTPUT);
    feed_begins(&feed);
    for (size_t at = 0; at < length; at += piece) {
        size_t many = length - at < piece ? length - at : piece;
        if (!told(feed_takes(&feed, WAWROLEN_LINE_ROOM, OUTPUT + at, many), feed.detail, 0, 0))
            return 0;
    }
    if (!feed_left(&feed, WAWROLEN_MODEL_OPEN, strlen("v 9 -10 -11 12 13 -14 -15 16 0"), 0xff, MODEL_TRUE & 0xff))
        return 0;
    size_t result = feed_ends(&feed, WAWROLEN_LINE_ROOM);
    return told(result, feed.detail, 0, 0) &&
           feed_left(&feed, WAWROLEN_MODEL_CLOSED, strlen("v 9 -10 -11 12 13 -14 -15 16 0"), ALL_GIVEN, MODEL_TRUE);
}

static void outputs(void) {
    struct feed feed;
    char name[64];
    for (size_t piece = 1; piece <= strlen(OUTPUT); piece += 13) {
        snprintf(name, sizeof name, "an output in pieces of %zu", piece);
        expect(name, in_pieces_of(piece));
    }
    feed_begins(&feed);
    size_t result = feed_takes(&feed, WAWROLEN_LINE_ROOM - 1, "s SATISFIABLE\n", 14);
    expect("bytes without room for a line: 10", told(result, feed.detail, 10, 0) && feed_left(&feed, 0, 0, 0, 0) &&
                                                    all_bytes(feed.line, sizeof feed.line, GUARD_BYTE));
    result = feed_takes(&feed, WAWROLEN_LINE_ROOM, "s SATISFIABLE\nv 1 1\nv 2\n", 24);
    expect("a refused line ends the bytes", told(result, feed.detail, 14, 4) && feed_left(&feed, 0, 0, 0, 0));
    feed_begins(&feed);
    result = feed_takes(&feed, WAWROLEN_LINE_ROOM, "s SAT", 5);
    expect("bytes without an LF are held", told(result, feed.detail, 0, 0) && feed_left(&feed, 0, 5, 0, 0) && memcmp(feed.line, "s SAT", 5) == 0 &&
                                               all_bytes(feed.line + 5, WAWROLEN_LINE_ROOM - 5, GUARD_BYTE));
    result = feed_ends(&feed, WAWROLEN_LINE_ROOM - 1);
    expect("the end without room for a line: 10", told(result, feed.detail, 10, 0) && feed_left(&feed, 0, 5, 0, 0));
    result = feed_ends(&feed, WAWROLEN_LINE_ROOM);
    expect("a last line that is refused", told(result, feed.detail, 11, 5) && feed_left(&feed, 0, 5, 0, 0));
    feed_begins(&feed);
    feed.phase.value = 77;
    result = feed_ends(&feed, WAWROLEN_LINE_ROOM);
    expect("nothing is held, in a made-up phase", told(result, feed.detail, 0, 0) && feed_left(&feed, WAWROLEN_NO_STATUS, 0, 0, 0));
}

static void overlong(void) {
    struct feed feed;
    feed_begins(&feed);
    for (size_t i = 0; i < WAWROLEN_LINE_ROOM + 10; i++)
        feed_takes(&feed, WAWROLEN_LINE_ROOM, "c", 1);
    expect("an overlong line is held up to its room", feed_left(&feed, 0, WAWROLEN_LINE_ROOM, 0, 0));
    size_t result = feed_takes(&feed, WAWROLEN_LINE_ROOM, "\n", 1);
    expect("an overlong line: 11 at 4,096", told(result, feed.detail, 11, WAWROLEN_LINE_ROOM - 1) && feed_left(&feed, 0, 0, 0, 0));
}

/* ---- the end of a reading */

static int end_told(size_t phase, uint64_t given, uint64_t truth, size_t lent, size_t number, size_t about) {
    struct rows rows = DIRTY;
    uint32_t entries[] = {GUARD_ENTRY, GUARD_ENTRY, GUARD_ENTRY};
    const uint32_t found[] = {GUARD_ENTRY, GUARD_ENTRY, GUARD_ENTRY}, schedule[] = {1, 2, GUARD_ENTRY};
    struct cell detail = FRESH;
    rows.given[0] = given;
    rows.truth[0] = truth;
    size_t result = wawrolen_end_reading(FOLDER, FOLDER_LENGTH, 2, phase, rows.given, 1, rows.truth, 1, entries, lent, &detail.value);
    return told(result, detail, number, about) && rows_hold(&rows, given, truth) &&
           memcmp(entries, number == 0 ? schedule : found, sizeof entries) == 0;
}

/* the end of a reading of the task IDLE at horizon 1, from rows: a schedule is its one empty step */
static int idle_told(uint64_t given, uint64_t truth, size_t number, size_t about) {
    struct rows rows = DIRTY;
    uint32_t entries[] = {GUARD_ENTRY, GUARD_ENTRY};
    const uint32_t found[] = {GUARD_ENTRY, GUARD_ENTRY}, schedule[] = {0, GUARD_ENTRY};
    struct cell detail = FRESH;
    rows.given[0] = given;
    rows.truth[0] = truth;
    size_t result = wawrolen_end_reading(IDLE, sizeof IDLE, 1, WAWROLEN_MODEL_CLOSED, rows.given, 1, rows.truth, 1, entries, 1, &detail.value);
    return told(result, detail, number, about) && rows_hold(&rows, given, truth) &&
           memcmp(entries, number == 0 ? schedule : found, sizeof entries) == 0;
}

/* the same from solver output, whose v line is this one: a whole reading */
static int idle_read(const char *line, size_t number, size_t about) {
    static const char STATUS[] = "s SATISFIABLE";
    struct rows rows = DIRTY;
    size_t highest, phase, detail;
    return wawrolen_start_reading(IDLE, sizeof IDLE, 1, rows.given, 1, rows.truth, 1, &highest, &phase, &detail) == 0 &&
           wawrolen_read_line(highest, &phase, rows.given, 1, rows.truth, 1, (const uint8_t *)STATUS, strlen(STATUS), &detail) == 0 &&
           wawrolen_read_line(highest, &phase, rows.given, 1, rows.truth, 1, (const uint8_t *)line, strlen(line), &detail) == 0 &&
           phase == WAWROLEN_MODEL_CLOSED && idle_told(rows.given[0], rows.truth[0], number, about);
}

static void partial_models(void) {
    expect("a model that names all", idle_read("v 1 -2 -3 4 0", 0, 0));
    expect("2 not named, which changes nothing", idle_read("v 1 -3 4 0", 0, 0));
    expect("3 not named, which changes nothing", idle_read("v 1 -2 4 0", 0, 0));
    expect("2 not given, its true bit set", idle_told(0xd, 0xb, 0, 0));
    expect("2 and 3 not named: 17 at clause 4", idle_read("v 1 4 0", 17, 4));
    expect("4 not given, its true bit set: 17 at clause 2", idle_told(0x7, 0x9, 17, 2));
    expect("nothing named: 17 at clause 0", idle_read("v 0", 17, 0));
}

/* all variables are given but the one of this bit */
static uint64_t all_but(unsigned bit) {
    return ALL_GIVEN & ~((uint64_t)1 << bit);
}

static void ends(void) {
    const uint64_t false_16 = MODEL_TRUE & ~((uint64_t)1 << BIT_OF_16);
    expect("a model's schedule in just its room", end_told(WAWROLEN_MODEL_CLOSED, ALL_GIVEN, MODEL_TRUE, 2, 0, 0));
    expect("a model's schedule in more room", end_told(WAWROLEN_MODEL_CLOSED, ALL_GIVEN, MODEL_TRUE, 3, 0, 0));
    expect("bits behind N do not matter", end_told(WAWROLEN_MODEL_CLOSED, ~(uint64_t)0, ~ALL_GIVEN | MODEL_TRUE, 3, 0, 0));
    expect("no status: 15", end_told(WAWROLEN_NO_STATUS, ALL_GIVEN, MODEL_TRUE, 2, 15, 0));
    expect("not closed: 15", end_told(WAWROLEN_MODEL_OPEN, ALL_GIVEN, MODEL_TRUE, 2, 15, 0));
    expect("a made-up phase: 15", end_told(SIZE_MAX, ALL_GIVEN, MODEL_TRUE, 2, 15, 0));
    expect("UNSATISFIABLE: 18", end_told(WAWROLEN_SAID_UNSATISFIABLE, ALL_GIVEN, MODEL_TRUE, 2, 18, 0));
    expect("UNKNOWN: 19", end_told(WAWROLEN_SAID_UNKNOWN, ALL_GIVEN, MODEL_TRUE, 2, 19, 0));
    expect("5, a move, not given: 17 at clause 28", end_told(WAWROLEN_MODEL_CLOSED, all_but(BIT_OF_5), MODEL_TRUE, 2, 17, 28));
    expect("6 not given, -6 being all that is true in -6 2: 17 at clause 16", end_told(WAWROLEN_MODEL_CLOSED, all_but(BIT_OF_6), MODEL_TRUE, 2, 17, 16));
    expect("16 false: 17 at clause 2", end_told(WAWROLEN_MODEL_CLOSED, ALL_GIVEN, false_16, 2, 17, 2));
    expect("room for one entry: 10", end_told(WAWROLEN_MODEL_CLOSED, ALL_GIVEN, MODEL_TRUE, 1, 10, 0));
}

/* ---- schedules */

/* the verdict on a schedule at horizon 2, alone and on the way back */
static int schedule_told(uint32_t first, uint32_t second, size_t lent, size_t number, size_t about) {
    const uint32_t entries[] = {first, second, GUARD_ENTRY};
    struct rows rows = DIRTY;
    struct cell detail = FRESH, back = FRESH;
    size_t result = wawrolen_check_schedule(FOLDER, FOLDER_LENGTH, 2, entries, lent, &detail.value);
    size_t result_back =
        wawrolen_way_back(FOLDER, FOLDER_LENGTH, 2, entries, lent, rows.given, 1, rows.truth, 2, &back.value);
    int left = number == 0 ? rows_hold(&rows, ALL_GIVEN, MODEL_TRUE) : as_found(&rows);
    return told(result, detail, number, about) && told(result_back, back, number, about) && left;
}

static void schedules(void) {
    const uint32_t entries[] = {1, 2};
    struct rows rows = DIRTY;
    struct cell detail = FRESH;
    size_t result = wawrolen_way_back(FOLDER, FOLDER_LENGTH, 2, entries, 2, rows.given, 1, rows.truth, 0, &detail.value);
    expect("the good schedule, and its model", schedule_told(1, 2, 2, 0, 0));
    expect("entries behind the horizon do not matter", schedule_told(1, 2, 3, 0, 0));
    expect("an entry over A: 20 at step 1", schedule_told(3, 0, 2, 20, 1));
    expect("an action that does not apply: 21 at step 1", schedule_told(2, 0, 2, 21, 1));
    expect("the goal unmet: 22 at pair 0", schedule_told(1, 0, 2, 22, 0));
    expect("too few entries: 10", schedule_told(1, 2, 1, 10, 0));
    expect("the way back without the words needed: 10", told(result, detail, 10, 0) && as_found(&rows));
}

int main(int words, char **word) {
    files();
    bodies();
    translations();
    counts();
    literals();
    texts();
    starts();
    lines_read();
    outputs();
    overlong();
    ends();
    partial_models();
    schedules();
    stack_cases(words > 1 && strcmp(word[1], "stacks") == 0);
    printf("%u passed, %u failed\n", passed, failed);
    return failed != 0;
}
