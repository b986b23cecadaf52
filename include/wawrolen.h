/* Wawrolen for a host in C: task files, the translator's texts, the clauses of a task at a horizon, solver output, models and
 * schedules.
 *
 * Every function returns the number of a refusal, 0 on acceptance, and writes the refusal's detail to *detail, 0 on acceptance. Numbers
 * and details are those of the rules. What each function promises is proved for all bytes and numbers, refusals included; the
 * promises stand in crates/host/src.
 *
 * Cells: a count is written at every call, 0 on a refusal. The cells of a reading state (*highest, *phase) are left as found on a
 * refusal. Lent room: what is written stands at the front and nothing behind it changes; a refusal leaves all of it as found, but
 * for wawrolen_read_bytes, which may have read lines before the one that it refuses.
 *
 * What a caller owes: each pointer is aligned and not null, also where the length beside it is 0, and points to as many elements as
 * that length says; no cell and no room that a function writes overlaps anything else that it is handed. */
#ifndef WAWROLEN_H
#define WAWROLEN_H

#include <stddef.h>
#include <stdint.h>

#ifdef __cplusplus
extern "C" {
#endif

/* How far solver output has been read. Any other number is taken as WAWROLEN_NO_STATUS. */
enum {
    WAWROLEN_NO_STATUS = 0,
    WAWROLEN_MODEL_OPEN = 1,
    WAWROLEN_MODEL_CLOSED = 2,
    WAWROLEN_SAID_UNSATISFIABLE = 3,
    WAWROLEN_SAID_UNKNOWN = 4
};

/* Room for any task file that wawrolen_translate writes. */
enum { WAWROLEN_FILE_ROOM = 17808 };

/* The room that wawrolen_read_bytes needs for a line: one byte more than a line may have. */
enum { WAWROLEN_LINE_ROOM = 4097 };

/* No call takes more stack, in bytes. That is measured, on the largest inputs (test/stacks.c), and not proved. */
enum { WAWROLEN_STACK = 20480 };

/* ---- task files */

/* Judges a task file: refusals 1 to 7. */
size_t wawrolen_check_file(const uint8_t *file, size_t file_length, size_t *detail);

/* Says where in the file the body of a number, from 1, starts and how many bytes it has, 0 and 0 where there is none; the result says
 * which of the refusals 1 and 2 applies, and a number that no body has is no refusal. */
size_t wawrolen_body(const uint8_t *file, size_t file_length, size_t number, size_t *start, size_t *size, size_t *detail);

/* ---- texts of the Fast Downward translator, format version 3 */

/* Writes the task file of a whole text and counts its bytes: refusals 30 to 32, whose detail is a line, then 3 to 7, then 10. */
size_t wawrolen_translate(const uint8_t *text, size_t text_length, uint8_t *room, size_t room_length, size_t *bytes, size_t *detail);

/* ---- the formula of a file at a horizon */

/* Counts the formula's variables, N, and its clauses, C: refusals 1 to 8. */
size_t wawrolen_counts(const uint8_t *file, size_t file_length, size_t horizon, size_t *variables, size_t *clauses, size_t *detail);

/* Writes the literals of clause c, from 0, and counts them: refusals 1 to 10. */
size_t wawrolen_literals(const uint8_t *file, size_t file_length, size_t horizon, size_t c, int32_t *room, size_t room_length,
                         size_t *count, size_t *detail);

/* Writes the line "p cnf N C" with its LF and counts its bytes: refusals 1 to 8 and 10. */
size_t wawrolen_header(const uint8_t *file, size_t file_length, size_t horizon, uint8_t *room, size_t room_length, size_t *bytes,
                       size_t *detail);

/* Writes the line of clause c, from 0, with its LF and counts its bytes: refusals 1 to 10. */
size_t wawrolen_clause_line(const uint8_t *file, size_t file_length, size_t horizon, size_t c, uint8_t *room, size_t room_length,
                            size_t *bytes, size_t *detail);

/* Writes the lines of as many clauses, from clause c on, as fit whole, and counts lines and bytes: refusals 1 to 10, where 10 says
 * that not one line fits. */
size_t wawrolen_lines(const uint8_t *file, size_t file_length, size_t horizon, size_t c, uint8_t *room, size_t room_length,
                      size_t *lines, size_t *bytes, size_t *detail);

/* ---- solver output, into two rows of bits: which variables were given, and which are true */

/* Starts a reading: writes the first reading state, *highest being N, and sets the words needed to 0 in both rows: refusals 1 to 8
 * and 10. */
size_t wawrolen_start_reading(const uint8_t *file, size_t file_length, size_t horizon, uint64_t *given, size_t given_length,
                              uint64_t *truth, size_t truth_length, size_t *highest, size_t *phase, size_t *detail);

/* Reads one line without its LF, stores its numbers in both rows and writes the next phase: refusals 10 to 14. */
size_t wawrolen_read_line(size_t highest, size_t *phase, uint64_t *given, size_t given_length, uint64_t *truth, size_t truth_length,
                          const uint8_t *line, size_t line_length, size_t *detail);

/* Reads the next bytes of a whole output: each line as it ends, the beginning of the next one kept in the first *held bytes of a lent
 * line (*held is 0 before the first bytes): refusals 10 to 14, after which the output is not to be read on. */
size_t wawrolen_read_bytes(size_t highest, size_t *phase, size_t *held, uint64_t *given, size_t given_length, uint64_t *truth,
                           size_t truth_length, uint8_t *line, size_t line_length, const uint8_t *bytes, size_t bytes_length,
                           size_t *detail);

/* Reads what is held where a whole output ends without LF, if anything is: refusals 10 to 14. */
size_t wawrolen_read_rest(size_t highest, size_t *phase, size_t held, uint64_t *given, size_t given_length, uint64_t *truth,
                          size_t truth_length, const uint8_t *line, size_t line_length, size_t *detail);

/* Ends a reading: writes the schedule, an entry a step, that an accepted model states. A variable that was not given makes no clause true, and counts as
 * false in the schedule. Refusals 1 to 8, 10, 15 and 17 to 19. */
size_t wawrolen_end_reading(const uint8_t *file, size_t file_length, size_t horizon, size_t phase, const uint64_t *given,
                            size_t given_length, const uint64_t *truth, size_t truth_length, uint32_t *entries,
                            size_t entries_length, size_t *detail);

/* ---- schedules */

/* Judges the first entries of a schedule, as many as the horizon says: refusals 1 to 8, 10 and 20 to 22. */
size_t wawrolen_check_schedule(const uint8_t *file, size_t file_length, size_t horizon, const uint32_t *entries,
                               size_t entries_length, size_t *detail);

/* Writes the model of a good schedule to both rows: all N variables given: refusals 1 to 8, 10 and 20 to 22. */
size_t wawrolen_way_back(const uint8_t *file, size_t file_length, size_t horizon, const uint32_t *entries, size_t entries_length,
                         uint64_t *given, size_t given_length, uint64_t *truth, size_t truth_length, size_t *detail);

#ifdef __cplusplus
}
#endif

#endif
