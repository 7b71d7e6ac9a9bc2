/* The C interface of Cuulipso (crates/capi/out/libcapi.a, made by `rt lib` in crates/capi).
 *
 * A table is lent as a pointer and its number of entries. Any bytes and any tables get an answer; nothing is read or written past an
 * end, nothing is kept after a call, and no memory is allocated. Calls on tables of their own may run at the same time.
 *
 * What the caller sees to: the tables, the file, the answer and the record that are lent to one call do not overlap; each is aligned as
 * an array of its entries is, a file to any byte; a pointer may be anything only where its number of entries is 0.
 *
 * A file is taken at any length; the longest that passes has CUULIPSO_FILE bytes.
 *
 * Stack, measured on the deepest file (docs/MEASURED.md): solve and finish need no more than 292 KiB, audit, open and report 344 KiB,
 * set_form 160 KiB, check and rows 88 KiB. A thread may have less than the main program: give one that makes these calls 512 KiB. */
#ifndef CUULIPSO_H
#define CUULIPSO_H

#include <stddef.h>
#include <stdint.h>

#ifdef __cplusplus
extern "C" {
#endif

/* What the functions return. */
enum {
    CUULIPSO_REFUSED = 0,   /* answer: question, place, and of an audit, an opening or a report the excess, else 0 */
    CUULIPSO_SOLVED = 1,    /* answer: rounds, evaluations, C */
    CUULIPSO_SPENT = 2,     /* answer: rounds, evaluations, 0 */
    CUULIPSO_PASSED = 3,    /* of a check, answer: 0, 0, 0; of an audit: accepted, answer: C, 0, 0 */
    CUULIPSO_DONE = 3,      /* of an opening or a report, answer: state, moves, seconds of the record after it */
    CUULIPSO_WRITTEN = 3,   /* of a set form, answer: its length, 0, 0 */
    CUULIPSO_TOO_SHORT = 4  /* the answer's table has fewer than 3 entries; nothing was done */
};

/* Picks that are no row, and the mark of an unused entry of a walk list. */
enum { CUULIPSO_NO_PICK = 65534, CUULIPSO_GIVE_UP = 65535, CUULIPSO_NO_STATE = 65535 };

/* Entries that are always enough: states for values, picks and walk, rows for remembered; and bytes that are enough for any file, or for
 * its set form. */
enum { CUULIPSO_STATES = 2048, CUULIPSO_ROWS = 8192, CUULIPSO_ANSWER = 3, CUULIPSO_FILE = 110616 };

/* Puts questions 1 to 11 to a problem file; 24, about the fourth setting, belongs to them and comes right after 4. */
uint8_t cuulipso_check(const uint8_t *file, size_t file_length,
                       uint64_t *answer, size_t answer_length);

/* Looks up a state's rows: returns the length of their bytes (4 a row, as in the file), 0 where the file is refused or has no such
 * state. The bytes stand at the front of out as far as they fit; the rest of out stays. */
uint64_t cuulipso_rows(const uint8_t *file, size_t file_length, uint64_t state,
                       uint8_t *out, size_t out_length);

/* Runs up to budget rounds. After solved or spent the four tables hold the run's state, entries beyond the file's states and rows stay;
 * after a refusal all are as lent. walk ends in CUULIPSO_NO_STATE up to the number of states. */
uint8_t cuulipso_solve(const uint8_t *file, size_t file_length, uint64_t budget,
                       uint32_t *values, size_t values_length,
                       uint16_t *picks, size_t picks_length,
                       uint32_t *remembered, size_t remembered_length,
                       uint16_t *walk, size_t walk_length,
                       uint64_t *answer, size_t answer_length);

/* Runs up to budget rounds, and on to the tick: after the quiet round at which cuulipso_solve ends as solved it goes on with tolerance 1
 * until the next quiet round. Rounds, evaluations and budget run through both parts, and a run whose budget is reached in either is spent.
 * Where it is solved, the value of each state in walk is exactly its pick's row value, or 1000 x D where it gives up, and an audit accepts
 * values and picks under the file's tolerance and under 1. All else is as for cuulipso_solve. */
uint8_t cuulipso_finish(const uint8_t *file, size_t file_length, uint64_t budget,
                        uint32_t *values, size_t values_length,
                        uint16_t *picks, size_t picks_length,
                        uint32_t *remembered, size_t remembered_length,
                        uint16_t *walk, size_t walk_length,
                        uint64_t *answer, size_t answer_length);

/* Audits tables from any origin for a file; changes neither. */
uint8_t cuulipso_audit(const uint8_t *file, size_t file_length,
                       const uint32_t *values, size_t values_length,
                       const uint16_t *picks, size_t picks_length,
                       int64_t *answer, size_t answer_length);

/* Writes a problem file's set form at the front of out: the same problem with each row's outcomes by rising successor, repeats added
 * together, all costs in seconds, and no fourth setting where it is 1,000. Two accepted files have equal set forms exactly when they say
 * the same problem: the same settings, estimates, goals, number of rows at each state and row costs, and the same total chance from each
 * row to each state. After questions 1 to 11 the call meets 23, place 0, where out is shorter than the form; an output as long as the file
 * is always enough. The rest of out stays, and on a refusal nothing is written there. */
uint8_t cuulipso_set_form(const uint8_t *file, size_t file_length,
                          uint8_t *out, size_t out_length,
                          uint64_t *answer, size_t answer_length);

/* A follower's record of a shift: the state it is in, the moves made, the seconds spent, and the mark that giving up sets: 0 clear,
 * anything else set. It is the caller's, and is lent as a pointer to one that overlaps no table. */
struct cuulipso_record {
    uint64_t state;
    uint64_t moves;
    uint64_t seconds;
    uint64_t mark;
};

/* Opening and each report put the audit's questions first, and change neither the file nor the tables. A refusal leaves the record as it
 * was, and so does an answer's table that is too short. */

/* Opens a follower: the record becomes the start state, no moves, no seconds, the mark clear, whatever it held. */
uint8_t cuulipso_open(const uint8_t *file, size_t file_length,
                      const uint32_t *values, size_t values_length,
                      const uint16_t *picks, size_t picks_length,
                      struct cuulipso_record *record,
                      int64_t *answer, size_t answer_length);

/* Reports which outcome of the picked row occurred, counted from 0: the record moves to its successor, one move and the row's seconds on.
 * A state that gives up has outcome 0 only: one move, D seconds, the same state, and the mark is set. After the audit's questions a
 * report meets 20 where the mark is set or the state is a goal, 21 at 1,000,000 moves or more or above 400,000,000,000 seconds, and 22
 * where the state is not in the file, has no pick of its own, or its pick has no such outcome; place 0, excess 0. */
uint8_t cuulipso_report(const uint8_t *file, size_t file_length,
                        const uint32_t *values, size_t values_length,
                        const uint16_t *picks, size_t picks_length,
                        uint64_t outcome, struct cuulipso_record *record,
                        int64_t *answer, size_t answer_length);

#ifdef __cplusplus
}
#endif

#endif
