/* The rounds of documents 01 and 02 in C, written for speed, so that others can check the figure beside C: bytes in, four filled tables
 * and an answer out, as `cuulipso_solve` gives them (examples/c/cuulipso.h). Every round walks, and every backup scans all rows of its
 * state.
 *
 * The file is read where it stands, but for what costs time to find: where each state's rows and each row's outcomes begin, each row's
 * cost, the estimates and the goals. A division by a constant takes a fraction of the time of any other, so the work is compiled for each
 * weight total. `bench_c` builds this file twice, each time with a name for the function (-DROUNDS_SOLVE=..). */
#include <stddef.h>
#include <stdint.h>
#include <string.h>

#include "../../examples/c/cuulipso.h"

#ifndef ROUNDS_SOLVE
#define ROUNDS_SOLVE rounds_solve
#endif

/* Small work; and work that takes the weight total as an argument, so that it is compiled for each. */
#define INLINE static inline __attribute__((always_inline))

/* The settings without the fourth, the most outcomes, the ticks of a second, the highest tolerance and penalty, the weight total with
 * count 3; the lowest and the highest melt rate, and what is divided by a rate; the highest budget. */
enum { SETTINGS = 3, OUTCOMES = 16384, TICKS = 1000, TOLERANCE = 999, PENALTY = 400000, USUAL = 1000 };
enum { LOWEST_RATE = 10, HIGHEST_RATE = 1000, STICK = 600000 };
#define BUDGET UINT64_C(2000000000000000)

/* The bytes of a section's count, and of an item of each section. */
enum { COUNT_BYTES = 2, SETTING_BYTES = 4, STATE_BYTES = 6, ROW_BYTES = 4, OUTCOME_BYTES = 4 };

/* A question that failed, 0 where none did, and the first place where it does. */
struct refusal {
    uint32_t question, place;
};

/* A row: its cost in ticks, and the numbers of its first outcome and of the one after its last. */
struct row {
    uint32_t cost;
    uint16_t first, end;
};

/* A file cut into sections, and what was found while it was read. */
struct problem {
    const uint8_t *settings, *state_items, *row_items, *outcomes;
    uint32_t setting_count, state_count, row_count, outcome_count;
    uint32_t start, tolerance, give_up, total;
    uint32_t estimates[CUULIPSO_STATES];
    uint32_t first_values[CUULIPSO_ROWS];
    struct row rows[CUULIPSO_ROWS];
    uint16_t first_row[CUULIPSO_STATES + 1];
    uint8_t goals[CUULIPSO_STATES];
};

/* The lent tables. */
struct tables {
    uint32_t *restrict values;
    uint16_t *restrict picks;
    uint32_t *restrict remembered;
    uint16_t *restrict walk;
};

/* What a run has counted, and the length of its last walk list. */
struct counts {
    uint64_t rounds, evaluations;
    uint32_t listed;
};

/* A state on the way down a walk, and the outcomes that it has yet to visit. */
struct frame {
    const uint8_t *next, *end;
    uint32_t state;
};

/* No question failed. */
static const struct refusal NONE = {0, 0};

/* Numbers of 16 and of 32 bits, least byte first. */
INLINE uint32_t read16(const uint8_t *at) { return at[0] | (uint32_t)at[1] << 8; }
INLINE uint32_t read32(const uint8_t *at) { return read16(at) | read16(at + 2) << 16; }

/* The refusal at a place. */
INLINE struct refusal refused(uint32_t question, uint32_t place) { return (struct refusal){question, place}; }

/* Questions 1, 2 and 3: the sections, each after its count. */
static struct refusal cut_sections(struct problem *p, const uint8_t *file, size_t length) {
    static const uint32_t least[4] = {SETTINGS, 1, 0, 0};
    static const uint32_t most[4] = {SETTINGS + 1, CUULIPSO_STATES, CUULIPSO_ROWS, OUTCOMES};
    static const uint32_t bytes[4] = {SETTING_BYTES, STATE_BYTES, ROW_BYTES, OUTCOME_BYTES};
    const uint8_t **items[4] = {&p->settings, &p->state_items, &p->row_items, &p->outcomes};
    uint32_t *counts[4] = {&p->setting_count, &p->state_count, &p->row_count, &p->outcome_count};
    size_t left = length;
    for (uint32_t section = 0; section < 4; section++) {
        if (left < COUNT_BYTES) return refused(1, section);
        uint32_t count = read16(file);
        if (count < least[section] || count > most[section]) return refused(2, section);
        file += COUNT_BYTES;
        left -= COUNT_BYTES;
        if (left < (size_t)count * bytes[section]) return refused(1, section);
        *items[section] = file;
        *counts[section] = count;
        file += count * bytes[section];
        left -= count * bytes[section];
    }
    return left > 0 ? refused(3, 3) : NONE;
}

/* Questions 4 and 24. */
static struct refusal read_settings(struct problem *p) {
    uint32_t penalty = read32(p->settings + 2 * SETTING_BYTES);
    p->start = read32(p->settings);
    p->tolerance = read32(p->settings + SETTING_BYTES);
    p->total = p->setting_count > SETTINGS ? read32(p->settings + SETTINGS * SETTING_BYTES) : USUAL;
    if (p->start >= p->state_count) return refused(4, 0);
    if (p->tolerance < 1 || p->tolerance > TOLERANCE) return refused(4, 1);
    if (penalty < 1 || penalty > PENALTY) return refused(4, 2);
    if (p->total != 100 && p->total != 1000 && p->total != 4096 && p->total != 10000) return refused(24, 3);
    p->give_up = TICKS * penalty;
    return NONE;
}

/* Questions 5, 6 and 7. A row number that is cut to 16 bits meets 7. */
static struct refusal read_states(struct problem *p) {
    uint32_t rows = 0;
    const uint8_t *item = p->state_items;
    for (uint32_t state = 0; state < p->state_count; state++, item += STATE_BYTES) {
        uint32_t estimate = read32(item), number = item[4], goal = item[5];
        if (goal > 1 || (goal ? (estimate | number) != 0 : estimate > p->give_up)) return refused(5, state);
        p->estimates[state] = estimate;
        p->goals[state] = (uint8_t)goal;
        p->first_row[state] = (uint16_t)rows;
        rows += number;
    }
    p->first_row[p->state_count] = (uint16_t)rows;
    if (p->goals[p->start]) return refused(6, p->start);
    return rows != p->row_count ? refused(7, 0) : NONE;
}

/* The seconds of a row, 0 where its kind or its number is out of range. */
INLINE uint32_t seconds(uint32_t kind, uint32_t number) {
    if (kind == 0) return number;
    if (kind != 1 || number < LOWEST_RATE || number > HIGHEST_RATE) return 0;
    return (STICK + number - 1) / number;
}

/* Questions 8 and 9. An outcome's number that is cut to 16 bits meets 9. */
static struct refusal read_rows(struct problem *p) {
    uint32_t outcomes = 0;
    const uint8_t *item = p->row_items;
    for (uint32_t row = 0; row < p->row_count; row++, item += ROW_BYTES) {
        uint32_t cost = seconds(item[0], read16(item + 2)), number = item[1];
        if (cost == 0 || number == 0) return refused(8, row);
        p->rows[row] = (struct row){TICKS * cost, (uint16_t)outcomes, (uint16_t)(outcomes + number)};
        outcomes += number;
    }
    return outcomes != p->outcome_count ? refused(9, 0) : NONE;
}

/* Where the outcome with a number stands. */
INLINE const uint8_t *outcome(const struct problem *p, size_t number) { return p->outcomes + OUTCOME_BYTES * number; }

/* Question 10. */
INLINE struct refusal read_outcomes(const struct problem *p, uint32_t total) {
    for (uint32_t row = 0; row < p->row_count; row++) {
        const uint8_t *at = outcome(p, p->rows[row].first), *end = outcome(p, p->rows[row].end);
        uint32_t sum = 0;
        for (; at < end; at += OUTCOME_BYTES) {
            uint32_t item = read32(at), weight = item >> 16;
            if ((item & 0xffff) >= p->state_count || weight - 1 >= total) return refused(10, row);
            sum += weight;
        }
        if (sum != total) return refused(10, row);
    }
    return NONE;
}

/* w x V(successor) of an outcome. */
INLINE uint64_t weighted(const uint8_t *at, const uint32_t *values) {
    uint32_t item = read32(at);
    return (uint64_t)(item >> 16) * values[item & 0xffff];
}

/* The row value under a table: the cost, and the sum of w x V(successor) divided by the total, rounded down once. */
INLINE uint32_t row_value(const struct problem *p, uint32_t row, const uint32_t *values, uint32_t total) {
    const uint8_t *at = outcome(p, p->rows[row].first), *end = outcome(p, p->rows[row].end);
    uint64_t sum = 0;
    for (; end - at > OUTCOME_BYTES; at += 2 * OUTCOME_BYTES) sum += weighted(at, values) + weighted(at + OUTCOME_BYTES, values);
    if (at < end) sum += weighted(at, values);
    return p->rows[row].cost + (uint32_t)(sum / total);
}

/* Question 11. Keeps the row values. */
INLINE struct refusal weigh_estimates(struct problem *p, uint32_t total) {
    for (uint32_t state = 0, row = 0; state < p->state_count; state++) {
        for (; row < p->first_row[state + 1]; row++) {
            uint32_t value = row_value(p, row, p->estimates, total);
            if (p->estimates[state] > value) return refused(11, row);
            p->first_values[row] = value;
        }
    }
    return NONE;
}

/* A state with all outcomes of its picked row ahead, or none without a picked row. */
INLINE struct frame frame_of(const struct problem *p, const uint16_t *picks, uint32_t state) {
    uint32_t pick = picks[state];
    if (pick >= CUULIPSO_NO_PICK) return (struct frame){p->outcomes, p->outcomes, state};
    const struct row *row = &p->rows[pick];
    return (struct frame){outcome(p, row->first), outcome(p, row->end), state};
}

/* Walks from the start with the picks as they are, and gives the length of the list. Goals are marked from the outset, which keeps them
 * out of it. */
static uint32_t walk(const struct problem *p, const struct tables *t) {
    uint8_t marks[CUULIPSO_STATES];
    struct frame way[CUULIPSO_STATES], *above = way, here = frame_of(p, t->picks, p->start);
    uint32_t listed = 0;
    memcpy(marks, p->goals, p->state_count);
    marks[p->start] = 1;
    for (;;) {
        while (here.next < here.end) {
            uint32_t successor = read16(here.next);
            here.next += OUTCOME_BYTES;
            if (marks[successor]) continue;
            marks[successor] = 1;
            *above++ = here;
            here = frame_of(p, t->picks, successor);
        }
        t->walk[listed++] = (uint16_t)here.state;
        if (above == way) return listed;
        here = *--above;
    }
}

/* Backs a state up. Says whether its value or its pick changed.
 *
 * A row is taken where it remembers less than `bar`, and picked where its value is below it: at first a tick above what giving up costs,
 * since a tie goes to the row, and then the best value. The row picked before is skipped when its turn in row order comes. */
INLINE int back_up(const struct problem *p, const struct tables *t, uint64_t *evaluations, uint32_t state, uint32_t total) {
    uint32_t before = t->picks[state], pick = CUULIPSO_GIVE_UP, bar = p->give_up + 1;
    uint32_t row = p->first_row[state], end = p->first_row[state + 1];
    if (before < CUULIPSO_NO_PICK && t->remembered[before] < bar) {
        uint32_t value = row_value(p, before, t->values, total);
        t->remembered[before] = value;
        ++*evaluations;
        if (value < bar) bar = value, pick = before;
    }
    for (; row < end; row++) {
        if (t->remembered[row] >= bar) continue;
        uint32_t value = row_value(p, row, t->values, total);
        t->remembered[row] = value;
        ++*evaluations;
        if (value < bar) bar = value, pick = row;
    }
    uint32_t best = pick == CUULIPSO_GIVE_UP ? p->give_up : bar;
    int rises = best >= t->values[state] + p->tolerance;
    if (rises) t->values[state] = best;
    t->picks[state] = (uint16_t)pick;
    return rises | (pick != before);
}

/* Rounds until one is quiet, or the budget is reached first. Says whether one was quiet. */
INLINE int rounds(const struct problem *p, const struct tables *t, struct counts *counts, uint64_t budget, uint32_t total) {
    uint64_t evaluations = 0;
    int changed = 1;
    while (counts->rounds < budget && changed) {
        uint32_t listed = walk(p, t);
        changed = 0;
        for (uint32_t at = 0; at < listed; at++) changed |= back_up(p, t, &evaluations, t->walk[at], total);
        counts->listed = listed;
        counts->rounds++;
    }
    counts->evaluations = evaluations;
    return !changed;
}

/* The least cost of a pick over the last walk list. */
static uint32_t least_cost(const struct problem *p, const struct tables *t, uint32_t listed) {
    uint32_t least = p->give_up;
    for (uint32_t at = 0; at < listed; at++) {
        uint32_t pick = t->picks[t->walk[at]];
        if (pick < CUULIPSO_NO_PICK && p->rows[pick].cost < least) least = p->rows[pick].cost;
    }
    return least;
}

/* At first V = H, no state has a pick, and each row remembers its value under H. */
static void begin(const struct problem *p, const struct tables *t) {
    memcpy(t->values, p->estimates, p->state_count * sizeof *t->values);
    memcpy(t->remembered, p->first_values, p->row_count * sizeof *t->remembered);
    for (uint32_t state = 0; state < p->state_count; state++) t->picks[state] = CUULIPSO_NO_PICK;
}

/* Questions 1 to 9. */
static struct refusal read_file(struct problem *p, const uint8_t *file, size_t length) {
    struct refusal no = cut_sections(p, file, length);
    if (no.question == 0) no = read_settings(p);
    if (no.question == 0) no = read_states(p);
    if (no.question == 0) no = read_rows(p);
    return no;
}

/* Questions 10 and 11. */
INLINE struct refusal weigh(struct problem *p, uint32_t total) {
    struct refusal no = read_outcomes(p, total);
    return no.question == 0 ? weigh_estimates(p, total) : no;
}

/* The same for the file's own total. */
static struct refusal weigh_by_total(struct problem *p) {
    switch (p->total) {
        case 100: return weigh(p, 100);
        case 1000: return weigh(p, 1000);
        case 4096: return weigh(p, 4096);
        default: return weigh(p, 10000);
    }
}

/* The rounds for the file's own total. */
static int rounds_by_total(const struct problem *p, const struct tables *t, struct counts *counts, uint64_t budget) {
    switch (p->total) {
        case 100: return rounds(p, t, counts, budget, 100);
        case 1000: return rounds(p, t, counts, budget, 1000);
        case 4096: return rounds(p, t, counts, budget, 4096);
        default: return rounds(p, t, counts, budget, 10000);
    }
}

/* Leaves a code's answer. */
static uint8_t answered(uint8_t code, uint64_t *answer, uint64_t first, uint64_t second, uint64_t third) {
    answer[0] = first;
    answer[1] = second;
    answer[2] = third;
    return code;
}

/* The run of `cuulipso_solve`: the same arguments, code, answer and tables. */
uint8_t ROUNDS_SOLVE(const uint8_t *file, size_t file_length, uint64_t budget,
                     uint32_t *values, size_t values_length,
                     uint16_t *picks, size_t picks_length,
                     uint32_t *remembered, size_t remembered_length,
                     uint16_t *walk_list, size_t walk_length,
                     uint64_t *answer, size_t answer_length) {
    struct problem problem, *p = &problem;
    struct tables tables = {values, picks, remembered, walk_list}, *t = &tables;
    struct counts counts = {0, 0, 0};
    if (answer_length < CUULIPSO_ANSWER) return CUULIPSO_TOO_SHORT;
    struct refusal no = read_file(p, file, file_length);
    if (no.question == 0) no = weigh_by_total(p);
    if (no.question == 0) {
        if (values_length < p->state_count) no = refused(12, 0);
        else if (picks_length < p->state_count) no = refused(12, 1);
        else if (remembered_length < p->row_count) no = refused(12, 2);
        else if (walk_length < p->state_count) no = refused(12, 3);
        else if (budget > BUDGET) no = refused(13, 0);
    }
    if (no.question != 0) return answered(CUULIPSO_REFUSED, answer, no.question, no.place, 0);
    begin(p, t);
    int solved = rounds_by_total(p, t, &counts, budget);
    for (uint32_t at = counts.listed; at < p->state_count; at++) walk_list[at] = CUULIPSO_NO_STATE;
    if (!solved) return answered(CUULIPSO_SPENT, answer, counts.rounds, counts.evaluations, 0);
    return answered(CUULIPSO_SOLVED, answer, counts.rounds, counts.evaluations, least_cost(p, t, counts.listed));
}
