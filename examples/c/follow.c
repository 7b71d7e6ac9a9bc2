/* Solves a problem file, opens a follower on its plan and reports the outcomes given, and prints what each call left.
 *
 *     gcc -O2 -Iexamples/c examples/c/follow.c crates/capi/out/libcapi.a -o follow
 *     ./follow examples/P 0 0 0 */
#include "cuulipso.h"
#include "problem_file.h"

#include <inttypes.h>
#include <stdio.h>
#include <stdlib.h>

#define ROUNDS UINT64_C(1000000)

static uint32_t values[CUULIPSO_STATES];
static uint16_t picks[CUULIPSO_STATES];
static struct cuulipso_record record;
static int64_t answer[CUULIPSO_ANSWER];

/* Solves the file. Where it is refused, or the run is spent, the opening will tell. */
static void solve(void)
{
    static uint32_t remembered[CUULIPSO_ROWS];
    static uint16_t walk[CUULIPSO_STATES];
    uint64_t solved[CUULIPSO_ANSWER];
    cuulipso_solve(file, file_length, ROUNDS, values, CUULIPSO_STATES, picks, CUULIPSO_STATES,
                   remembered, CUULIPSO_ROWS, walk, CUULIPSO_STATES, solved, CUULIPSO_ANSWER);
}

static uint8_t open_follower(void)
{
    return cuulipso_open(file, file_length, values, CUULIPSO_STATES, picks, CUULIPSO_STATES,
                         &record, answer, CUULIPSO_ANSWER);
}

static uint8_t report(uint64_t outcome)
{
    return cuulipso_report(file, file_length, values, CUULIPSO_STATES, picks, CUULIPSO_STATES,
                           outcome, &record, answer, CUULIPSO_ANSWER);
}

/* Prints the answer of an opening or a report; 1 where it was done. */
static int print(uint8_t code)
{
    if (code == CUULIPSO_DONE)
        printf("state %" PRId64 ", %" PRId64 " moves, %" PRId64 " seconds\n", answer[0], answer[1], answer[2]);
    else
        printf("refused, question %" PRId64 ", place %" PRId64 ", excess %" PRId64 "\n",
               answer[0], answer[1], answer[2]);
    return code == CUULIPSO_DONE;
}

int main(int count, char **words)
{
    if (count < 2) {
        fprintf(stderr, "follow: give the name of a problem file, and outcomes\n");
        return 1;
    }
    if (!read_file("follow", words[1]))
        return 1;
    solve();
    if (!print(open_follower()))
        return 0;
    for (int at = 2; at < count; at++) {
        char *end;
        uint64_t outcome = strtoull(words[at], &end, 10);
        if (end == words[at] || *end != '\0') {
            fprintf(stderr, "follow: %s: an outcome is a number\n", words[at]);
            return 1;
        }
        print(report(outcome));
    }
    return 0;
}
