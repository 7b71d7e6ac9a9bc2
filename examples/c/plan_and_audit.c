/* Checks, solves and audits a problem file through the C interface, and prints what it got. With the word finish behind the name it
 * solves the file to the tick.
 *
 *     gcc -O2 -Iexamples/c examples/c/plan_and_audit.c crates/capi/out/libcapi.a -o plan_and_audit
 *     ./plan_and_audit examples/P
 *     ./plan_and_audit examples/P finish */
#include "cuulipso.h"
#include "problem_file.h"

#include <inttypes.h>
#include <stdio.h>
#include <string.h>

#define ROUNDS UINT64_C(1000000)

static uint32_t values[CUULIPSO_STATES];
static uint16_t picks[CUULIPSO_STATES];
static uint32_t remembered[CUULIPSO_ROWS];
static uint16_t walk[CUULIPSO_STATES];

/* Puts questions 1 to 11; 1 where the file passes. */
static int check(void)
{
    uint64_t answer[CUULIPSO_ANSWER];
    if (cuulipso_check(file, file_length, answer, CUULIPSO_ANSWER) == CUULIPSO_REFUSED) {
        printf("check: refused, question %" PRIu64 ", place %" PRIu64 "\n", answer[0], answer[1]);
        return 0;
    }
    printf("check: passed\n");
    return 1;
}

/* Prints the states of the last walk, in the order of the walk. */
static void print_states(void)
{
    for (size_t at = 0; at < CUULIPSO_STATES && walk[at] != CUULIPSO_NO_STATE; at++) {
        unsigned state = walk[at];
        printf("state %u: %" PRIu32 " ticks, ", state, values[state]);
        if (picks[state] == CUULIPSO_GIVE_UP)
            printf("give up\n");
        else
            printf("row %u\n", (unsigned)picks[state]);
    }
}

/* Solves a file that passed; to the tick where it shall finish. The two functions take the same arguments. */
static void solve(int finishing)
{
    uint64_t answer[CUULIPSO_ANSWER];
    uint8_t code = (finishing ? cuulipso_finish : cuulipso_solve)(
        file, file_length, ROUNDS, values, CUULIPSO_STATES, picks, CUULIPSO_STATES,
        remembered, CUULIPSO_ROWS, walk, CUULIPSO_STATES, answer, CUULIPSO_ANSWER);
    printf("%s: %s, %" PRIu64 " rounds, %" PRIu64 " evaluations, C %" PRIu64 "\n", finishing ? "finish" : "solve",
           code == CUULIPSO_SOLVED ? "solved" : "spent", answer[0], answer[1], answer[2]);
    print_states();
}

/* Audits the tables as they stand. */
static void audit(void)
{
    int64_t answer[CUULIPSO_ANSWER];
    uint8_t code = cuulipso_audit(file, file_length, values, CUULIPSO_STATES, picks, CUULIPSO_STATES,
                                  answer, CUULIPSO_ANSWER);
    if (code == CUULIPSO_PASSED)
        printf("audit: accepted, C %" PRId64 "\n", answer[0]);
    else
        printf("audit: refused, question %" PRId64 ", place %" PRId64 ", excess %" PRId64 "\n",
               answer[0], answer[1], answer[2]);
}

int main(int count, char **words)
{
    int finishing = count == 3 && strcmp(words[2], "finish") == 0;
    if (count != 2 && !finishing) {
        fprintf(stderr, "plan_and_audit: give the name of a problem file, and the word finish where the run shall finish\n");
        return 1;
    }
    if (!read_file("plan_and_audit", words[1]))
        return 1;
    for (size_t at = 0; at < CUULIPSO_STATES; at++)
        walk[at] = CUULIPSO_NO_STATE;
    if (!check())
        return 0;
    solve(finishing);
    audit();
    values[0]++;
    printf("with the value of state 0 a tick higher:\n");
    audit();
    return 0;
}
