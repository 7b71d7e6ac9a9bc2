/* Writes the set form of a problem file to standard output; a refusal goes to standard error, and ends with 1.
 *
 *     gcc -O2 -Iexamples/c examples/c/set_form.c crates/capi/out/libcapi.a -o set_form
 *     ./set_form examples/P > P.form */
#include "cuulipso.h"
#include "problem_file.h"

#include <inttypes.h>
#include <stdio.h>

/* A set form is never longer than its file. */
static uint8_t form[FILE_ROOM];

/* Writes the file's set form, or says why there is none; 1 where it is written. */
static int write_form(void)
{
    uint64_t answer[CUULIPSO_ANSWER];
    if (cuulipso_set_form(file, file_length, form, FILE_ROOM, answer, CUULIPSO_ANSWER) == CUULIPSO_REFUSED) {
        fprintf(stderr, "refused, question %" PRIu64 ", place %" PRIu64 "\n", answer[0], answer[1]);
        return 0;
    }
    fwrite(form, 1, answer[0], stdout);
    if (fflush(stdout) != 0 || ferror(stdout)) {
        fprintf(stderr, "set_form: the set form could not be written\n");
        return 0;
    }
    return 1;
}

int main(int count, char **words)
{
    if (count != 2) {
        fprintf(stderr, "set_form: give the name of a problem file\n");
        return 1;
    }
    if (!read_file("set_form", words[1]))
        return 1;
    return write_form() ? 0 : 1;
}
