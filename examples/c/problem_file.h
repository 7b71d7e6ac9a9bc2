/* A problem file for the examples: read whole, or not at all. */
#ifndef PROBLEM_FILE_H
#define PROBLEM_FILE_H

#include "cuulipso.h"

#include <errno.h>
#include <stdint.h>
#include <stdio.h>
#include <string.h>

/* Room for any file that passes. */
enum { FILE_ROOM = CUULIPSO_FILE };

static uint8_t file[FILE_ROOM];
static size_t file_length;

/* Reads the file of a name. Where it cannot be read, or is longer than the room, it says so, and returns 0. */
static int read_file(const char *program, const char *name)
{
    const char *fault = NULL;
    FILE *from = fopen(name, "rb");
    if (from == NULL) {
        fault = strerror(errno);
    } else {
        file_length = fread(file, 1, FILE_ROOM, from);
        int more = fgetc(from) != EOF;
        if (ferror(from))
            fault = strerror(errno);
        else if (more)
            fault = "it is longer than 110,616 bytes, as no problem file is";
        fclose(from);
    }
    if (fault != NULL)
        fprintf(stderr, "%s: %s: %s\n", program, name, fault);
    return fault == NULL;
}

#endif
