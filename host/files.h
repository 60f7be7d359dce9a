/* SPDX-License-Identifier: Apache-2.0 */
/* Whole files in, whole files out, and the host's exit codes. */
#ifndef HOST_FILES_H
#define HOST_FILES_H

#include <stddef.h>
#include <stdint.h>

enum exit_code {
    EXIT_DONE = 0,
    EXIT_FILE = 1,    /* a file, or standard output, could not be read or written */
    EXIT_USAGE = 2,   /* the command line is wrong */
    EXIT_EVENTS = 3,  /* an event file is wrong */
    EXIT_REFUSED = 4, /* an image or a memory is refused */
    EXIT_SESSION = 5  /* the proving session did not come out as it must */
};

/* A file to be written. */
struct output {
    const char *path;
    const uint8_t *bytes;
    size_t length;
    char *temporary; /* for files_write alone */
};

#ifdef __GNUC__
#define ENDS_LIKE_PRINTF __attribute__((noreturn, format(printf, 2, 3)))
#else
#define ENDS_LIKE_PRINTF
#endif

/* Says what is wrong, as printf does, and ends the program. */
void fail(enum exit_code code, const char *format, ...) ENDS_LIKE_PRINTF;

/* All bytes of a file, or of standard input under the name "-"; the caller frees them. */
uint8_t *file_read(const char *path, size_t *length);

/* Fills a buffer from a file of exactly that length. Returns 0 if there is no such file. */
int file_read_exactly(const char *path, uint8_t *buffer, size_t length, const char *otherwise);

/* Whether two paths name one file that exists, or are the same word. */
int file_is_same(const char *one, const char *other);

/*
 * Writes files: each beside its place under the name PATH.NUMBER.part, and when all are written
 * they are renamed. Where one cannot be written, all files are as they were.
 */
void files_write(struct output *outputs, size_t count);

#endif
