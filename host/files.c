/* SPDX-License-Identifier: Apache-2.0 */
/* Whole files in, whole files out. */
#include "files.h"

#include <errno.h>
#include <fcntl.h>
#include <stdarg.h>
#include <stdio.h>
#include <stdlib.h>
#include <string.h>
#include <sys/stat.h>
#include <unistd.h>

void fail(enum exit_code code, const char *format, ...) {
    va_list words;
    va_start(words, format);
    fflush(stdout);
    fputs("fm3130-host: ", stderr);
    vfprintf(stderr, format, words);
    fputc('\n', stderr);
    va_end(words);
    exit((int)code);
}

/* Memory, or the end of the program. */
static void *grow(void *bytes, size_t size) {
    void *grown = realloc(bytes, size);
    if (grown == NULL) {
        fail(EXIT_FILE, "no memory for %zu bytes", size);
    }
    return grown;
}

/* Opens a file to read; standard input under the name "-". */
static FILE *open_to_read(const char *path) {
    FILE *file = strcmp(path, "-") == 0 ? stdin : fopen(path, "rb");
    if (file == NULL) {
        fail(EXIT_FILE, "%s: %s", path, strerror(errno));
    }
    return file;
}

uint8_t *file_read(const char *path, size_t *length) {
    FILE *file = open_to_read(path);
    size_t room = 65536;
    size_t got = 0;
    uint8_t *bytes = grow(NULL, room);
    size_t more;
    while ((more = fread(bytes + got, 1, room - got, file)) > 0) {
        got += more;
        if (got == room) {
            room *= 2;
            bytes = grow(bytes, room);
        }
    }
    if (ferror(file)) {
        fail(EXIT_FILE, "%s: %s", path, strerror(errno));
    }
    if (file != stdin) {
        fclose(file);
    }
    *length = got;
    return bytes;
}

int file_read_exactly(const char *path, uint8_t *buffer, size_t length, const char *otherwise) {
    struct stat found;
    if (stat(path, &found) != 0) {
        if (errno != ENOENT) {
            fail(EXIT_FILE, "%s: %s", path, strerror(errno));
        }
        return 0;
    }
    if (!S_ISREG(found.st_mode)) {
        fail(EXIT_FILE, "%s: not a regular file", path);
    }
    size_t got;
    uint8_t *bytes = file_read(path, &got);
    if (got != length) {
        fail(EXIT_REFUSED, "%s: the file has %zu bytes: %s", path, got, otherwise);
    }
    memcpy(buffer, bytes, length);
    free(bytes);
    return 1;
}

int file_is_same(const char *one, const char *other) {
    struct stat first;
    struct stat second;
    if (strcmp(one, other) == 0) {
        return 1;
    }
    return stat(one, &first) == 0 && stat(other, &second) == 0 && first.st_dev == second.st_dev &&
           first.st_ino == second.st_ino;
}

/* Writes all bytes to a new file. Returns 0, or what went wrong. */
static int write_new(const char *path, const uint8_t *bytes, size_t length) {
    int file = open(path, O_WRONLY | O_CREAT | O_EXCL, 0666);
    if (file < 0) {
        return errno;
    }
    size_t done = 0;
    int wrong = 0;
    while (done < length && wrong == 0) {
        ssize_t more = write(file, bytes + done, length - done);
        if (more >= 0) {
            done += (size_t)more;
        } else if (errno != EINTR) {
            wrong = errno;
        }
    }
    if (wrong == 0 && fsync(file) != 0) {
        wrong = errno;
    }
    if (close(file) != 0 && wrong == 0) {
        wrong = errno;
    }
    if (wrong != 0) {
        unlink(path);
    }
    return wrong;
}

/* Writes the bytes of an output beside its place. Returns 0, or what went wrong. */
static int stage(struct output *output) {
    struct stat found;
    if (stat(output->path, &found) == 0 && !S_ISREG(found.st_mode)) {
        return EISDIR;
    }
    size_t room = strlen(output->path) + 32;
    output->temporary = grow(NULL, room);
    snprintf(output->temporary, room, "%s.%ld.part", output->path, (long)getpid());
    return write_new(output->temporary, output->bytes, output->length);
}

/* Removes what was written beside the places, and ends the program. */
static void give_up(struct output *outputs, size_t staged, const char *path, int wrong) {
    for (size_t i = 0; i < staged; i++) {
        unlink(outputs[i].temporary);
    }
    fail(EXIT_FILE, "%s: %s", path, wrong == EISDIR ? "not a regular file" : strerror(wrong));
}

void files_write(struct output *outputs, size_t count) {
    for (size_t i = 0; i < count; i++) {
        int wrong = stage(&outputs[i]);
        if (wrong != 0) {
            give_up(outputs, i, outputs[i].path, wrong);
        }
    }
    for (size_t i = 0; i < count; i++) {
        if (rename(outputs[i].temporary, outputs[i].path) != 0) {
            int wrong = errno;
            give_up(outputs + i, count - i, outputs[i].path, wrong);
        }
        free(outputs[i].temporary);
        outputs[i].temporary = NULL;
    }
}
