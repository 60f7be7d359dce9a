/* SPDX-License-Identifier: Apache-2.0 */
/*
 * fm3130-host: the rig's host program. It runs event bytes on a device, which is fresh or kept in
 * two files, writes the answers, and prints in words what happened. Files are written at the very
 * end, all or none.
 */
#include <stdio.h>
#include <stdlib.h>
#include <string.h>

#include "counting.h"
#include "device.h"
#include "files.h"
#include "session.h"
#include "story.h"
#include "words.h"

static const char usage[] =
    "usage: fm3130-host EVENTS [--image FILE] [--memory FILE] [--answers FILE] [--quiet]\n"
    "       fm3130-host --session [--save-events FILE] [the same options]\n"
    "       fm3130-host --counting [--save-events FILE] [--answers FILE]\n"
    "\n"
    "EVENTS is a file of event bytes, or - for standard input:\n"
    "  0 Start                          4 one-second tick\n"
    "  1 Stop                           5 main power lost, backup present\n"
    "  2 Clock, the master's line low   6 main power lost, no backup\n"
    "  3 Clock, the master's line high  7 main power returned\n"
    "--session plays a proving session instead, and tells whether it came out as it must.\n"
    "--counting plays another part, an FM3164 of the larger family: it counts how often lamps are\n"
    "switched, reads the counts frozen, and locks a serial number.\n"
    "\n"
    "--image, --memory   begin with the device in these files and write it back; a file that is\n"
    "                    not there begins fresh, or all 0, and is made. Without them the device\n"
    "                    is fresh and is forgotten afterwards.\n"
    "--answers           write one answer byte for each event\n"
    "--save-events       write the session's events, or those of the counting\n"
    "--quiet             print nothing\n"
    "\n"
    "Exit codes: 0 done, 1 a file, 2 the command line, 3 the events, 4 image or memory refused,\n"
    "5 the session. Under all but 0, every file is as it was.\n";

/* The command line. */
struct options {
    const char *events;
    const char *image;
    const char *memory;
    const char *answers;
    const char *saved;
    int is_session;
    int is_counting;
    int is_quiet;
};

/* A run: its events, and their answers. Both live until the program ends. */
struct job {
    const uint8_t *events;
    size_t count;
    uint8_t *answers;
};

/* The place of the option's value; NULL for a word that is none of these options. */
static const char **value_of(struct options *options, const char *word) {
    if (strcmp(word, "--image") == 0) {
        return &options->image;
    }
    if (strcmp(word, "--memory") == 0) {
        return &options->memory;
    }
    if (strcmp(word, "--answers") == 0) {
        return &options->answers;
    }
    if (strcmp(word, "--save-events") == 0) {
        return &options->saved;
    }
    return NULL;
}

/* A word that is no option with a value. */
static void take_word(struct options *options, const char *word) {
    if (strcmp(word, "--session") == 0) {
        options->is_session = 1;
    } else if (strcmp(word, "--counting") == 0) {
        options->is_counting = 1;
    } else if (strcmp(word, "--quiet") == 0) {
        options->is_quiet = 1;
    } else if (strcmp(word, "--help") == 0) {
        fputs(usage, stdout);
        exit(EXIT_DONE);
    } else if (word[0] == '-' && word[1] != '\0') {
        fail(EXIT_USAGE, "unknown option %s\n%s", word, usage);
    } else if (options->events != NULL) {
        fail(EXIT_USAGE, "one word too many: %s", word);
    } else {
        options->events = word;
    }
}

/* No file is written that another option names. */
static void test_files(const struct options *options) {
    const char *const names[] = {options->image, options->memory, options->answers, options->saved,
                                 options->events};
    size_t count = sizeof names / sizeof names[0];
    for (size_t i = 0; i < count; i++) {
        for (size_t j = i + 1; j < count; j++) {
            if (names[i] != NULL && names[j] != NULL && file_is_same(names[i], names[j])) {
                fail(EXIT_USAGE, "%s and %s name one file", names[i], names[j]);
            }
        }
    }
}

/* The options that go together. */
static void test_options(const struct options *options) {
    int plays = options->is_session || options->is_counting;
    if ((options->events != NULL) + options->is_session + options->is_counting != 1) {
        fail(EXIT_USAGE, "give a file of EVENTS, or --session, or --counting\n%s", usage);
    }
    if (options->saved != NULL && !plays) {
        fail(EXIT_USAGE, "--save-events goes with --session");
    }
    if (options->is_quiet && plays) {
        fail(EXIT_USAGE, "%s is there to be read: no --quiet with it",
             options->is_session ? "--session" : "--counting");
    }
    if (options->is_counting && (options->image != NULL || options->memory != NULL)) {
        fail(EXIT_USAGE, "--counting begins with a fresh FM3164: no --image or --memory with it");
    }
    test_files(options);
}

static struct options read_options(int count, char **words) {
    struct options options = {NULL, NULL, NULL, NULL, NULL, 0, 0, 0};
    for (int i = 1; i < count; i++) {
        const char **value = value_of(&options, words[i]);
        if (value == NULL) {
            take_word(&options, words[i]);
        } else if (++i == count) {
            fail(EXIT_USAGE, "%s needs a FILE", words[i - 1]);
        } else {
            *value = words[i];
        }
    }
    test_options(&options);
    return options;
}

/* Room for so many answers: an empty buffer is an address too. */
static uint8_t *room_for(size_t answers) {
    uint8_t *room = malloc(answers + 1);
    if (room == NULL) {
        fail(EXIT_FILE, "no memory for %zu answers", answers);
    }
    return room;
}

/* The device in the files; fresh, with a memory of zeros, where there are none. */
static void load_device(struct device *device, const struct options *options) {
    device_fresh(device);
    if (options->memory != NULL &&
        !file_read_exactly(options->memory, device->memory, sizeof device->memory,
                           number_words(FM3130_WRONG_MEMORY)) &&
        !options->is_quiet) {
        printf("%s: new, begins all 0\n", options->memory);
    }
    if (options->image == NULL) {
        return;
    }
    if (!file_read_exactly(options->image, device->image, sizeof device->image,
                           number_words(FM3130_WRONG_STATE)) &&
        !options->is_quiet) {
        printf("%s: new, begins fresh\n", options->image);
    }
    uint64_t number = device_number(device);
    if (number != FM3130_OK) {
        fail(EXIT_REFUSED, "%s: %s", options->image, number_words(number));
    }
}

/* The whole list in one call, on a device that is a copy: the answers, and the device after it. */
static void run_whole(struct device *after, const struct job *job, const char *name) {
    uint64_t number =
        fm3130_run(after->image, sizeof after->image, after->memory, sizeof after->memory,
                   job->events, job->count, job->answers, job->count)
            .number;
    if (number == FM3130_UNKNOWN_EVENT) {
        size_t i = 0;
        while (job->events[i] <= FM3130_POWER_RETURNED) {
            i++;
        }
        fail(EXIT_EVENTS, "%s: byte %zu is %02Xh: %s", name, i, job->events[i],
             number_words(number));
    }
    if (number != FM3130_OK) {
        fail(EXIT_REFUSED, "%s: %s", name, number_words(number));
    }
}

/* Tells the list one event at a time. It must come out as the whole list did in one call. */
static int tell(struct device *device, const struct job *job, const struct session *session,
                const struct device *after) {
    struct story story;
    uint8_t *answers = room_for(job->count);
    int holds = 1;
    story_begin(&story, stdout, device);
    if (session != NULL) {
        holds = session_tell(session, &story, answers);
    } else {
        story_go_on(&story, job->events, job->count, answers);
        story_pause(&story);
    }
    if (memcmp(device, after, sizeof *device) != 0 ||
        memcmp(answers, job->answers, job->count) != 0) {
        fail(EXIT_SESSION, "the list one by one came out otherwise than in one call");
    }
    free(answers);
    printf("\n%zu event%s\n\n", job->count, job->count == 1 ? "" : "s");
    print_device(stdout, device);
    return holds;
}

/* Writes the files that the options name. */
static void save(const struct options *options, const struct device *device,
                 const struct job *job) {
    struct output outputs[4];
    size_t count = 0;
    const struct output all[] = {
        {options->image, device->image, sizeof device->image, NULL},
        {options->memory, device->memory, sizeof device->memory, NULL},
        {options->answers, job->answers, job->count, NULL},
        {options->saved, job->events, job->count, NULL},
    };
    for (size_t i = 0; i < sizeof all / sizeof all[0]; i++) {
        if (all[i].path != NULL) {
            outputs[count++] = all[i];
        }
    }
    files_write(outputs, count);
}

/* The events of the file, or of the session, and room for their answers. */
static struct job read_job(const struct options *options, struct session *session) {
    struct job job = {session->events, 0, NULL};
    if (options->is_session) {
        session_list(session);
        job.count = session->count;
    } else {
        job.events = file_read(options->events, &job.count);
    }
    job.answers = room_for(job.count);
    return job;
}

/* Standard output must have taken all that was told. */
static void test_output(void) {
    if (fflush(stdout) != 0 || ferror(stdout)) {
        fail(EXIT_FILE, "standard output could not be written");
    }
}

/* Plays the counting, and writes its events and answers where they are asked for. */
static int count_switchings(const struct options *options) {
    static struct counting counting;
    struct output outputs[2];
    size_t count = 0;
    if (!counting_play(&counting, stdout)) {
        fail(EXIT_SESSION, "the counting did not come out as it must");
    }
    test_output();
    if (options->answers != NULL) {
        outputs[count++] =
            (struct output){options->answers, counting.answers, counting.count, NULL};
    }
    if (options->saved != NULL) {
        outputs[count++] = (struct output){options->saved, counting.events, counting.count, NULL};
    }
    files_write(outputs, count);
    return EXIT_DONE;
}

int main(int count, char **words) {
    static struct device device, after;
    static struct session session;
    struct options options = read_options(count, words);
    if (options.is_counting) {
        return count_switchings(&options);
    }
    struct job job = read_job(&options, &session);
    load_device(&device, &options);
    after = device;
    run_whole(&after, &job, options.is_session ? "session" : options.events);
    if (!options.is_quiet && !tell(&device, &job, options.is_session ? &session : NULL, &after)) {
        fail(EXIT_SESSION, "the session did not come out as it must");
    }
    test_output();
    save(&options, &after, &job);
    return EXIT_DONE;
}
