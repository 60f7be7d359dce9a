/* SPDX-License-Identifier: Apache-2.0 */
/*
 * The events of a list in words. What a byte is, the device's own image says at the byte's first
 * clock; so this file knows no rule of the bus but that a byte has eight clocks and a ninth.
 */
#include "story.h"

#include <string.h>

#include "words.h"

/* The byte is sent by the device. */
static int is_read(unsigned phase) {
    return phase == PHASE_READ_MEMORY || phase == PHASE_READ_COMPANION;
}

/* The byte's device is the companion. */
static int is_companion(unsigned phase) {
    return phase == PHASE_WRITE_COMPANION || phase == PHASE_READ_COMPANION;
}

/* The address before a byte, which has stepped on if the byte's eighth clock is done. */
static unsigned address_before(const struct device *device, unsigned phase, unsigned clocks) {
    unsigned size = is_companion(phase) ? FM3130_REGISTER_BYTES : FM3130_MEMORY_BYTES;
    unsigned now =
        is_companion(phase) ? device_companion_address(device) : device_memory_address(device);
    return clocks == 8 ? (now + size - 1) % size : now;
}

/* Takes up the byte that the device's image is in. */
static void take_up(struct story *story) {
    const uint8_t *image = story->device->image;
    story->phase = image[IMAGE_PHASE];
    story->clocks = image[IMAGE_CLOCKS];
    story->bits = image[IMAGE_BYTE];
    if (is_read(story->phase)) {
        story->bits >>= 8 - story->clocks;
    }
    story->address = address_before(story->device, story->phase, story->clocks);
}

void story_begin(struct story *story, FILE *out, struct device *device) {
    memset(story, 0, sizeof *story);
    story->out = out;
    story->device = device;
    story->last_read = -1;
    lamps_begin(&story->lamps);
    take_up(story);
    if (story->phase != PHASE_IDLE) {
        fprintf(out, "begins inside: %s, %u clocks done\n", phase_name(story->phase),
                story->clocks);
    }
}

/* What passed: where several ticks turned the seconds alone, it was more than one of them. */
static const char *passed_name(const struct story *story) {
    int are_seconds = story->rolled == FM3130_ROLLED_SECONDS && story->ticks > 1;
    return are_seconds ? "seconds" : rolled_name(story->rolled);
}

/* Tells of ticks and of clocks outside a transfer. */
static void tell_gathered(struct story *story) {
    FILE *out = story->out;
    if (story->loose > 0) {
        int is_on = story->device->image[IMAGE_POWER] == 0;
        fprintf(out, "  %u clock%s %s\n", story->loose, story->loose == 1 ? "" : "s",
                is_on ? "outside a transfer" : "while the power is off");
    }
    if (story->ticks > 0) {
        fprintf(out, "tick    %lu tick%s", story->ticks, story->ticks == 1 ? "" : "s");
        if (story->clocks > 0) {
            fprintf(out, " after %u clocks of a byte", story->clocks);
        }
        fputs(": ", out);
        print_calendar(out, story->before);
        fputs(" -> ", out);
        print_calendar(out, story->device->image + IMAGE_CORE);
        fprintf(out, ", %s passed\n", passed_name(story));
    }
    story->loose = 0;
    story->ticks = 0;
    story->rolled = FM3130_ROLLED_NOTHING;
}

/* What a slave byte names. */
static const char *slave_words(unsigned byte) {
    switch (byte) {
    case 0xA0:
        return "slave byte: memory, write";
    case 0xA1:
        return "slave byte: memory, read";
    case 0xD0:
        return "slave byte: companion, write";
    case 0xD1:
        return "slave byte: companion, read";
    default:
        return "slave byte: names neither device";
    }
}

/* A byte for 00h that would have loaded the clock with a date that does not exist. */
static void print_refused_date(const struct story *story) {
    fprintf(story->out, "%02Xh refused: ", story->address);
    print_calendar(story->out, story->device->image + IMAGE_TIME);
    fputs(" is no date, not loaded; the clock keeps its own", story->out);
}

/* A data byte to or from a register. */
static void print_register_byte(const struct story *story) {
    unsigned held = story->device->image[story->address];
    fprintf(story->out, "%02Xh %s: ", story->address, register_name(story->address));
    print_register(story->out, story->address, story->bits);
    if (!is_read(story->phase) && held != story->bits) {
        fprintf(story->out, "; the register holds %02Xh", held);
    }
}

/* What a whole byte means, whether or not it was acknowledged by the device. */
static void print_meaning(const struct story *story, int is_taken) {
    FILE *out = story->out;
    unsigned byte = story->bits;
    switch (story->phase) {
    case PHASE_SLAVE:
        fputs(slave_words(byte), out);
        break;
    case PHASE_ADDRESS_HIGH:
        fputs("memory address, first byte", out);
        break;
    case PHASE_ADDRESS_LOW:
        fprintf(out, "memory address %04Xh", device_memory_address(story->device));
        break;
    case PHASE_POINTER:
        fprintf(out, "register address %02Xh%s%s", byte, is_taken ? ", " : ": there is ",
                register_name(byte));
        break;
    case PHASE_WRITE_MEMORY:
        fprintf(out, "memory %04Xh: ", story->address);
        if (is_taken) {
            fputs("stored", out);
        } else {
            fprintf(out, "protected, not stored; the address goes on to %04Xh",
                    device_memory_address(story->device));
        }
        break;
    case PHASE_READ_MEMORY:
        fprintf(out, "memory %04Xh", story->address);
        break;
    case PHASE_WRITE_COMPANION:
        if (!is_taken) {
            print_refused_date(story);
            break;
        }
        print_register_byte(story);
        break;
    default:
        print_register_byte(story);
    }
}

/* A line for a byte of eight clocks and its acknowledge; `ack` is ACK, NACK or --. */
static void tell_byte(struct story *story, const char *ack, int is_taken) {
    int reads = is_read(story->phase);
    fprintf(story->out, "  %s %02Xh  %-4s  ", reads ? "read " : "write", story->bits, ack);
    print_meaning(story, is_taken);
    fputs(strcmp(ack, "--") == 0 ? "; cut before the acknowledge\n" : "\n", story->out);
    if (reads) {
        story->last_read = (int)story->bits;
    }
    story->phase = PHASE_IDLE;
    story->clocks = 0;
}

/* A line for a byte that a Start, a Stop or a loss of power cuts; `phase`: the device's before. */
static void tell_cut(struct story *story, unsigned phase) {
    if (story->clocks == 8) {
        tell_byte(story, "--", phase != PHASE_IDLE);
    } else if (story->clocks > 0) {
        fprintf(story->out, "  %s, cut after %u clock%s: dropped\n", phase_name(story->phase),
                story->clocks, story->clocks == 1 ? "" : "s");
    }
    story->phase = PHASE_IDLE;
    story->clocks = 0;
}

/* A Clock: one of the eight of a byte, its ninth, or one outside a transfer. */
static uint8_t tell_clock(struct story *story, uint8_t event) {
    unsigned phase = story->device->image[IMAGE_PHASE];
    if (story->clocks == 0) {
        take_up(story);
    }
    uint8_t answer = device_do(story->device, event);
    if (story->phase == PHASE_IDLE) {
        story->loose++;
    } else if (story->clocks == 8) {
        int is_taken = phase != PHASE_IDLE; /* a refused byte has ended its transfer by now */
        int acks = is_read(story->phase) ? event == FM3130_CLOCK_LOW : is_taken;
        tell_byte(story, acks ? "ACK" : "NACK", is_taken);
    } else {
        story->bits = story->bits * 2 + (answer & FM3130_ANSWER_LINE);
        story->clocks++;
    }
    return answer;
}

/* A Start, a Stop, or a change of power. */
static uint8_t tell_other(struct story *story, uint8_t event) {
    static const char *const words[] = {
        "[       Start",
        "]       Stop",
        "",
        "",
        "",
        "lost    main power lost, backup present",
        "gone    main power lost, no backup",
        "power   main power returned",
    };
    unsigned phase = story->device->image[IMAGE_PHASE];
    uint8_t answer = device_do(story->device, event);
    if (event != FM3130_POWER_RETURNED) {
        tell_cut(story, phase);
    }
    int repeats = event == FM3130_START && phase != PHASE_IDLE;
    fprintf(story->out, "%s\n", repeats ? "[       repeated Start" : words[event]);
    return answer;
}

/* One event. Ticks are gathered until another event comes, and so are clocks outside a transfer. */
static uint8_t tell_event(struct story *story, uint8_t event) {
    lamps_follow(&story->lamps, story->device, event);
    if (event == FM3130_CLOCK_LOW || event == FM3130_CLOCK_HIGH) {
        if (story->ticks > 0) {
            tell_gathered(story);
        }
        return tell_clock(story, event);
    }
    if (event == FM3130_TICK) {
        if (story->loose > 0) {
            tell_gathered(story);
        }
        if (story->ticks++ == 0) {
            memcpy(story->before, story->device->image + IMAGE_CORE, sizeof story->before);
        }
        struct told told = device_step(story->device, event);
        if (told.rolled > story->rolled) {
            story->rolled = told.rolled;
        }
        return told.answer;
    }
    tell_gathered(story);
    return tell_other(story, event);
}

void story_go_on(struct story *story, const uint8_t *events, size_t count, uint8_t *answers) {
    for (size_t i = 0; i < count; i++) {
        answers[i] = tell_event(story, events[i]);
    }
}

void story_pause(struct story *story) {
    tell_gathered(story);
    if (story->clocks > 0) {
        fprintf(story->out, "  %s, %u clock%s done so far\n", phase_name(story->phase),
                story->clocks, story->clocks == 1 ? "" : "s");
    }
}
