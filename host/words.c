/* SPDX-License-Identifier: Apache-2.0 */
/* A device in words. The lines are those that the command fm3130 prints. */
#include "words.h"

const char *register_name(unsigned address) {
    static const char *const names[FM3130_REGISTER_BYTES] = {
        "RTC/Alarm Control", "CAL/Control", "RTC Seconds", "RTC Minutes", "RTC Hours",
        "RTC Day",           "RTC Date",    "RTC Month",   "RTC Years",   "Alarm Seconds",
        "Alarm Minutes",     "Alarm Hours", "Alarm Date",  "Alarm Month", "Alarm & WP Control",
    };
    return address < FM3130_REGISTER_BYTES ? names[address] : "none";
}

const char *phase_name(unsigned phase) {
    static const char *const names[] = {
        "between transfers",
        "slave byte",
        "first memory address byte",
        "second memory address byte",
        "companion address byte",
        "data byte to the memory",
        "data byte to the companion",
        "data byte from the memory",
        "data byte from the companion",
    };
    return phase < sizeof names / sizeof names[0] ? names[phase] : "no phase";
}

const char *rolled_name(unsigned rolled) {
    static const char *const names[] = {
        "nothing", "a second", "a minute", "an hour", "a date", "a month", "a year",
    };
    return rolled < sizeof names / sizeof names[0] ? names[rolled] : "no field";
}

/* 00h: every bit by its name. */
static void print_control(FILE *out, unsigned byte) {
    static const char *const names[] = {"LB", "AF", "CF", "POR", "AEN", "CAL", "W", "R"};
    for (unsigned i = 0; i < 8; i++) {
        fprintf(out, "%s%s=%u", i == 0 ? "" : " ", names[i], byte >> (7 - i) & 1);
    }
}

/* 01h: the oscillator and the calibration. */
static void print_trim(FILE *out, unsigned byte) {
    fprintf(out, "oscillator %s, ", byte & 0x80 ? "halted" : "runs");
    if ((byte & 0x1F) == 0) {
        fputs("no calibration", out);
    } else {
        fprintf(out, "calibration %c%u", byte & 0x20 ? '+' : '-', byte & 0x1F);
    }
}

/* The square wave by F1 and F0 of 0Eh. */
static const char *frequency(unsigned setup) {
    static const char *const words[] = {"1 Hz", "512 Hz", "4096 Hz", "32768 Hz"};
    return words[setup >> 5 & 3];
}

/* 0Eh: the pin, the protection and the rest. */
static void print_setup(FILE *out, unsigned byte) {
    static const char *const protection[] = {
        "writes allowed everywhere",
        "writes refused at 0000h to 07FFh",
        "writes refused at 0000h to 0FFFh",
        "writes refused everywhere",
    };
    if (byte & 0x80) {
        fputs("alarm on the pin", out);
    } else {
        fprintf(out, "square wave %s", frequency(byte));
    }
    fprintf(out, ", %s%s%s%s", protection[byte >> 3 & 3], byte & 4 ? ", VBC" : "",
            byte & 2 ? ", FC" : "", byte & 1 ? ", TST" : "");
}

void print_register(FILE *out, unsigned address, unsigned byte) {
    static const char *const fields[] = {"seconds", "minutes", "hours", "day",
                                         "date",    "month",   "year"};
    static const char *const alarms[] = {"seconds", "minutes", "hours", "date", "month"};
    if (address == 0x00) {
        print_control(out, byte);
    } else if (address == 0x01) {
        print_trim(out, byte);
    } else if (address <= 0x08) {
        fprintf(out, "%s %02X", fields[address - 0x02], byte);
    } else if (address <= 0x0D && byte & 0x80) {
        fprintf(out, "alarm at any %s", alarms[address - 0x09]);
    } else if (address <= 0x0D) {
        fprintf(out, "alarm at %s %02X", alarms[address - 0x09], byte);
    } else {
        print_setup(out, byte);
    }
}

void print_calendar(FILE *out, const uint8_t *seven) {
    fprintf(out, "%02X:%02X:%02X, %02X/%02X/%02X, day %u", seven[2], seven[1], seven[0], seven[4],
            seven[5], seven[6], seven[3]);
}

/* The pin's function, and whether the alarm pulls it. */
static void print_pin(FILE *out, const struct device *device) {
    static const char *const words[] = {"released", "alarm, not raised", "square wave, ",
                                        "calibration, 512 Hz"};
    unsigned answer = device_pin(device);
    unsigned function = (answer & FM3130_ANSWER_PIN) >> FM3130_ANSWER_PIN_SHIFT;
    fprintf(out, "ACS pin    %s%s\n",
            answer & FM3130_ANSWER_ALARM ? "alarm, pulled low" : words[function],
            function == FM3130_PIN_SQUARE_WAVE ? frequency(device->image[0x0E]) : "");
}

/* The 15 registers, seen through the viewer. */
static void print_registers(FILE *out, const struct device *device) {
    uint64_t number;
    const uint8_t *registers = fm3130_view(device->image, device->memory, FM3130_VIEW_REGISTERS, 0,
                                           FM3130_REGISTER_BYTES, &number);
    fputs("Registers\n", out);
    for (unsigned i = 0; number == FM3130_OK && i < FM3130_REGISTER_BYTES; i++) {
        fprintf(out, "  %02Xh  %-18s  %02Xh  ", i, register_name(i), registers[i]);
        print_register(out, i, registers[i]);
        fputc('\n', out);
    }
}

void print_device(FILE *out, const struct device *device) {
    static const char *const powers[] = {"on", "lost, on backup", "lost, no backup"};
    unsigned phase = device->image[IMAGE_PHASE];
    unsigned clocks = device->image[IMAGE_CLOCKS];
    print_registers(out, device);
    fputs("Calendar   ", out);
    print_calendar(out, device->image + IMAGE_CORE);
    fputc('\n', out);
    print_pin(out, device);
    fprintf(out, "Addresses  memory %04Xh, companion %02Xh\n", device_memory_address(device),
            device_companion_address(device));
    fprintf(out, "Power      %s\n", powers[device->image[IMAGE_POWER]]);
    fprintf(out, "Bus        %s", phase_name(phase));
    if (phase != PHASE_IDLE) {
        fprintf(out, ", %u clock%s done", clocks, clocks == 1 ? "" : "s");
    }
    fputc('\n', out);
}
