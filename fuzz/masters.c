/* SPDX-License-Identifier: Apache-2.0 */
#include "masters.h"

#include <string.h>

#include "hold.h"

enum { DONE, TOO_MANY, READ_OF_NONE, WRONG_ADDRESS, LITTLE_ROOM, WRONG_ANSWERS };

enum { MOST_DATA = 256, MOST_LENGTH = 300, MOST_WRITTEN = 3000 };

/* The clocks of a byte, and the bytes before the data: slave byte and address, and of a read the second slave byte. */
enum { BYTE_CLOCKS = 9, WRITE_HEAD = 3, READ_HEAD = 4 };

static struct fence data_fence, written_fence;

void prepare_masters(void)
{
    data_fence = fence_around(MOST_WRITTEN);
    written_fence = fence_around(MOST_WRITTEN);
}

/* ---- a transaction, written down once more */

struct transaction {
    int reads;
    uint64_t address;
    uint64_t count;
};

/* The events of a transaction: a Start and a Stop, of a read a second Start. */
static uint64_t events_of(struct transaction asked)
{
    uint64_t bytes = asked.count + (asked.reads ? READ_HEAD : WRITE_HEAD);
    return BYTE_CLOCKS * bytes + (asked.reads ? 3 : 2);
}

/* Where the ninth clock of a byte stands among the events; a read's second Start stands before its fourth byte. */
static uint64_t ninth_clock(struct transaction asked, uint64_t byte)
{
    return 1 + BYTE_CLOCKS * byte + 8 + (asked.reads && byte >= WRITE_HEAD ? 1 : 0);
}

static void add_address(struct list *list, uint64_t address)
{
    list->length = 0;
    add_slave_byte(list, 0xA0);
    add_byte(list, (uint8_t)(address >> 8), 1);
    add_byte(list, (uint8_t)address, 1);
}

static void build(struct transaction asked, const uint8_t *bytes, struct list *list)
{
    add_address(list, asked.address);
    if (asked.reads)
        add_slave_byte(list, 0xA1);
    for (uint64_t i = 0; i < asked.count; i++)
        add_byte(list, asked.reads ? 0xFF : bytes[i], !asked.reads || i + 1 == asked.count);
    add_event(list, FM3130_STOP);
}

/* ---- numbers, in their order */

static uint64_t count_number(struct transaction asked)
{
    if (asked.count > MOST_DATA)
        return TOO_MANY;
    return asked.reads && asked.count == 0 ? READ_OF_NONE : DONE;
}

static uint64_t events_number(struct transaction asked, uint64_t room)
{
    uint64_t number = count_number(asked);
    if (number != DONE)
        return number;
    if (asked.address > 0x1FFF)
        return WRONG_ADDRESS;
    return room < events_of(asked) ? LITTLE_ROOM : DONE;
}

static uint64_t told_number(struct transaction asked, uint64_t answers, uint64_t room)
{
    uint64_t number = count_number(asked);
    if (number != DONE)
        return number;
    if (room < asked.count)
        return LITTLE_ROOM;
    return answers != events_of(asked) ? WRONG_ANSWERS : DONE;
}

/* ---- what the answers tell, written down once more */

static int is_acknowledged(struct transaction asked, const uint8_t *answers, uint64_t byte)
{
    return !(answers[ninth_clock(asked, byte)] & 1);
}

static int head_is_acknowledged(struct transaction asked, const uint8_t *answers)
{
    for (uint64_t byte = 0; byte < (asked.reads ? READ_HEAD : WRITE_HEAD); byte++)
        if (!is_acknowledged(asked, answers, byte))
            return 0;
    return 1;
}

static uint8_t byte_on_the_line(struct transaction asked, const uint8_t *answers, uint64_t byte)
{
    uint8_t shown = 0;
    for (uint64_t clock = ninth_clock(asked, byte) - 8; clock < ninth_clock(asked, byte); clock++)
        shown = (uint8_t)(shown << 1 | (answers[clock] & 1));
    return shown;
}

/* Writes what is told over `told`; how many bytes. */
static uint64_t tell(struct transaction asked, const uint8_t *answers, uint8_t *told)
{
    int heard = head_is_acknowledged(asked, answers);
    if (asked.reads && !heard)
        return 0;
    for (uint64_t i = 0; i < asked.count; i++)
        told[i] = asked.reads ? byte_on_the_line(asked, answers, READ_HEAD + i)
                              : (uint8_t)(heard && is_acknowledged(asked, answers, WRITE_HEAD + i));
    return asked.count;
}

/* ---- the entries by themselves */

static struct fm3130_filled make_events(struct transaction asked, struct buffer bytes, struct buffer events)
{
    return asked.reads ? fm3130_read_events(asked.address, asked.count, events.start, events.length)
                       : fm3130_write_events(asked.address, bytes.start, asked.count, events.start, events.length);
}

static struct fm3130_filled ask_told(struct transaction asked, struct buffer answers, struct buffer told)
{
    return asked.reads ? fm3130_read_told(asked.count, answers.start, answers.length, told.start, told.length)
                       : fm3130_write_told(asked.count, answers.start, answers.length, told.start, told.length);
}

static struct buffer written_buffer(size_t length, int at_the_end)
{
    struct buffer buffer = fenced_buffer(written_fence, length, at_the_end);
    memset(buffer.start, OLD_BYTE, length);
    return buffer;
}

/* The front of a buffer is what it must be, and the rest stays as it was. */
static void hold_written(struct buffer buffer, const uint8_t *front, uint64_t count)
{
    hold(memcmp(buffer.start, front, count) == 0, "what the master's entry writes is what it must be");
    for (uint64_t i = count; i < buffer.length; i++)
        hold(buffer.start[i] == OLD_BYTE, "the master's entry writes no byte more");
    hold(guard_is_whole(buffer), "the bytes beside what the master's entry writes are untouched");
}

static void hold_made(struct transaction asked, struct buffer bytes, struct buffer events)
{
    static struct list list;
    uint64_t number = events_number(asked, events.length);
    struct fm3130_filled made = make_events(asked, bytes, events);
    list.length = 0;
    if (number == DONE)
        build(asked, bytes.start, &list);
    hold(made.number == number, "the events' number is the one of request 1");
    hold(made.count == list.length, "the count is the number of the master's events");
    hold_written(events, list.events, list.length);
    hold(guard_is_whole(bytes), "the bytes beside the master's data are untouched");
}

static void hold_told(struct transaction asked, struct buffer answers, struct buffer told)
{
    uint8_t must_be[MOST_DATA];
    uint64_t number = told_number(asked, answers.length, told.length);
    uint64_t count = number == DONE ? tell(asked, answers.start, must_be) : 0;
    struct fm3130_filled is = ask_told(asked, answers, told);
    hold(is.number == number, "the number of what is told is the one of request 1");
    hold(is.count == count, "the count is the number of bytes told");
    hold_written(told, must_be, count);
    hold(guard_is_whole(answers), "the bytes beside the master's answers are untouched");
}

static uint64_t choose_address(struct choices *choices)
{
    uint16_t small = choose_pair(choices);
    uint8_t way = choose_byte(choices);
    return way % 8 == 7 ? choose_number(choices) : way % 8 == 6 ? 0x1FFCu + small % 8 : small % 0x2000u;
}

/* At most 256 and a few more, mostly few; a read, whose data are no buffer, also far more. */
static struct transaction choose_transaction(struct choices *choices)
{
    uint8_t way = choose_byte(choices);
    uint16_t small = choose_pair(choices);
    uint64_t count = way & 0x0C ? small % 20u : 250u + small % (MOST_LENGTH - 250);
    struct transaction asked = {.reads = way & 1, .address = choose_address(choices), .count = count};
    if (asked.reads && way % 64 == 63)
        asked.count = choose_number(choices);
    return asked;
}

/* The right length, one beside it, or any. */
static size_t choose_length(struct choices *choices, uint64_t right)
{
    uint8_t way = choose_byte(choices);
    uint64_t length = way & 0x80 ? choose_pair(choices) : right + way % 8 / 3 - (way % 8 == 0);
    return length < MOST_WRITTEN ? length : MOST_WRITTEN;
}

static struct buffer choose_data(struct choices *choices, size_t length, int at_the_end)
{
    struct buffer data = fenced_buffer(data_fence, length, at_the_end);
    for (uint64_t i = 0; i < length; i++)
        data.start[i] = i < 16 ? choose_byte(choices) : (uint8_t)(data.start[i - 16] + 1);
    return data;
}

void hold_masters(struct choices *choices)
{
    uint8_t ends = choose_byte(choices);
    struct transaction asked = choose_transaction(choices);
    uint64_t room = choose_length(choices, events_of(asked));
    struct buffer bytes = choose_data(choices, asked.count < MOST_LENGTH ? asked.count : 0, ends & 1);
    hold_made(asked, bytes, written_buffer(room, ends & 2));
    uint64_t answers_length = choose_length(choices, events_of(asked));
    room = choose_length(choices, asked.count);
    struct buffer answers = choose_data(choices, answers_length, ends & 4);
    for (uint64_t byte = 0; ends & 8 && byte < READ_HEAD; byte++)
        if (ninth_clock(asked, byte) < answers.length)
            answers.start[ninth_clock(asked, byte)] &= 0xFE;
    hold_told(asked, answers, written_buffer(room, ends & 16));
}

/* ---- through a device */

static uint8_t answers_room[MOST_WRITTEN];

/* Runs a transaction on the call's device and asks what its answers tell. */
static uint64_t carry_out(struct call call, struct transaction asked, struct buffer bytes, uint8_t *told)
{
    uint8_t events[MOST_WRITTEN];
    struct buffer room = {.start = events, .length = sizeof events};
    struct fm3130_filled made = make_events(asked, bytes, room);
    struct buffer answers = {.start = answers_room, .length = made.count};
    struct buffer front = {.start = told, .length = MOST_DATA};
    struct fm3130_ran ran = fm3130_run(call.image.start, call.image.length, call.memory.start, call.memory.length,
                                       events, made.count, answers.start, answers.length);
    struct fm3130_filled is = ask_told(asked, answers, front);
    hold(made.number == DONE && is.number == DONE, "a transaction of few bytes is made and told");
    hold(ran.number == ACCEPTED && ran.count == made.count, "a transaction's events are accepted");
    return is.count;
}

/* A byte with flag 1 was stored, one with flag 0 was not. No address comes twice: there are fewer bytes than places. */
static void hold_flags(struct call call, struct transaction asked, const uint8_t *bytes, const uint8_t *flags,
                       const uint8_t *old_memory)
{
    for (uint64_t i = 0; i < asked.count; i++) {
        uint64_t place = (asked.address + i) % MEMORY_BYTES;
        uint8_t must_be = flags[i] ? bytes[i] : old_memory[place];
        hold(call.memory.start[place] == must_be, "a byte is stored where its flag is 1 and nowhere else");
    }
}

static void hold_read_back(struct call call, struct transaction asked, const uint8_t *bytes)
{
    for (uint64_t i = 0; i < asked.count; i++)
        hold(bytes[i] == call.memory.start[(asked.address + i) % MEMORY_BYTES], "what is read is what stands there");
}

void hold_through(struct call call, struct choices *choices)
{
    static struct contents before;
    uint8_t told[MOST_DATA];
    if (call.memory.length != MEMORY_BYTES || !image_is_accepted(&fm3130_limits, call.image.start, call.image.length))
        return;
    keep(&before, call);
    int powered = call.image.start[SUPPLIES_PLACE] == 0;
    uint16_t address = choose_pair(choices) % MEMORY_BYTES;
    struct transaction write = {.reads = 0, .address = address, .count = choose_byte(choices) % 40u};
    struct transaction read = {.reads = 1, .address = address, .count = write.count + 1};
    struct buffer bytes = choose_data(choices, write.count, 0);
    memset(told, 0, sizeof told);
    hold(carry_out(call, write, bytes, told) == write.count, "a flag for each byte written");
    hold_flags(call, write, bytes.start, told, before.memory);
    hold(carry_out(call, read, bytes, told) == (powered ? read.count : 0), "bytes are read exactly with main power");
    if (powered)
        hold_read_back(call, read, told);
    restore(call, &before);
}
