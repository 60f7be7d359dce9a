# SPDX-License-Identifier: Apache-2.0
"""The decoder: transactions of an FM3130 in words, and the proved device beside the wires."""

import sigrokdecode as srd

from . import device as proved
from . import words

MEMORY_WRITE, MEMORY_READ, COMPANION_WRITE, COMPANION_READ = 0xA0, 0xA1, 0xD0, 0xD1
SLAVE_BYTES = {
    MEMORY_WRITE: "memory, write",
    MEMORY_READ: "memory, read",
    COMPANION_WRITE: "companion, write",
    COMPANION_READ: "companion, read",
}
LAST_MEMORY, LAST_REGISTER = 0x1FFF, 0x0E

# What byte comes next.
IDLE, SLAVE, FIRST_ADDRESS, SECOND_ADDRESS, COMPANION_ADDRESS, DATA = range(6)

ANN_SLAVE, ANN_ADDRESS, ANN_MEMORY, ANN_REGISTER, ANN_REFUSED, ANN_CALENDAR, ANN_DIFFERS, ANN_JUDGED = range(8)


class Decoder(srd.Decoder):
    api_version = 3
    id = "fm3130"
    name = "FM3130"
    longname = "FM3130 clock and FRAM"
    desc = "Clock-and-memory chip: registers, calendar, memory, refusals; the proved device beside the wires."
    license = "apache-2.0"
    inputs = ["i2c"]
    outputs = []
    tags = ["Clock/timing", "IC", "Memory"]
    options = (
        {"id": "library", "desc": "libfm3130.so", "default": ""},
        {"id": "image", "desc": "Image before the recording", "default": ""},
        {"id": "memory", "desc": "Memory before the recording", "default": ""},
    )
    annotations = (
        ("slave", "Slave byte"),
        ("address", "Address byte"),
        ("memory", "Memory byte"),
        ("register", "Register"),
        ("refused", "Not acknowledged"),
        ("calendar", "Calendar"),
        ("differs", "Not by the rules"),
        ("judged", "Judged"),
    )
    annotation_rows = (
        ("bytes", "Bytes", (ANN_SLAVE, ANN_ADDRESS, ANN_MEMORY, ANN_REGISTER, ANN_REFUSED)),
        ("calendars", "Calendar", (ANN_CALENDAR,)),
        ("rules", "Rules", (ANN_DIFFERS, ANN_JUDGED)),
    )

    def __init__(self):
        self.reset()

    def reset(self):
        self.phase = IDLE
        self.is_memory = self.is_read = False
        # Where the device stands; nobody knows before an address was written.
        self.memory_address = self.register_address = None
        self.high_byte = 0
        self.bits = []
        self.calendar = []
        self.device = None
        self.answers = 0

    def start(self):
        self.out_ann = self.register(srd.OUTPUT_ANN)
        self.problem = ""
        try:
            chosen = self.options
            self.device = proved.Device.at_hand(chosen["library"], chosen["image"], chosen["memory"])
        except proved.Refused as refused:
            self.problem = str(refused)

    def say(self, start, end, kind, *texts):
        self.put(start, end, self.out_ann, [kind, list(texts)])

    def decode(self, start, end, data):
        kind, value = data
        if self.problem:
            # Without the device that was asked for nothing is judged, and that is to be seen.
            self.say(start, end, ANN_JUDGED, f"not judged: {self.problem}", "not judged")
            self.problem = ""
        if kind in ("START", "START REPEAT"):
            self.condition(start, end, proved.START)
        elif kind == "STOP":
            self.condition(start, end, proved.STOP)
        elif kind == "BITS":
            # The last bit is the first of the list.
            self.bits = list(reversed(value))
        elif kind in ("ACK", "NACK"):
            self.byte(start, end, kind == "ACK")

    def condition(self, start, end, event):
        self.end_calendar()
        self.judge(event, True, False, start, end)
        self.phase = SLAVE if event == proved.START else IDLE
        if event == proved.STOP and self.device is not None and self.answers > 0:
            self.say(start, end, ANN_JUDGED, f"{self.answers} answers by the rules so far", f"{self.answers} right", "=")

    # The device beside the wires.

    def judge(self, event, line_is_high, is_answer, start, end):
        """Has the device do an event, and marks the first level that it does not give."""
        if self.device is None:
            return
        try:
            is_right = self.device.do(event) == line_is_high
        except proved.Refused as refused:
            self.device = None
            self.say(start, end, ANN_JUDGED, f"judged no further: {refused}", "judged no further")
            return
        self.answers += is_answer
        if is_right:
            return
        seen, right = ("high", "low") if line_is_high else ("low", "high")
        self.device = None
        self.say(start, end, ANN_DIFFERS, f"not by the rules: {seen} here, {right} by them; judged no further", "not by the rules", "!")

    def judge_byte(self, acknowledged, start, end):
        """The nine clocks of a byte: what the device gives is released by the master, all else is as the wires are."""
        sends = self.phase == DATA and self.is_read
        for level, first, last in self.bits:
            self.clock(level == 1, sends, first, last)
        names_it = self.phase != SLAVE or self.value() in SLAVE_BYTES
        self.clock(not acknowledged, self.phase != IDLE and not sends and names_it, start, end)

    def clock(self, is_high, is_answer, start, end):
        event = proved.CLOCK_HIGH if is_answer or is_high else proved.CLOCK_LOW
        self.judge(event, is_high, is_answer, start, end)

    # Bytes in words.

    def value(self):
        value = 0
        for level, _, _ in self.bits:
            value = value << 1 | level
        return value

    def byte(self, start, end, acknowledged):
        """A whole byte, whose ninth clock is here."""
        if not self.bits:
            return
        value, first = self.value(), self.bits[0][1]
        self.judge_byte(acknowledged, start, end)
        phase = self.phase
        if phase == SLAVE:
            self.slave(first, end, value, acknowledged)
        elif phase == DATA:
            self.data(first, end, value, acknowledged)
        elif phase != IDLE:
            self.address(first, end, value, acknowledged)
        # A byte that is not acknowledged, or a read that is not to go on, ends the part's interest.
        if not acknowledged:
            self.phase = IDLE
        self.bits = []

    def slave(self, start, end, value, acknowledged):
        if value not in SLAVE_BYTES:
            self.phase = IDLE
            return
        self.is_memory = value in (MEMORY_WRITE, MEMORY_READ)
        self.is_read = value in (MEMORY_READ, COMPANION_READ)
        text = SLAVE_BYTES[value]
        if not acknowledged:
            self.say(start, end, ANN_REFUSED, f"slave byte: {text}: not acknowledged", f"{text}: NACK", "NACK")
            return
        self.say(start, end, ANN_SLAVE, f"slave byte: {text}", text)
        if self.is_read:
            self.phase = DATA
        else:
            self.phase = FIRST_ADDRESS if self.is_memory else COMPANION_ADDRESS

    def address(self, start, end, value, acknowledged):
        if not acknowledged:
            self.say(start, end, ANN_REFUSED, f"address byte {value:02X}h: not acknowledged", f"{value:02X}h: NACK", "NACK")
            return
        if self.phase == FIRST_ADDRESS:
            self.high_byte = value
            self.phase = SECOND_ADDRESS
            self.say(start, end, ANN_ADDRESS, "memory address, first byte", "address")
            return
        if self.phase == SECOND_ADDRESS:
            self.memory_address = (self.high_byte << 8 | value) & LAST_MEMORY
            text = f"memory address {self.memory_address:04X}h"
        else:
            self.register_address = value
            name = words.REGISTERS[value] if value <= LAST_REGISTER else "no register"
            text = f"register address {value:02X}h, {name}"
        self.phase = DATA
        self.say(start, end, ANN_ADDRESS, text, f"{value:02X}h")

    def data(self, start, end, value, acknowledged):
        if self.is_memory:
            self.memory_byte(start, end, value, acknowledged)
        else:
            self.register_byte(start, end, value, acknowledged)

    def memory_byte(self, start, end, value, acknowledged):
        place = "at the current address" if self.memory_address is None else f"{self.memory_address:04X}h"
        verb = "read" if self.is_read else "write"
        if not self.is_read and not acknowledged:
            self.say(start, end, ANN_REFUSED, f"memory {place}: {value:02X}h refused, not stored", "refused", "NACK")
        else:
            self.say(start, end, ANN_MEMORY, f"memory {place}: {verb} {value:02X}h", f"{verb} {value:02X}h", f"{value:02X}")
        if self.memory_address is not None:
            self.memory_address = self.memory_address + 1 & LAST_MEMORY

    def register_byte(self, start, end, value, acknowledged):
        place = self.register_address
        verb = "read" if self.is_read else "write"
        if place is None or place > LAST_REGISTER:
            self.say(start, end, ANN_REGISTER, f"register at the current address: {verb} {value:02X}h", f"{verb} {value:02X}h")
            return
        name, meaning = words.REGISTERS[place], words.of_register(place, value)
        if not self.is_read and not acknowledged:
            self.say(start, end, ANN_REFUSED, f"{place:02X}h {name}: {value:02X}h refused, not stored", "refused", "NACK")
        else:
            text = f"{place:02X}h {name}: {verb} {value:02X}h, {meaning}"
            self.say(start, end, ANN_REGISTER, text, f"{place:02X}h: {value:02X}h, {meaning}", f"{value:02X}h")
            if words.FIRST_CALENDAR <= place <= words.LAST_CALENDAR:
                self.calendar.append((place, value, start, end))
        self.register_address = 0 if place == LAST_REGISTER else place + 1

    def end_calendar(self):
        """A transfer of all seven calendar registers is a moment."""
        fields, self.calendar = self.calendar, []
        places = [place for place, _, _, _ in fields]
        if places == list(range(words.FIRST_CALENDAR, words.LAST_CALENDAR + 1)):
            moment = words.of_calendar([value for _, value, _, _ in fields])
            verb = "read" if self.is_read else "write"
            self.say(fields[0][2], fields[-1][3], ANN_CALENDAR, f"{verb} calendar: {moment}", moment)
