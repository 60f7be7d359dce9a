// SPDX-License-Identifier: Apache-2.0
/** Words for whoever sees the part for the first time: what the names on the page are. */

/** What the facts of a device are, at their names. */
const HINTS = new Map([
  ['Calendar', 'the clock as it counts'],
  ['ACS pin', 'Alarm, Calibration, Square wave'],
  ['Addresses', 'where the next read begins'],
  ['Counters', 'edges on CNT1 and CNT2'],
  ['Serial', 'can be locked for good'],
  ['Held by', 'the master that has the bus'],
]);

/** What a fact is; empty where its name says it. */
export function hintOf(name) {
  return HINTS.get(name) ?? '';
}

const BUS = [
  ['SCL, SDA', 'the two wires: clock and data. Everybody can pull a wire low, nobody pushes it high.'],
  ['[ and ]', 'Start and Stop, which begin and end a transfer. The first byte, the slave byte, says who is meant.'],
];
const MEMORY = ['A0, A1', 'slave bytes of the memory (FRAM, which needs no power to keep its bytes): A0 writes, with '
  + 'two address bytes first; A1 reads on from there.'];
const ACKNOWLEDGE = ['ACK, NACK', 'the ninth bit: whoever takes a byte pulls SDA low to acknowledge it, or does not.'];

const CLOCK = [
  MEMORY,
  ['D0, D1', 'slave bytes of the companion: D0 writes, with one address byte first; D1 reads on from there.'],
  ['companion', 'the other half of the chip: clock, alarm, write protection and flags, in registers 00h to 0Eh.'],
  ['ACS', 'a pin of the chip. Registers choose what it gives: the alarm (low when it is raised), a calibration signal '
    + 'of 512 Hz, or a square wave.'],
  ['lamps', 'the rig\'s eight lamps, bytes 1000h to 1007h: lit by a whole read of a 1, and dark after three seconds '
    + 'without one.'],
];
const COUNTERS = [
  MEMORY,
  ['D0, D1', 'slave bytes of the companion: D0 writes, with one address byte first; D1 reads on from there.'],
  ['companion', 'the other half of the chip: two event counters and a serial number, in registers 09h to 18h. It has '
    + 'no clock and no ACS pin.'],
  ['c1, c2', 'an edge on pin CNT1 or CNT2, which a counter counts.'],
];
const SET = [
  ['@0 to @3', 'select bits, two pins of each device on the line. Bits 2 and 1 of a slave byte must equal them.'],
  ['A0 A2 A4 A6', 'the memories of @0, @1, @2 and @3, to write; A1, A3, A5 and A7 read.'],
  ['D0 D2 D4 D6', 'their companions, to write: two event counters and a serial number each; D1, D3, D5 and D7 read.'],
  ['c1@2', 'an edge on pin CNT1 of device @2.'],
];
const MASTERS = [
  ['a: and b:', 'a turn of the rig, and one of the maintainer\'s handheld. A turn asks for the bus and is done whole, '
    + 'or refused.'],
  ...CLOCK.slice(0, 3),
];

/** The words for a cast (cast.mjs): names, and what each is. */
export function wordsFor({ kind, part }) {
  if (kind === 'set') {
    return [...BUS, ACKNOWLEDGE, ...SET];
  }
  if (kind === 'masters') {
    return [...BUS, ACKNOWLEDGE, ...MASTERS];
  }
  return [...BUS, ACKNOWLEDGE, ...(part.hasCounters ? COUNTERS : CLOCK)];
}
