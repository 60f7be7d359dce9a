// SPDX-License-Identifier: Apache-2.0
//! 02, number 8: "An ask while the other holds it, or a call with any event 0 to 3
//! by a master that does not hold it as the call begins, is refused with a new
//! number 7".

use second::generate::{self, any_state, RandomSource, Script};
use second::two_masters::{ask, call, Answered};
use second::{Device, State};

fn memory() -> Vec<u8> {
    vec![0; 8192]
}

fn fresh() -> Option<State> {
    Some(State::of(&Device::fresh()))
}

/// A call on the fresh device with room enough.
fn call_fresh(bus: u8, master: u8, events: &[u8]) -> Result<Answered, u8> {
    call(bus, master, fresh(), &memory(), events, events.len())
}

/// The bus byte after a call on the fresh device.
fn bus_after(bus: u8, master: u8, events: &[u8]) -> Result<u8, u8> {
    call_fresh(bus, master, events).map(|answered| answered.bus)
}

// ----- asking -----

/// Every bus byte and every master byte.
#[test]
fn every_ask() {
    for bus in 0..=255 {
        for master in 0..=255 {
            let expected = match (bus, master) {
                (0, 1) | (1, 1) => Ok(1),
                (0, 2) | (2, 2) => Ok(2),
                (1, 2) | (2, 1) => Err(7),
                _ => Err(2),
            };
            assert_eq!(ask(bus, master), expected, "{bus} {master}");
        }
    }
}

// ----- refusals -----

/// Every set of reasons: 1, 2 (three of them), 3, 7 and 4, in this order.
#[test]
fn refusals_in_order() {
    for reasons in 0..128_u8 {
        let holds = |number: u8| reasons >> number & 1 == 1;
        let memory = vec![0; if holds(0) { 8191 } else { 8192 }];
        let image = if holds(1) { None } else { fresh() };
        let master = if holds(2) { 3 } else { 1 };
        let bus = match (holds(3), holds(5)) {
            (true, _) => 3,
            (false, true) => 2,
            (false, false) => 1,
        };
        let mut events = vec![0, 3, 1];
        if holds(4) {
            events.push(8);
        }
        let room = events.len() - usize::from(holds(6));
        let found = call(bus, master, image, &memory, &events, room);
        let numbers = [1, 2, 2, 2, 3, 7, 4];
        let expected = (0..7).find(|number| holds(*number));
        let expected = expected.map(|number| numbers[usize::from(number)]);
        assert_eq!(found.err(), expected, "{reasons:07b}");
    }
}

/// A state by value outside 01's limits is refused by 2 as well.
#[test]
fn a_state_outside_the_limits() {
    let mut state = State::of(&Device::fresh());
    state.memory_address = 8192;
    assert_eq!(call(1, 1, Some(state), &memory(), &[9], 0), Err(2));
    assert_eq!(call(1, 1, Some(state), &[], &[9], 0), Err(1));
}

/// A bus byte or a master that does not exist is refused by 2, before 3, also
/// for a call that needs no bus.
#[test]
fn every_bus_byte_and_master_of_a_call() {
    for bus in 0..=255 {
        for master in 0..=255 {
            let exist = bus <= 2 && (master == 1 || master == 2);
            let expected = if exist { Ok(bus) } else { Err(2) };
            assert_eq!(bus_after(bus, master, &[4]), expected);
            let expected = if exist { Err(3) } else { Err(2) };
            assert_eq!(bus_after(bus, master, &[8]), expected);
        }
    }
}

/// "a call with any event 0 to 3 by a master that does not hold it": every event
/// byte, wherever it stands in the list.
#[test]
fn calls_that_need_the_bus() {
    for bus in 0..=2 {
        for master in 1..=2 {
            for event in 0..=7 {
                for place in 0..=3 {
                    let mut events = vec![4, 7, 4];
                    events.insert(place, event);
                    let refused = event <= 3 && bus != master;
                    let found = call_fresh(bus, master, &events);
                    assert_eq!(found.err(), refused.then_some(7));
                }
            }
        }
    }
}

/// "Ticks and power events belong to neither": a call with no others is answered
/// for anybody, an empty one too.
#[test]
fn calls_that_need_no_bus() {
    for bus in 0..=2 {
        for master in 1..=2 {
            for number in 0..256_usize {
                let events = [0, 2, 4, 6].map(|shift| 4 + (number >> shift & 3) as u8);
                let power_was_lost = events.iter().any(|event| [5, 6].contains(event));
                let expected = if power_was_lost { 0 } else { bus };
                assert_eq!(bus_after(bus, master, &events), Ok(expected));
            }
            assert_eq!(bus_after(bus, master, &[]), Ok(bus));
        }
    }
}

// ----- freeing -----

/// Forwards: a Stop or a power loss frees, a Start after it does not let it.
fn frees(events: &[u8]) -> bool {
    let mut free = false;
    for event in events {
        match event {
            0 => free = false,
            1 | 5 | 6 => free = true,
            _ => {}
        }
    }
    free
}

/// All lists of up to four events out of all eight.
#[test]
fn every_short_list() {
    let device = Device::fresh();
    for length in 0..=4_u32 {
        for number in 0..8_usize.pow(length) {
            let events: Vec<u8> = (0..length)
                .map(|place| (number >> (3 * place) & 7) as u8)
                .collect();
            let found = call_fresh(1, 1, &events).expect("the holder calls");
            let mut run = device.clone();
            let expected = Answered {
                bus: u8::from(!frees(&events)),
                answers: run.run(&events),
                state: State::of(&run),
                memory: run.memory,
            };
            assert_eq!(found, expected);
        }
    }
}

/// "whose last Stop, event 5 or event 6 has no Start after it"
#[test]
fn examples_of_freeing() {
    let free = |events: &[u8]| bus_after(2, 2, events) == Ok(0);
    assert!(free(&[0, 2, 1]));
    assert!(free(&[1]));
    assert!(free(&[1, 3, 3, 4]));
    assert!(free(&[0, 1, 0, 1]));
    assert!(free(&[0, 5]));
    assert!(free(&[0, 3, 6, 7, 4]));
    assert!(!free(&[]));
    assert!(!free(&[0]));
    assert!(!free(&[3, 2, 4]));
    assert!(!free(&[1, 0]));
    assert!(!free(&[0, 1, 0, 3]));
    assert!(!free(&[5, 7, 0]));
    assert!(!free(&[7]));
}

/// A power loss in anybody's call frees the bus.
#[test]
fn whoever_called() {
    for master in 1..=2 {
        for bus in 0..=2 {
            for event in [5, 6] {
                assert_eq!(bus_after(bus, master, &[4, event, 4, 7]), Ok(0));
            }
            assert_eq!(bus_after(bus, master, &[4, 7]), Ok(bus));
        }
    }
}

/// A transaction in several calls: the bus is held until its Stop.
#[test]
fn a_transaction_in_several_calls() {
    let mut script = Script::new();
    script.memory_write(0x0123, &[0x5A]);
    let (first, rest) = script.events.split_at(13);
    let bus = ask(0, 2).expect("nobody holds it");
    let begun = call(bus, 2, fresh(), &memory(), first, first.len()).expect("answered");
    assert_eq!(begun.bus, 2);
    assert_eq!(ask(begun.bus, 1), Err(7));
    let state = Some(begun.state);
    let refused = call(begun.bus, 1, state, &begun.memory, &[0], 1);
    assert_eq!(refused, Err(7));
    let ended = call(begun.bus, 2, state, &begun.memory, rest, rest.len()).expect("answered");
    assert_eq!(ended.bus, 0);
    assert_eq!(ended.memory[0x0123], 0x5A);
    // it does not hold the bus any more
    let again = call(ended.bus, 2, Some(ended.state), &ended.memory, &[0], 1);
    assert_eq!(again, Err(7));
    assert_eq!(ask(ended.bus, 1), Ok(1));
}

/// Calls do what the events do one by one, from any state.
#[test]
fn calls_from_any_state() {
    for list in generate::handed_in_random(8, 60_000) {
        let mut device = list.device();
        let image = Some(State::of(&device));
        let events = &list.events;
        let found = call(1, 1, image, &device.memory, events, events.len() + 1);
        let answers = device.run(events);
        let expected = Answered {
            bus: u8::from(!frees(events)),
            state: State::of(&device),
            memory: device.memory,
            answers,
        };
        assert_eq!(found, Ok(expected));
    }
}

// ----- what a read is assured of -----

/// A device that two masters call, and its bus.
struct Chip {
    bus: u8,
    state: State,
    memory: Vec<u8>,
}

impl Chip {
    /// Asks if the events need the bus, and calls; the answers. Neither is
    /// refused.
    fn call(&mut self, master: u8, events: &[u8]) -> Vec<u8> {
        if events.iter().any(|event| *event <= 3) {
            self.bus = ask(self.bus, master).expect("no number 7");
        }
        let answered = call(
            self.bus,
            master,
            Some(self.state),
            &self.memory,
            events,
            events.len(),
        )
        .expect("no number 7");
        (self.bus, self.state) = (answered.bus, answered.state);
        self.memory = answered.memory;
        answered.answers
    }
}

/// Where this master writes and reads; the other writes elsewhere.
const OWN: std::ops::Range<u16> = 0x0700..0x0900;

/// A transaction of this master: it writes, or sets an address and reads.
fn own_events(source: &mut RandomSource) -> Vec<u8> {
    let mut script = Script::new();
    let address = OWN.start + source.below(0x1F0) as u16;
    let count = source.between(1, 8);
    match source.below(5) {
        0 => script.memory_write(address, &source.bytes(count)),
        1 => script.companion_read(source.below(15) as u8, count),
        2 => script.companion_write(source.between(0x09, 0x0E) as u8, &source.bytes(1)),
        _ => script.memory_read(address, count),
    };
    script.events
}

/// What the other does: no register written, no byte of this master's written,
/// 00h not read.
fn other_events(source: &mut RandomSource) -> Vec<u8> {
    let mut script = Script::new();
    let count = source.between(1, 8);
    let anywhere = source.next_number() as u16;
    match source.below(7) {
        0 => script.memory_write(0x0A00 + source.below(0x100) as u16, &source.bytes(count)),
        1 => script.memory_read(anywhere, count),
        2 => script.memory_read_current(count),
        3 => script.companion_read(source.between(1, 7) as u8, count),
        4 => script.begin_companion_write(source.byte()).stop(),
        5 => script.memory_write(anywhere, &[]),
        _ => {
            let byte = source.byte();
            let bits = source.below(8) as u8;
            script.start().first_bits(byte, bits).stop()
        }
    };
    script.events
}

/// "a read that sets its address and reads in the same transaction gives the same
/// bytes whatever the other did before"
#[test]
fn reads_that_set_their_address_are_assured() {
    let mut source = RandomSource::new(108);
    for _ in 0..400 {
        let mut state = any_state(&mut source);
        state.power = second::Power::On;
        let memory = source.bytes(8192);
        let mut alone = Chip {
            bus: 0,
            state: State::from(state),
            memory: memory.clone(),
        };
        let mut shared = Chip {
            bus: 0,
            state: State::from(state),
            memory,
        };
        for _ in 0..12 {
            if source.chance(60) {
                let events = other_events(&mut source);
                shared.call(2, &events);
            }
            if source.chance(30) {
                let events = source.pick(&[[4, 4], [4, 7], [5, 7], [6, 7]]);
                assert_eq!(alone.call(1, &events), shared.call(1, &events));
            }
            let events = own_events(&mut source);
            assert_eq!(alone.call(1, &events), shared.call(1, &events));
        }
    }
}

/// "A read from the current address has no such assurance".
#[test]
fn reads_from_the_current_address_are_not_assured() {
    let read_of = |other_reads: bool| {
        let mut memory = memory();
        memory[0x0100..0x0104].copy_from_slice(&[10, 20, 30, 40]);
        let mut chip = Chip {
            bus: 0,
            state: State::of(&Device::fresh()),
            memory,
        };
        let mut set = Script::new();
        set.memory_write(0x0100, &[]);
        chip.call(1, &set.events);
        if other_reads {
            let mut read = Script::new();
            read.memory_read(0x0101, 2);
            chip.call(2, &read.events);
        }
        let mut read = Script::new();
        read.memory_read_current(1);
        chip.call(1, &read.events)
    };
    assert!(read_of(false) != read_of(true));
}
