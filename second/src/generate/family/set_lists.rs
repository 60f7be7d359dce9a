// SPDX-License-Identifier: Apache-2.0
//! Lists for sets of one to four parts on one line (02, number 12).

use super::fixed::{transactions, CC, RC};
use super::random_parts::{any_edges, any_family_state, any_transactions};
use crate::bus::{Power, CLOCK_HIGH, CLOCK_LOW, START, STOP};
use crate::family::{Member, Set, Size, State, SIZES};
use crate::generate::fill_memory;
use crate::generate::random_source::RandomSource;
use crate::generate::script::Script;
use crate::generate::starting_state::{begin_with, power_back};

/// One device of a set; its memory is preset by `memory_seed`.
#[derive(Clone, Copy, Debug, PartialEq, Eq)]
pub struct SetPlace {
    pub size: Size,
    pub selects: u8,
    pub state: State,
    pub memory_seed: u64,
}

impl SetPlace {
    /// What the set is made of.
    pub fn member(&self) -> Member {
        let mut memory = vec![0; self.size.bytes()];
        fill_memory(self.memory_seed, &mut memory);
        Member {
            size: self.size,
            selects: self.selects,
            state: self.state,
            memory,
        }
    }
}

/// One list of events, to be run on a set.
#[derive(Clone, Debug, PartialEq, Eq)]
pub struct SetList {
    pub family: &'static str,
    pub name: String,
    pub places: Vec<SetPlace>,
    pub events: Vec<u8>,
}

impl SetList {
    /// What the set is made of.
    pub fn members(&self) -> Vec<Member> {
        self.places.iter().map(SetPlace::member).collect()
    }

    /// The set that the list is to be run on.
    pub fn set(&self) -> Set {
        Set::of(self.members()).expect("nothing to refuse")
    }
}

/// The number of events of some lists together.
pub fn count_set_events(lists: &[SetList]) -> usize {
    lists.iter().map(|list| list.events.len()).sum()
}

/// Every arrangement of one to four different selects, 64 in all.
pub fn select_arrangements() -> Vec<Vec<u8>> {
    let mut all: Vec<Vec<u8>> = Vec::new();
    let mut longest: Vec<Vec<u8>> = vec![Vec::new()];
    for _ in 0..4 {
        let mut longer = Vec::new();
        for shorter in &longest {
            for selects in (0..4).filter(|one| !shorter.contains(one)) {
                let mut arrangement = shorter.clone();
                arrangement.push(selects);
                longer.push(arrangement);
            }
        }
        all.extend(longer.iter().cloned());
        longest = longer;
    }
    all
}

/// Fresh devices with these selects; their sizes take turns, beginning with the
/// 64Kb or the 256Kb.
fn fresh_places(arrangement: &[u8], first_size: usize) -> Vec<SetPlace> {
    let places = arrangement.iter().enumerate();
    places
        .map(|(place, selects)| SetPlace {
            size: SIZES[(first_size + place) % 2],
            selects: *selects,
            state: State::fresh(),
            memory_seed: 51 + place as u64,
        })
        .collect()
}

/// The script with the slave byte after each of its Starts naming other selects:
/// its sixth and seventh clock are bits 2 and 1.
pub fn addressed_to(selects: u8, script: &Script) -> Script {
    let mut addressed = Script::new();
    let mut clocks_since_start = usize::MAX;
    for &event in &script.events {
        let mut sent = event;
        match event {
            START => clocks_since_start = 0,
            STOP => clocks_since_start = usize::MAX,
            CLOCK_LOW | CLOCK_HIGH if clocks_since_start <= 6 => {
                match clocks_since_start {
                    5 => sent = CLOCK_LOW + selects / 2,
                    6 => sent = CLOCK_LOW + selects % 2,
                    _ => {}
                }
                clocks_since_start += 1;
            }
            _ => {}
        }
        addressed.event(sent);
    }
    addressed
}

/// The exhaustive families of lists for sets.
pub fn set_exhaustive() -> Vec<SetList> {
    let mut lists = arrangements();
    lists.extend(slave_bytes());
    lists.extend(edges_inside());
    lists.extend(power_inside());
    lists.extend(other_starts());
    lists.extend(supplies());
    lists
}

/// An edge on either input of every device, in turn.
fn all_edges(script: &mut Script, devices: usize) {
    for event in 8..8 + 2 * devices as u8 {
        script.event(event);
    }
}

/// What every device, by its selects, holds and where it stands; it reads 11h to
/// 18h and 09h to 10h, and the memory at the current address.
fn read_everything(script: &mut Script) {
    for selects in 0..4 {
        let mut part = Script::new();
        part.companion_read(0x11, 16).memory_read_current(1);
        script.events(&addressed_to(selects, &part).events);
    }
}

/// Every arrangement in two orders of sizes: all four selects, present or absent,
/// are written to and read in turn, with edges, ticks and power events between.
fn arrangements() -> Vec<SetList> {
    let mut lists = Vec::new();
    for arrangement in select_arrangements() {
        for first_size in 0..2 {
            let mut script = Script::new();
            for selects in 0..4_u8 {
                let mut part = Script::new();
                // the last bytes of either size; bits above 64Kb are ignored there
                part.memory_write(0x7FFE, &[0x50 + selects, 0x60, 0x70, 0x80]);
                part.companion_write(0x0D, &[0xFF, selects, 0xFF, 0x30]);
                part.companion_write(0x18, &[0x90 + selects]);
                script.events(&addressed_to(selects, &part).events);
                all_edges(&mut script, arrangement.len());
                script.tick();
            }
            script.events(&[5, 4]);
            all_edges(&mut script, arrangement.len());
            script.power_returned();
            read_everything(&mut script);
            script.event(6);
            all_edges(&mut script, arrangement.len());
            script.power_returned();
            read_everything(&mut script);
            lists.push(SetList {
                family: "set-arrangements",
                name: format!("selects {arrangement:?}, sizes from {first_size}"),
                places: fresh_places(&arrangement, first_size),
                events: script.events,
            });
        }
    }
    lists
}

/// All 256 slave bytes, each followed by three bytes, on sets of four, of two and
/// of one, with the master's ninth bits high and low.
fn slave_bytes() -> Vec<SetList> {
    let mut lists = Vec::new();
    for arrangement in [&[0, 1, 2, 3][..], &[3, 1], &[2]] {
        for byte in 0..=255_u8 {
            for ninth in [true, false] {
                let mut script = Script::new();
                script.start();
                for sent in [byte, 0x0D, 0x04, 0x5A] {
                    script.byte(sent).acknowledge_clock(ninth);
                }
                script.stop();
                read_everything(&mut script);
                lists.push(SetList {
                    family: "set-slave-bytes",
                    name: format!("{arrangement:?}, {byte:02X}h, {}", u8::from(ninth)),
                    places: fresh_places(arrangement, 0),
                    events: script.events,
                });
            }
        }
    }
    lists
}

/// Three devices; transactions of every kind to each of them and to the absent
/// one, with 0Ch set before; their addresses are those of either size.
fn cases() -> Vec<(String, u8, u8, Script)> {
    let mut cases = Vec::new();
    for selects in 0..4_u8 {
        for (control, size) in [(0x00, Size::Kilobits256), (RC | CC, Size::Kilobits64)] {
            for (kind, transaction) in transactions(size) {
                let name = format!("{kind} to {selects}, 0Ch {control:X}h");
                cases.push((name, selects, control, addressed_to(selects, &transaction)));
            }
        }
    }
    cases
}

/// 0Ch and counters about to carry, in every device.
fn prepared(control: u8) -> Script {
    let mut script = Script::new();
    for selects in 0..4 {
        let mut part = Script::new();
        part.companion_write(0x0D, &[0xFF, 0xFF, 0xFF, 0x00]);
        part.companion_write(0x0B, &[0x08, control]);
        script.events(&addressed_to(selects, &part).events);
    }
    script
}

/// The three devices of those cases; no device has select 1.
fn three_places() -> Vec<SetPlace> {
    fresh_places(&[2, 0, 3], 1)
}

/// A tick and an edge on some input of some device after each event of a
/// transaction; the inputs take turns.
fn edges_inside() -> Vec<SetList> {
    let mut lists = Vec::new();
    for (case, _, control, transaction) in cases() {
        for first in 0..6_u8 {
            let mut script = prepared(control);
            for (place, event) in transaction.events.iter().enumerate() {
                script.event(*event);
                script.event(8 + (first + place as u8) % 6);
                if place % 5 == 0 {
                    script.tick();
                }
            }
            script.stop();
            read_everything(&mut script);
            lists.push(SetList {
                family: "set-edges-inside",
                name: format!("{case}, first input {first}"),
                places: three_places(),
                events: script.events,
            });
        }
    }
    lists
}

/// A loss of power after some events of a transaction, which goes on.
fn power_inside() -> Vec<SetList> {
    let mut lists = Vec::new();
    for (case, _, control, transaction) in cases() {
        for place in (0..transaction.events.len()).step_by(7) {
            let mut script = prepared(control);
            script.events(&transaction.events[..place]);
            script.event(5 + (place / 7 % 3) as u8);
            all_edges(&mut script, 3);
            script.power_returned();
            script.events(&transaction.events[place..]).stop();
            read_everything(&mut script);
            lists.push(SetList {
                family: "set-power-inside",
                name: format!("{case}, at {place}"),
                places: three_places(),
                events: script.events,
            });
        }
    }
    lists
}

/// A transaction cut after some of its events by a Start that names another
/// device, whose byte is read; no Stop between.
fn other_starts() -> Vec<SetList> {
    let mut lists = Vec::new();
    for (case, selects, control, transaction) in cases() {
        for place in (0..=transaction.events.len()).step_by(5) {
            let other = (selects + 1 + (place % 3) as u8) % 4;
            let mut script = prepared(control);
            script.events(&transaction.events[..place]);
            let mut part = Script::new();
            part.begin_companion_read().read_bytes(2);
            part.begin_memory_read().read_bytes(2).stop();
            script.events(&addressed_to(other, &part).events);
            read_everything(&mut script);
            lists.push(SetList {
                family: "set-other-starts",
                name: format!("{case}, {other} at {place}"),
                places: three_places(),
                events: script.events,
            });
        }
    }
    lists
}

/// Four devices handed in with every choice of supplies and with addresses that no
/// loss of power leaves, and every two power events; then power returns, and what
/// is read shows the addresses of each.
fn supplies() -> Vec<SetList> {
    let mut lists = Vec::new();
    for number in 0..81_usize {
        for pair in 0..9_u8 {
            let mut script = Script::new();
            script.event(5 + pair / 3).event(5 + pair % 3);
            script.power_returned();
            for selects in 0..4 {
                let mut part = Script::new();
                part.memory_read_current(1).companion_read_current(1);
                script.events(&addressed_to(selects, &part).events);
            }
            lists.push(SetList {
                family: "set-supplies",
                name: format!("supplies {number}, pair {pair}"),
                places: places_with_supplies(number),
                events: script.events,
            });
        }
    }
    lists
}

/// Four devices whose supplies are the four base 3 figures of a number.
fn places_with_supplies(number: usize) -> Vec<SetPlace> {
    let mut places = fresh_places(&[1, 3, 0, 2], 0);
    for (one, figure) in places.iter_mut().zip([1, 3, 9, 27]) {
        one.state.power = [Power::On, Power::Backup, Power::Gone][number / figure % 3];
        one.state.memory_address = 0x0332 + u16::from(one.selects);
        one.state.companion_address = 0x0E + one.selects;
    }
    places
}

/// Random lists with about so many events in all: noise of all events of a set,
/// and traffic to any selects with ticks, edges and power events between; half
/// of them on devices in any state between transfers.
pub fn set_random(seed: u64, approximate_events: usize) -> Vec<SetList> {
    let mut source = RandomSource::new(seed);
    let mut lists: Vec<SetList> = Vec::new();
    let mut events = 0;
    while events < approximate_events {
        let number = lists.len();
        let places = any_places(&mut source);
        let (family, mut script) = match number % 3 {
            0 => ("set-noise", noise(&mut source, places.len())),
            1 => ("set-traffic", traffic(&mut source, &places, 300)),
            _ => ("set-disturbed-traffic", traffic(&mut source, &places, 40)),
        };
        let off = places.iter().find(|place| place.state.power != Power::On);
        if let Some(place) = off.filter(|_| source.chance(50)) {
            let beginning = addressed_to(place.selects, &power_back(&mut source));
            begin_with(&beginning, &mut script.events);
        }
        events += script.events.len();
        lists.push(SetList {
            family,
            name: format!("seed {seed}, list {number}"),
            places,
            events: script.events,
        });
    }
    lists
}

/// Any arrangement, sizes and states; a third of the sets has main power
/// everywhere.
fn any_places(source: &mut RandomSource) -> Vec<SetPlace> {
    let arrangements = select_arrangements();
    let arrangement = &arrangements[source.below(arrangements.len())];
    let (handed_in, powered) = (source.chance(50), source.chance(70));
    let places = arrangement.iter().map(|selects| {
        let size = source.pick(&SIZES);
        let mut state = State::fresh();
        if handed_in {
            state = any_family_state(source, size);
        }
        if powered {
            state.power = Power::On;
        }
        SetPlace {
            size,
            selects: *selects,
            state,
            memory_seed: source.next_number() | 1,
        }
    });
    places.collect()
}

fn noise(source: &mut RandomSource, devices: usize) -> Script {
    let mut script = Script::new();
    for _ in 0..600 {
        let event = match source.below(20) {
            0..=1 => START,
            2 => source.below(8 + 2 * devices) as u8,
            3..=4 => source.between(8, 7 + 2 * devices) as u8,
            5..=11 => CLOCK_LOW,
            _ => CLOCK_HIGH,
        };
        script.event(event);
    }
    script.power_returned();
    script
}

/// Transactions to any selects; about one event in `rarity` has a disturbance
/// before it.
fn traffic(source: &mut RandomSource, places: &[SetPlace], rarity: usize) -> Script {
    let mut script = Script::new();
    let last_edge = 7 + 2 * places.len();
    while script.events.len() < 600 {
        let selects = if source.chance(80) {
            places[source.below(places.len())].selects
        } else {
            source.below(4) as u8
        };
        let size = source.pick(&SIZES);
        let mut all = any_transactions(source, size);
        let (_, chosen) = all.remove(source.below(all.len()));
        for event in addressed_to(selects, &chosen).events {
            if source.chance(20) {
                script.event(source.between(8, last_edge) as u8);
            }
            if source.below(rarity) == 0 {
                script.event(source.pick(&[0, 1, 4, 5, 6, 7, 7]));
            }
            script.event(event);
        }
        if source.chance(80) {
            script.stop();
        }
        any_edges(source, &mut script, 2);
        script.power_returned();
    }
    read_everything(&mut script);
    script
}
