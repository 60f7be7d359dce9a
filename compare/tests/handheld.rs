// SPDX-License-Identifier: Apache-2.0
//! Two masters, on both programs: every ask, every short call by every master under every holder, and long sessions in which
//! two masters ask and call in turns. Number, bus byte, image, memory and answers are the same after each act.

use compare::{archive, image};
use second::generate::random;
use second::two_masters::{ask, call};
use second::{Device, State};

/// What a byte past the answers holds before and after.
const FILL: u8 = 0xEE;

/// The same device and bus on both programs.
struct Both {
    state: State,
    memory: Vec<u8>,
    bus: u8,
    image: [u8; image::IMAGE_BYTES],
    lent: Vec<u8>,
    bus_byte: [u8; 1],
}

impl Both {
    fn of(device: &Device, bus: u8) -> Both {
        Both {
            state: State::of(device),
            memory: device.memory.clone(),
            bus,
            image: image::of(device),
            lent: device.memory.clone(),
            bus_byte: [bus],
        }
    }

    /// An ask; the number that both programs give.
    fn ask(&mut self, master: u8, name: &str) -> u64 {
        let number = archive::ask(&mut self.bus_byte, u64::from(master));
        let second = ask(self.bus, master);
        assert_eq!(
            number,
            u64::from(second.err().unwrap_or(0)),
            "{name}: number of an ask"
        );
        self.bus = second.unwrap_or(self.bus);
        self.hold(name);
        number
    }

    /// A call with so much room for answers; the number that both programs give.
    fn call(&mut self, master: u8, events: &[u8], room: usize, name: &str) -> u64 {
        let mut answers = vec![FILL; room];
        let ran = archive::call(
            &mut self.bus_byte,
            u64::from(master),
            &mut self.image,
            &mut self.lent,
            events,
            &mut answers,
        );
        let mut expected = vec![FILL; room];
        let second = call(
            self.bus,
            master,
            Some(self.state),
            &self.memory,
            events,
            room,
        );
        let (number, count) = match second {
            Err(number) => (number, 0),
            Ok(answered) => {
                expected[..events.len()].copy_from_slice(&answered.answers);
                self.bus = answered.bus;
                self.state = answered.state;
                self.memory = answered.memory;
                (0, events.len())
            }
        };
        assert_eq!(
            (ran.number, ran.count),
            (u64::from(number), count as u64),
            "{name}"
        );
        assert_eq!(answers, expected, "{name}: answers");
        self.hold(name);
        ran.number
    }

    /// What both programs hold is the same.
    fn hold(&self, name: &str) {
        assert_eq!(self.bus_byte, [self.bus], "{name}: bus");
        assert_eq!(
            self.image,
            image::of(&self.state.device(self.memory.clone())),
            "{name}: image"
        );
        assert!(self.lent == self.memory, "{name}: memory");
    }
}

#[test]
fn every_bus_byte_and_every_master_asks() {
    let mut numbers = [0; 8];
    for bus in 0..=u8::MAX {
        for master in 0..=u8::MAX {
            let mut byte = [bus];
            let number = archive::ask(&mut byte, u64::from(master));
            let second = ask(bus, master);
            assert_eq!(
                number,
                u64::from(second.err().unwrap_or(0)),
                "{bus} {master}"
            );
            assert_eq!(byte, [second.unwrap_or(bus)], "{bus} {master}");
            numbers[number as usize] += 1;
        }
    }
    assert_eq!((numbers[0], numbers[7]), (4, 2));
}

/// Every list of up to four events, one of which may be unknown, with room and without.
#[test]
fn every_short_call() {
    let device = Device::fresh();
    let mut numbers = [0_u64; 8];
    for length in 0..=4_u32 {
        for list in 0..9_u32.pow(length) {
            let events: Vec<u8> = (0..length)
                .map(|place| (list / 9_u32.pow(place) % 9) as u8)
                .collect();
            for bus in 0..=3 {
                for master in 0..=3 {
                    let name = format!("{events:?} by {master} under {bus}");
                    let room = events.len().saturating_sub((list % 5 == 0) as usize);
                    let number = Both::of(&device, bus).call(master, &events, room, &name);
                    numbers[number as usize] += 1;
                }
            }
        }
    }
    assert!(
        [0, 2, 3, 4, 7].iter().all(|number| numbers[*number] > 100),
        "{numbers:?}"
    );
}

/// Random events, cut into calls of one to forty; a master asks before most of them.
#[test]
fn long_sessions() {
    let mut numbers = [0_u64; 8];
    let mut asked = [0_u64; 8];
    let mut choice = 0x2545_F491_4F6C_DD1D_u64;
    let mut choose = |most: u64| {
        choice ^= choice << 13;
        choice ^= choice >> 7;
        choice ^= choice << 17;
        choice % most
    };
    for list in random(8, 300_000) {
        let name = format!("{}/{}", list.family, list.name);
        let mut both = Both::of(&list.device(), 0);
        let mut rest = &list.events[..];
        while !rest.is_empty() {
            let (events, after) = rest.split_at(rest.len().min(1 + choose(40) as usize));
            rest = after;
            let master = 1 + choose(2) as u8;
            if choose(4) > 0 {
                asked[both.ask(master, &name) as usize] += 1;
            }
            let room = events.len().saturating_sub((choose(50) == 0) as usize);
            numbers[both.call(master, events, room, &name) as usize] += 1;
        }
    }
    assert!(asked[0] > 1_000 && asked[7] > 100, "{asked:?}");
    assert!(
        numbers[0] > 1_000 && numbers[7] > 1_000 && numbers[4] > 10,
        "{numbers:?}"
    );
}
