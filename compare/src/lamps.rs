// SPDX-License-Identifier: Apache-2.0
//! The lamps on the proved program and on the second program, and lists that try them one thing at a time.

use crate::lists::Case;
use crate::{archive, image};
use second::proving_record::{ProvingRecord, FIRST_LAMP};
use second::Device;

const START: u8 = 0;
const STOP: u8 = 1;
const LOW: u8 = 2;
const HIGH: u8 = 3;
const TICK: u8 = 4;

/// The bytes of a proving record.
pub const RECORD_BYTES: usize = 20;

/// The eight reports as one byte, bit k for lamp k.
fn byte_of(reports: [bool; 8]) -> u8 {
    (0..8).map(|lamp| u8::from(reports[lamp]) << lamp).sum()
}

/// The second program's report after each event of a case.
pub fn reports_of(case: &Case) -> Vec<u8> {
    let mut record = ProvingRecord::new();
    let reports = record.run(&mut case.device.clone(), &case.events);
    reports.into_iter().map(byte_of).collect()
}

/// Image, memory, answers and record that the proved program leaves, and its last report.
type Left = (Vec<u8>, Vec<u8>, Vec<u8>, [u8; RECORD_BYTES], u64);

/// The case on the proved program, in calls of at most so many events; each call's report is held to the second
/// program's.
fn by_archive(case: &Case, most: usize, reports: &[u8]) -> Left {
    let mut image = image::of(&case.device).to_vec();
    let mut memory = case.device.memory.clone();
    let mut answers = vec![0xEE; case.events.len()];
    let mut record = [0; RECORD_BYTES];
    let (mut done, mut last) = (0, 0);
    for (events, answers) in case.events.chunks(most).zip(answers.chunks_mut(most)) {
        let shown = archive::lamps(&mut image, &mut memory, events, answers, &mut record);
        done += events.len();
        let expected = u64::from(reports[done - 1]);
        assert_eq!(
            (shown.number, shown.report),
            (0, expected),
            "{}: after {done} events",
            case.name
        );
        last = shown.report;
    }
    (image, memory, answers, record, last)
}

/// Holds the proved program to the second program on one case: the report after each event, and what whole lists and
/// pieces leave. Returns how often the report changed.
pub fn hold(case: &Case) -> u64 {
    let reports = reports_of(case);
    let whole = by_archive(case, usize::MAX, &reports);
    for most in [1, 7] {
        assert!(by_archive(case, most, &reports) == whole, "{}", case.name);
    }
    let mut device = case.device.clone();
    assert_eq!(device.run(&case.events), whole.2, "{}", case.name);
    assert_eq!(image::of(&device)[..], whole.0[..], "{}", case.name);
    assert!(device.memory == whole.1, "{}: memory", case.name);
    reports.windows(2).filter(|two| two[0] != two[1]).count() as u64
}

/// Events of a master, one after the other.
#[derive(Clone, Default)]
pub struct Master {
    pub events: Vec<u8>,
}

impl Master {
    fn add(mut self, events: &[u8]) -> Master {
        self.events.extend(events);
        self
    }

    pub fn start(self) -> Master {
        self.add(&[START])
    }

    pub fn stop(self) -> Master {
        self.add(&[STOP])
    }

    pub fn ticks(self, count: usize) -> Master {
        self.add(&vec![TICK; count])
    }

    /// Eight clocks of a byte.
    pub fn bits(self, byte: u8) -> Master {
        let bits: Vec<u8> = (0..8)
            .map(|bit| if byte << bit & 0x80 == 0 { LOW } else { HIGH })
            .collect();
        self.add(&bits)
    }

    /// A byte that the master sends; the line is released at its ninth clock.
    pub fn byte(self, byte: u8) -> Master {
        self.bits(byte).add(&[HIGH])
    }

    /// Bytes that the master asks for; the last is not acknowledged.
    pub fn read(mut self, count: usize) -> Master {
        for left in (0..count).rev() {
            self = self.bits(0xFF).add(&[if left == 0 { HIGH } else { LOW }]);
        }
        self
    }

    pub fn bytes(mut self, bytes: &[u8]) -> Master {
        for byte in bytes {
            self = self.byte(*byte);
        }
        self
    }

    /// A Start, the slave byte of a memory write, an address.
    pub fn address(self, address: u16) -> Master {
        let [high, low] = address.to_be_bytes();
        self.start().bytes(&[0xA0, high, low])
    }

    /// A whole write.
    pub fn write(self, address: u16, bytes: &[u8]) -> Master {
        self.address(address).bytes(bytes).stop()
    }

    /// A read that sets its address, without its Stop.
    pub fn read_at(self, address: u16, count: usize) -> Master {
        self.address(address).start().byte(0xA1).read(count)
    }

    /// Other events behind these.
    pub fn then(self, other: &Master) -> Master {
        self.add(&other.events)
    }

    /// The case of these events on a fresh device.
    pub fn case(self, name: String) -> Case {
        Case {
            name,
            device: Device::fresh(),
            events: self.events,
        }
    }
}

/// Values for the eight lamps, 1 among them, written and proved by one whole read.
pub fn proved() -> Master {
    Master::default()
        .write(FIRST_LAMP, &[1, 0, 1, 2, 1, 3, 0xFF, 1])
        .read_at(FIRST_LAMP, 8)
        .stop()
}

/// Whole transactions of every kind: writes and reads of memory and companion, and a read from the current address.
pub fn transactions() -> Vec<Master> {
    let new = Master::default;
    vec![
        new().write(FIRST_LAMP + 1, &[1, 0]),
        new().read_at(FIRST_LAMP, 2).stop(),
        new().start().byte(0xA1).read(2).stop(),
        new().start().bytes(&[0xD0, 0x02, 0x30]).stop(),
        new()
            .start()
            .bytes(&[0xD0, 0x02])
            .start()
            .byte(0xD1)
            .read(2)
            .stop(),
        new()
            .read_at(FIRST_LAMP + 2, 1)
            .start()
            .byte(0xA1)
            .read(1)
            .stop(),
    ]
}

/// Bytes that the device does not acknowledge, after what leads to them: a slave byte that names nobody, a companion
/// address that is none, a protected data byte, a date that does not exist. The last eight clocks are the byte's.
pub fn refused_bytes() -> Vec<Master> {
    let new = Master::default;
    let companion = |bytes: &[u8]| new().start().byte(0xD0).bytes(bytes).stop();
    let protected = companion(&[0x0E, 0x18]).then(&proved());
    let bad_date = companion(&[0x00, 0x02]).then(&companion(&[0x07, 0x13]));
    let mut all: Vec<Master> = [0x00, 0xA2, 0xD2, 0xFF]
        .into_iter()
        .map(|slave| proved().start().bits(slave))
        .collect();
    all.push(proved().start().byte(0xD0).bits(0x0F));
    all.push(protected.address(FIRST_LAMP).bits(0));
    all.push(
        bad_date
            .then(&proved())
            .start()
            .bytes(&[0xD0, 0x00])
            .bits(0),
    );
    all
}
