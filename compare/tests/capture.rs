// SPDX-License-Identifier: Apache-2.0
//! Captures on both programs: the same verdict on every file.
//!
//! Files are recordings of the second program, in every order of the four entries, and then: each kind of fault at each
//! entry, all pairs of faults, every cut of the table and beside every border, overlaps by one byte on each side, empty
//! bodies at every place, each answer wrong, random tables, and the limit of 60 KiB.

use compare::captures::{file_of, hold, input_and_output, number_in, orders, put, recorded, KINDS};
use compare::lists::Case;
use second::capture::{Verdict, KIND_ANSWERS, KIND_EVENTS, MOST_FILE_BYTES, TABLE_BYTES};
use second::generate::{handed_in, random};

/// A recording of 40 events, in the middle of a longer run: a transfer may be under way at its begin.
fn short_parts() -> [Vec<u8>; 4] {
    let list = random(11, 20_000)
        .into_iter()
        .find(|list| list.events.len() >= 100)
        .expect("a list of 100 events");
    let mut device = list.device();
    device.run(&list.events[..60]);
    recorded(&Case {
        name: list.name,
        device,
        events: list.events[60..100].to_vec(),
    })
}

/// Changes to a file that may make an entry faulty: its number, and what to do with the file.
type Change = Box<dyn Fn(&mut Vec<u8>)>;

fn change(work: impl Fn(&mut Vec<u8>) + 'static) -> Change {
    Box::new(work)
}

/// Every kind of fault at an entry, by itself and with each other entry; some are none in some orders.
fn faults_at(entry: usize) -> Vec<Change> {
    let mut faults = vec![];
    for kind in [0, 5, 6, 257, u32::MAX] {
        faults.push(change(move |file| put(file, entry, 0, kind)));
    }
    for kind in KINDS {
        faults.push(change(move |file| put(file, entry, 0, kind)));
    }
    for offset in [0, 47, 48, u32::MAX, u32::MAX - 63, 1 << 31] {
        faults.push(change(move |file| put(file, entry, 1, offset)));
    }
    for length in [0, 1, 63, 64, 65, 8191, 8193, u32::MAX] {
        faults.push(change(move |file| put(file, entry, 2, length)));
    }
    for step in [u32::MAX, 1] {
        for which in [1, 2] {
            faults.push(change(move |file| {
                let number = number_in(file, entry, which).wrapping_add(step);
                put(file, entry, which, number);
            }));
        }
    }
    faults.push(change(move |file| {
        let from = number_in(file, entry, 1) as usize;
        if let Some(byte) = file.get_mut(from) {
            *byte = 0xFF;
        }
    }));
    for other in (0..4).filter(|other| *other != entry) {
        for (reach, back) in [(0, 0), (1, 0), (0, 1)] {
            faults.push(change(move |file| {
                let (from, size) = (number_in(file, other, 1), number_in(file, other, 2));
                let own = number_in(file, entry, 2);
                let offset = match (reach, back) {
                    (1, _) => from.wrapping_add(size).wrapping_sub(1),
                    (_, 1) => from.wrapping_add(1).wrapping_sub(own),
                    _ => from,
                };
                put(file, entry, 1, offset);
            }));
        }
    }
    faults
}

#[test]
fn each_fault_at_each_entry_in_every_order() {
    let parts = short_parts();
    let mut named = [0; 5];
    for order in orders() {
        for gap in [0, 1, 5] {
            let good = file_of(&parts, order, gap);
            assert!(matches!(hold("good", &good), Verdict::AllAgree(_)));
            for entry in 0..4 {
                for fault in faults_at(entry) {
                    let mut file = good.clone();
                    fault(&mut file);
                    if let Verdict::FaultyEntry(faulty) = hold("fault", &file) {
                        named[faulty] += 1;
                    }
                }
            }
        }
    }
    assert!(named[1..].iter().all(|count| *count > 1_000), "{named:?}");
}

#[test]
fn all_pairs_of_faults() {
    let parts = short_parts();
    let mut files = 0;
    for order in [[1, 2, 3, 4], [4, 3, 2, 1], [3, 1, 4, 2]] {
        let good = file_of(&parts, order, 2);
        let faults: Vec<Change> = (0..4).flat_map(faults_at).collect();
        for one in &faults {
            for other in &faults {
                let mut file = good.clone();
                one(&mut file);
                other(&mut file);
                hold("two faults", &file);
                files += 1;
            }
        }
    }
    assert!(files > 30_000, "{files}");
}

#[test]
fn every_cut_of_the_table_and_beside_every_border() {
    let parts = short_parts();
    let empty = [parts[0].clone(), parts[1].clone(), vec![], vec![]];
    for order in orders() {
        for good in [file_of(&parts, order, 3), file_of(&empty, order, 3)] {
            let mut lengths: Vec<usize> = (0..=TABLE_BYTES + 1).collect();
            for entry in 0..4 {
                let from = number_in(&good, entry, 1) as usize;
                let to = from + number_in(&good, entry, 2) as usize;
                lengths.extend([from - 1, from, from + 1, to - 1, to, to + 1]);
            }
            for length in lengths.into_iter().filter(|length| *length <= good.len()) {
                hold("cut", &good[..length]);
            }
            // Two entries whose bodies are empty are sound in a file that has only them.
            let mut early = good.clone();
            for entry in 0..4 {
                if number_in(&good, entry, 2) == 0 {
                    put(&mut early, entry, 1, 0);
                }
            }
            for length in 0..=TABLE_BYTES {
                hold("cut, empty bodies first", &early[..length]);
            }
        }
    }
}

/// Two bodies of every small length, one byte apart, touching, or overlapping by one, on each side.
#[test]
fn overlaps_by_one_byte_on_each_side() {
    let parts = short_parts();
    for order in orders() {
        let good = file_of(&parts, order, 40);
        for entry in 0..4 {
            for other in (0..4).filter(|other| *other != entry) {
                let (from, size) = (number_in(&good, other, 1), number_in(&good, other, 2));
                let own = number_in(&good, entry, 2);
                for offset in [from + size - 1, from + size, from + size + 1] {
                    let mut file = good.clone();
                    put(&mut file, entry, 1, offset);
                    hold("after", &file);
                }
                for end in [from - 1, from, from + 1] {
                    let mut file = good.clone();
                    put(&mut file, entry, 1, end.wrapping_sub(own));
                    hold("before", &file);
                }
            }
            for offset in 40..60 {
                let mut file = good.clone();
                put(&mut file, entry, 1, offset);
                hold("beside the table", &file);
            }
        }
    }
}

#[test]
fn empty_bodies_at_every_place() {
    let mut parts = short_parts();
    (parts[2], parts[3]) = (vec![], vec![]);
    let good = file_of(&parts, [3, 1, 2, 4], 1);
    let mut agree = 0;
    for place in 0..=good.len() as u32 + 2 {
        for entry in [0, 3] {
            let mut file = good.clone();
            put(&mut file, entry, 1, place);
            agree += u32::from(hold("empty body", &file) == Verdict::AllAgree(0));
        }
    }
    assert_eq!(agree, 2 * (good.len() as u32 + 1));
}

/// Each answer wrong, in each bit, whatever follows; the first is named with both bytes.
#[test]
fn a_wrong_answer_at_the_first_a_middle_and_the_last_place() {
    let parts = short_parts();
    for place in 0..parts[3].len() {
        for bit in 0..8 {
            let mut wrong = parts.clone();
            wrong[3][place] ^= 1 << bit;
            for later in &mut wrong[3][place + 1..] {
                *later ^= 0x0F;
            }
            let verdict = hold("wrong answer", &file_of(&wrong, [2, 4, 1, 3], 0));
            let expected = Verdict::Differs {
                place,
                recorded: wrong[3][place],
                right: parts[3][place],
            };
            assert_eq!(verdict, expected);
        }
    }
}

/// Recordings of many runs, as they are, and with one answer wrong at the first, a middle and the last place.
#[test]
fn recordings_of_many_runs() {
    let mut files = 0;
    let random = random(43, 400_000).into_iter().map(|list| Case::of(&list));
    let given = handed_in().into_iter().step_by(7);
    let given = given.map(|list| Case::handed_in(&list));
    let orders = orders();
    for (index, mut case) in random.chain(given).enumerate() {
        case.events.truncate(26_000);
        let parts = recorded(&case);
        let order = orders[index % orders.len()];
        let count = case.events.len();
        assert_eq!(
            hold(&case.name, &file_of(&parts, order, 0)),
            Verdict::AllAgree(count)
        );
        files += 1;
        let places: &[usize] = if count == 0 {
            &[]
        } else {
            &[0, count / 2, count - 1]
        };
        for place in places {
            let mut wrong = parts.clone();
            wrong[3][*place] ^= 1 << (index % 4);
            let verdict = hold(&case.name, &file_of(&wrong, order, 0));
            assert!(matches!(verdict, Verdict::Differs { place: found, .. } if found == *place));
            files += 1;
        }
    }
    assert!(files > 2_000, "{files}");
}

/// Numbers that look random and are the same on every machine.
struct Numbers(u64);

impl Numbers {
    fn below(&mut self, bound: u64) -> u64 {
        self.0 = self
            .0
            .wrapping_mul(6_364_136_223_846_793_005)
            .wrapping_add(1);
        (self.0 >> 33) % bound
    }
}

#[test]
fn random_tables() {
    let good = file_of(&short_parts(), [1, 2, 3, 4], 4);
    let mut numbers = Numbers(47);
    let mut sound = 0;
    for _ in 0..100_000 {
        let mut file = good.clone();
        for _ in 0..=numbers.below(3) {
            let (entry, which) = (numbers.below(4) as usize, numbers.below(3) as usize);
            let from = number_in(&good, numbers.below(4) as usize, numbers.below(3) as usize);
            let near = from.wrapping_add(numbers.below(5) as u32).wrapping_sub(2);
            put(&mut file, entry, which, near);
        }
        if numbers.below(4) == 0 {
            file.truncate(numbers.below(file.len() as u64 + 1) as usize);
        }
        let verdict = hold("random table", &file);
        sound += u32::from(!matches!(verdict, Verdict::FaultyEntry(_)));
    }
    assert!((1_000..60_000).contains(&sound), "{sound}");
}

#[test]
fn the_limit_of_60_kib() {
    let mut file = file_of(&short_parts(), [1, 2, 3, 4], 0);
    for length in MOST_FILE_BYTES - 1..MOST_FILE_BYTES + 3 {
        file.resize(length, 0);
        let is_long = hold("limit", &file) == Verdict::TooLong;
        assert_eq!(is_long, length > MOST_FILE_BYTES);
    }
    put(&mut file, 0, 0, 9);
    assert_eq!(hold("long and faulty", &file), Verdict::TooLong);
    hold("nothing at all", &[]);
}

/// `rt` runs the proved program on `crates/main_judge/stdin` and holds it to `stdout`; both are the second program's.
#[test]
fn stored_files_are_the_second_programs() {
    let (input, output) = input_and_output();
    assert!(input.len() > 60_000 && output.contains("differs"));
    assert!(
        include_bytes!("../../crates/main_judge/stdin")[..] == input[..],
        "stdin is another recording"
    );
    assert_eq!(include_str!("../../crates/main_judge/stdout"), output);
}

/// Events and answers that are unequally many fault the later of the two.
#[test]
fn unequal_counts_fault_the_later() {
    let parts = short_parts();
    for order in orders() {
        let later = order
            .iter()
            .rposition(|kind| [KIND_EVENTS, KIND_ANSWERS].contains(kind));
        for which in [2, 3] {
            let mut uneven = parts.clone();
            uneven[which].pop();
            let verdict = hold("uneven", &file_of(&uneven, order, 0));
            assert_eq!(verdict, Verdict::FaultyEntry(later.unwrap() + 1));
        }
    }
}
