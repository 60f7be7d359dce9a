// SPDX-License-Identifier: Apache-2.0
//! 02, number 10: "A checker walks the recorded events in order ... and names the
//! first answer that our rules do not give, or says that all agree."

mod image;

use image::{decode, encode};
use second::capture::{
    entry, judge, write_capture, Part, Verdict, KIND_ANSWERS, KIND_EVENTS, KIND_IMAGE, KIND_MEMORY,
};
use second::generate::{self, RandomSource};
use second::{Device, State};
use Verdict::{AllAgree, Differs, FaultyEntry, TooLong};

/// All orders of four places.
fn orders() -> Vec<[usize; 4]> {
    let mut orders = Vec::new();
    for number in 0..256_usize {
        let order = [number & 3, number >> 2 & 3, number >> 4 & 3, number >> 6];
        if (0..4).all(|place| order.contains(&place)) {
            orders.push(order);
        }
    }
    orders
}

const PLAIN_ORDER: [usize; 4] = [0, 1, 2, 3];

/// The four parts of a recording: image, memory, events, answers.
fn recording(device: &Device, events: &[u8]) -> [Part; 4] {
    let mut run = device.clone();
    let answers = run.run(events);
    [
        Part::new(KIND_IMAGE, &encode(&State::of(device))),
        Part::new(KIND_MEMORY, &device.memory),
        Part::new(KIND_EVENTS, events),
        Part::new(KIND_ANSWERS, &answers),
    ]
}

/// "One exact run" of 01.
fn exact_run() -> [Part; 4] {
    recording(&Device::fresh(), &[0, 3, 2, 3, 2, 2, 2, 2, 2, 3, 1])
}

fn ordered(parts: &[Part; 4], order: [usize; 4]) -> [Part; 4] {
    order.map(|place| parts[place].clone())
}

/// The verdict on parts in table order whose bodies lie in the same order.
fn verdict(parts: &[Part]) -> Verdict {
    let order: Vec<usize> = (0..parts.len()).collect();
    judge(&write_capture(parts, &order), decode)
}

/// A number of the table: entry 1 to 4, field 0 kind, 1 offset, 2 length.
fn set_number(file: &mut [u8], entry: usize, field: usize, number: u32) {
    let place = 12 * (entry - 1) + 4 * field;
    file[place..place + 4].copy_from_slice(&number.to_le_bytes());
}

fn number_in(file: &[u8], entry: usize, field: usize) -> u32 {
    let place = 12 * (entry - 1) + 4 * field;
    u32::from_le_bytes([
        file[place],
        file[place + 1],
        file[place + 2],
        file[place + 3],
    ])
}

// ----- the form of a file -----

/// The exact run as a file, byte by byte where it matters.
#[test]
fn a_file_written_out() {
    let file = write_capture(&exact_run(), &PLAIN_ORDER);
    let table = [
        [1, 0, 0, 0, 48, 0, 0, 0, 64, 0, 0, 0],
        [2, 0, 0, 0, 112, 0, 0, 0, 0, 0x20, 0, 0],
        [3, 0, 0, 0, 0x70, 0x20, 0, 0, 11, 0, 0, 0],
        [4, 0, 0, 0, 0x7B, 0x20, 0, 0, 11, 0, 0, 0],
    ];
    assert_eq!(file[..48], table.concat());
    assert_eq!(file.len(), 48 + 64 + 8192 + 11 + 11);
    let answers = [5, 5, 4, 5, 4, 4, 4, 4, 4, 4, 5];
    assert_eq!(file[file.len() - 11..], answers);
    assert_eq!(judge(&file, decode), AllAgree(11));
    assert_eq!(entry(1, 48, 64), table[0]);
}

#[test]
fn every_order_of_entries_and_bodies_with_gaps() {
    let mut parts = exact_run();
    for (place, part) in parts.iter_mut().enumerate() {
        part.gap = 5 * place + 1;
    }
    assert_eq!(orders().len(), 24);
    for table_order in orders() {
        for body_order in orders() {
            let parts = ordered(&parts, table_order);
            let mut file = write_capture(&parts, &body_order);
            assert_eq!(judge(&file, decode), AllAgree(11));
            file.extend([0xAA; 9]);
            assert_eq!(judge(&file, decode), AllAgree(11));
        }
    }
}

#[test]
fn images_of_the_tests_go_both_ways() {
    for list in generate::handed_in_random(10, 20_000) {
        let mut device = list.device();
        for event in list.events {
            device.event(event);
            let state = State::of(&device);
            assert_eq!(decode(&encode(&state)), Some(state));
        }
    }
}

// ----- the events judged -----

#[test]
fn recordings_agree() {
    let mut judged = 0;
    for list in generate::handed_in_random(11, 60_000) {
        let events = &list.events[..list.events.len().min(20_000)];
        let parts = recording(&list.device(), events);
        assert_eq!(verdict(&parts), AllAgree(events.len()));
        judged += events.len();
    }
    assert!(judged > 40_000);
}

/// A recording that begins inside a transfer.
#[test]
fn recordings_may_begin_inside_a_transfer() {
    for list in generate::handed_in_random(12, 6_000) {
        let mut device = list.device();
        let (before, after) = list.events.split_at(list.events.len() / 2);
        device.run(before);
        let parts = recording(&device, after);
        assert_eq!(verdict(&parts), AllAgree(after.len()));
    }
}

#[test]
fn no_events_agree() {
    for order in orders() {
        let parts = ordered(&recording(&Device::fresh(), &[]), order);
        assert_eq!(verdict(&parts), AllAgree(0));
    }
}

/// Every answer of the exact run replaced by every other byte.
#[test]
fn every_wrong_answer_is_named() {
    let parts = exact_run();
    for place in 0..11 {
        let right = parts[3].body[place];
        for recorded in 0..=255 {
            let mut wrong = parts.clone();
            wrong[3].body[place] = recorded;
            let expected = Differs {
                place,
                recorded,
                right,
            };
            let found = verdict(&wrong);
            if recorded == right {
                assert_eq!(found, AllAgree(11));
            } else {
                assert_eq!(found, expected);
            }
        }
    }
}

/// "the first answer that our rules do not give"
#[test]
fn the_first_wrong_answer_is_named() {
    let parts = exact_run();
    for first in 0..11 {
        for second in first..11 {
            let mut wrong = parts.clone();
            wrong[3].body[second] ^= 0x04;
            wrong[3].body[first] = 0x99;
            let expected = Differs {
                place: first,
                recorded: 0x99,
                right: parts[3].body[first],
            };
            assert_eq!(verdict(&wrong), expected);
        }
    }
}

/// Memory and image matter: read back a byte of the memory in the file.
#[test]
fn the_memory_and_the_image_are_used() {
    let mut device = Device::fresh();
    device.memory[0x1234] = 0x5A;
    let mut script = generate::Script::new();
    script.memory_read(0x1234, 1);
    let mut parts = recording(&device, &script.events);
    assert_eq!(verdict(&parts), AllAgree(48));
    parts[1].body[0x1234] = 0x5B;
    let expected = Differs {
        place: 45,
        recorded: 4,
        right: 5,
    };
    assert_eq!(verdict(&parts), expected);
    parts[1].body[0x1234] = 0x5A;
    // AL/SW set, AEN not: the pin is released
    parts[0].body[0x0E] = 0x80;
    let expected = Differs {
        place: 0,
        recorded: 5,
        right: 1,
    };
    assert_eq!(verdict(&parts), expected);
}

// ----- too long -----

#[test]
fn over_60_kib_is_too_long() {
    let mut file = write_capture(&exact_run(), &PLAIN_ORDER);
    file.resize(61_440, 0);
    assert_eq!(judge(&file, decode), AllAgree(11));
    file.push(0);
    assert_eq!(judge(&file, decode), TooLong);
    assert_eq!(judge(&vec![0; 61_440], decode), FaultyEntry(1));
    assert_eq!(judge(&vec![0; 61_441], decode), TooLong);
}

/// The longest list of events that fits.
#[test]
fn the_longest_recording() {
    let room = 61_440 - 48 - 64 - 8192;
    let mut parts = recording(&Device::fresh(), &vec![4; room / 2]);
    assert_eq!(verdict(&parts), AllAgree(26_568));
    parts[2].gap = 1;
    assert_eq!(verdict(&parts), TooLong);
}

// ----- faulty entries -----

/// "cut short": the file ends inside the entry.
#[test]
fn entries_cut_short() {
    // empty bodies need no place, so the entries before the cut are good
    let mut table = entry(KIND_EVENTS, 0, 0);
    table.extend(entry(KIND_ANSWERS, 0, 0));
    table.extend(entry(KIND_IMAGE, 48, 64));
    table.extend(entry(KIND_MEMORY, 112, 8192));
    for length in 0..=48 {
        let expected = (length / 12 + 1).min(3);
        assert_eq!(judge(&table[..length], decode), FaultyEntry(expected));
    }
    table.extend(encode(&State::of(&Device::fresh())));
    assert_eq!(judge(&table, decode), FaultyEntry(4));
    table.extend([0; 8191]);
    assert_eq!(judge(&table, decode), FaultyEntry(4));
    table.push(0);
    assert_eq!(judge(&table, decode), AllAgree(0));
}

#[test]
fn unknown_kinds() {
    for number in 1..=4 {
        for kind in [0, 5, 6, 255, 256, 0x0100_0001, 0x0300_0000, u32::MAX] {
            let mut parts = exact_run();
            parts[number - 1].kind = kind;
            assert_eq!(verdict(&parts), FaultyEntry(number), "kind {kind}");
        }
    }
}

/// "repeated kind": the later entry is faulty, whatever it holds.
#[test]
fn repeated_kinds() {
    for order in orders() {
        let parts = ordered(&exact_run(), order);
        for later in 1..4 {
            for earlier in 0..later {
                let mut repeated = parts.clone();
                repeated[later] = parts[earlier].clone();
                assert_eq!(verdict(&repeated), FaultyEntry(later + 1));
                repeated[later].body = parts[later].body.clone();
                assert_eq!(verdict(&repeated), FaultyEntry(later + 1));
            }
        }
    }
}

/// "running past the end", by the exact sum.
#[test]
fn bodies_past_the_end() {
    for order in orders() {
        for number in 1..=4 {
            let parts = ordered(&exact_run(), order);
            // this body lies last
            let file = write_capture(&parts, &order_with_last(number - 1));
            assert_eq!(judge(&file, decode), AllAgree(11));
            let one_less = &file[..file.len() - 1];
            assert_eq!(judge(one_less, decode), FaultyEntry(number));
            let length = number_in(&file, number, 2);
            for offset in [
                file.len() as u32,
                u32::MAX - length,
                u32::MAX - length + 1,
                u32::MAX - length / 2,
                u32::MAX,
            ] {
                let mut changed = file.clone();
                set_number(&mut changed, number, 1, offset);
                assert_eq!(judge(&changed, decode), FaultyEntry(number));
            }
            for length in [length + 1, u32::MAX - 47, u32::MAX] {
                let mut changed = file.clone();
                set_number(&mut changed, number, 2, length);
                assert_eq!(judge(&changed, decode), FaultyEntry(number));
            }
        }
    }
}

fn order_with_last(last: usize) -> Vec<usize> {
    (0..4)
        .filter(|place| *place != last)
        .chain([last])
        .collect()
}

/// An empty body may lie anywhere up to the end of the file, but not past it.
#[test]
fn empty_bodies() {
    let file = write_capture(&recording(&Device::fresh(), &[]), &PLAIN_ORDER);
    let length = file.len() as u32;
    for number in [3, 4] {
        for offset in [0, 1, 47, 48, 49, 112, 5_000, length - 1, length] {
            let mut changed = file.clone();
            set_number(&mut changed, number, 1, offset);
            assert_eq!(judge(&changed, decode), AllAgree(0), "offset {offset}");
        }
        for offset in [length + 1, u32::MAX] {
            let mut changed = file.clone();
            set_number(&mut changed, number, 1, offset);
            assert_eq!(judge(&changed, decode), FaultyEntry(number));
        }
    }
}

/// "overlapping the table"
#[test]
fn bodies_over_the_table() {
    for order in orders() {
        for number in 1..=4 {
            let parts = ordered(&exact_run(), order);
            let file = write_capture(&parts, &PLAIN_ORDER);
            for offset in [0, 12, 36, 46, 47] {
                let mut changed = file.clone();
                set_number(&mut changed, number, 1, offset);
                assert_eq!(judge(&changed, decode), FaultyEntry(number));
            }
        }
    }
}

/// "overlapping ... an earlier entry's body": one byte of it is enough.
#[test]
fn bodies_over_an_earlier_body() {
    let mut parts = exact_run();
    for part in parts.iter_mut() {
        part.gap = 8192;
    }
    for order in orders() {
        let parts = ordered(&parts, order);
        let file = write_capture(&parts, &PLAIN_ORDER);
        assert_eq!(judge(&file, decode), AllAgree(11));
        for later in 2..=4 {
            for earlier in 1..later {
                check_overlaps(&file, earlier, later);
            }
        }
    }
}

fn check_overlaps(file: &[u8], earlier: usize, later: usize) {
    let (offset, length) = (number_in(file, earlier, 1), number_in(file, earlier, 2));
    let own_length = number_in(file, later, 2);
    let mut changed = file.to_vec();
    for overlapping in [
        offset + length - 1,
        offset + length / 2,
        offset,
        offset - own_length + 1,
    ] {
        set_number(&mut changed, later, 1, overlapping);
        assert_eq!(judge(&changed, decode), FaultyEntry(later));
    }
    // a body that only touches the earlier one is no overlap; the gap's bytes
    // will do for a memory that no event reads
    if number_in(file, later, 0) == KIND_MEMORY {
        set_number(&mut changed, later, 1, offset - own_length);
        assert_eq!(judge(&changed, decode), AllAgree(11));
    }
}

/// Bodies that touch are good: the files without gaps have them. Here the
/// answers are moved by one byte into what lies on either side.
#[test]
fn bodies_that_touch() {
    let parts = exact_run();
    for body_order in orders() {
        let file = write_capture(&parts, &body_order);
        assert_eq!(judge(&file, decode), AllAgree(11));
        let offset = number_in(&file, 4, 1);
        let mut changed = file.clone();
        set_number(&mut changed, 4, 1, offset - 1);
        assert_eq!(judge(&changed, decode), FaultyEntry(4));
        if offset as usize + 11 < file.len() {
            set_number(&mut changed, 4, 1, offset + 1);
            assert_eq!(judge(&changed, decode), FaultyEntry(4));
        }
    }
}

/// "holding a part that 01 refuses": the image, by number 2.
#[test]
fn refused_images() {
    for order in orders() {
        let number = 1 + order
            .iter()
            .position(|place| *place == 0)
            .expect("it is there");
        let expected = FaultyEntry(number);
        let good = exact_run();
        let mut parts = good.clone();
        parts[0].body.pop();
        assert_eq!(verdict(&ordered(&parts, order)), expected);
        parts[0].body.clear();
        assert_eq!(verdict(&ordered(&parts, order)), expected);
        parts[0].body = [good[0].body.clone(), vec![0]].concat();
        assert_eq!(verdict(&ordered(&parts, order)), expected);
        parts[0].body = good[0].body.clone();
        parts[0].body[0x05] = 0x08;
        assert_eq!(verdict(&ordered(&parts, order)), expected);
    }
}

/// The length is asked even of a decoder that would take it.
#[test]
fn the_image_is_64_bytes_for_any_decoder() {
    let takes_all = |_: &[u8]| Some(State::of(&Device::fresh()));
    let takes_none = |_: &[u8]| None;
    let parts = exact_run();
    let file = write_capture(&parts, &PLAIN_ORDER);
    assert_eq!(judge(&file, takes_all), AllAgree(11));
    assert_eq!(judge(&file, takes_none), FaultyEntry(1));
    for length in [0, 63, 65, 128] {
        let mut parts = parts.clone();
        parts[0].body.resize(length, 0);
        let file = write_capture(&parts, &PLAIN_ORDER);
        assert_eq!(judge(&file, takes_all), FaultyEntry(1));
    }
}

/// The memory, by number 1; the events, by number 3.
#[test]
fn refused_memories_and_events() {
    for order in orders() {
        let place_of = |part| {
            1 + order
                .iter()
                .position(|place| *place == part)
                .expect("there")
        };
        for length in [0, 8191, 8193, 16_384] {
            let mut parts = exact_run();
            parts[1].body.resize(length, 0);
            assert_eq!(verdict(&ordered(&parts, order)), FaultyEntry(place_of(1)));
        }
        for place in 0..11 {
            for event in [8, 9, 255] {
                let mut parts = exact_run();
                parts[2].body[place] = event;
                // "before any event is judged"
                parts[3].body[0] ^= 1;
                let expected = FaultyEntry(place_of(2));
                assert_eq!(verdict(&ordered(&parts, order)), expected);
            }
        }
    }
}

/// "unequal counts of events and answers fault the later of the two"
#[test]
fn unequal_counts() {
    for order in orders() {
        let place_of = |part| {
            1 + order
                .iter()
                .position(|place| *place == part)
                .expect("there")
        };
        let expected = FaultyEntry(place_of(2).max(place_of(3)));
        for (part, length) in [(2, 0), (2, 10), (2, 12), (3, 0), (3, 10), (3, 12)] {
            let mut parts = exact_run();
            parts[part].body.resize(length, 5);
            assert_eq!(verdict(&ordered(&parts, order)), expected);
        }
    }
}

/// "named by its first faulty entry"
#[test]
fn the_first_faulty_entry_is_named() {
    for faults in 1..16_usize {
        let mut file = write_capture(&exact_run(), &PLAIN_ORDER);
        let faulty = |number: &usize| faults >> (number - 1) & 1 == 1;
        for number in (1..=4).filter(faulty) {
            let field = number % 3;
            set_number(&mut file, number, field, 0x7000_0000);
        }
        let first = (1..=4).find(faulty).expect("one is faulty");
        assert_eq!(judge(&file, decode), FaultyEntry(first));
    }
}

// ----- against another checker -----

/// Another checker: it marks byte by byte what is taken.
fn faulty_entry(file: &[u8]) -> Option<usize> {
    let mut taken = vec![false; file.len().max(48)];
    taken[..48].fill(true);
    let mut bodies: [Option<Vec<u8>>; 5] = Default::default();
    for number in 1..=4 {
        if file.len() < 12 * number {
            return Some(number);
        }
        let [kind, offset, length] = [0, 1, 2].map(|field| number_in(file, number, field) as usize);
        let good = (1..=4).contains(&kind)
            && bodies[kind].is_none()
            && offset + length <= file.len()
            && (offset..offset + length).all(|place| !taken[place]);
        if !good {
            return Some(number);
        }
        taken[offset..offset + length].fill(true);
        let body = file[offset..offset + length].to_vec();
        let refused = match kind {
            1 => decode(&body).is_none(),
            2 => length != 8192,
            3 => body.iter().max().is_some_and(|event| *event >= 8),
            _ => false,
        };
        bodies[kind] = Some(body);
        let unequal = match (&bodies[3], &bodies[4]) {
            (Some(events), Some(answers)) => kind >= 3 && events.len() != answers.len(),
            _ => false,
        };
        if refused || unequal {
            return Some(number);
        }
    }
    None
}

/// Files with some numbers of the table changed, some cut, some with bad parts.
#[test]
fn changed_files_against_another_checker() {
    let mut source = RandomSource::new(110);
    let all_orders = orders();
    let mut counts = [0; 5];
    for _ in 0..6_000 {
        let mut parts = exact_run();
        for part in parts.iter_mut() {
            part.gap = source.pick(&[0, 0, 1, 30]);
        }
        if source.chance(30) {
            let length = source.below(3);
            parts[2].body.truncate(length);
            parts[3].body.truncate(source.pick(&[length, length, 1]));
        }
        if source.chance(10) {
            let part = source.below(4);
            let place = source.below(parts[part].body.len().max(1));
            if let Some(byte) = parts[part].body.get_mut(place) {
                *byte = source.byte();
            }
        }
        let parts = ordered(&parts, source.pick(&all_orders));
        let mut file = write_capture(&parts, &source.pick(&all_orders));
        for _ in 0..source.below(3) {
            change_a_number(&mut source, &mut file);
        }
        if source.chance(10) {
            file.truncate(source.pick(&[0, 11, 12, 30, 47, 48, 100, 8_000]));
        }
        let found = judge(&file, decode);
        match faulty_entry(&file) {
            Some(number) => {
                assert_eq!(found, FaultyEntry(number));
                counts[number] += 1;
            }
            None => {
                assert!(matches!(found, AllAgree(_) | Differs { .. }));
                counts[0] += 1;
            }
        }
    }
    assert!(counts.iter().all(|count| *count > 200), "{counts:?}");
}

/// A kind, offset or length is replaced, often by one that nearly fits.
fn change_a_number(source: &mut RandomSource, file: &mut [u8]) {
    let (number, other) = (source.between(1, 4), source.between(1, 4));
    let field = source.below(3);
    let new = match field {
        0 => source.below(6) as u32,
        _ if source.chance(20) => source.next_number() as u32,
        1 => {
            let offset = number_in(file, other, 1);
            let near = source.pick(&[0, number_in(file, other, 2), 48]);
            (offset + near).wrapping_sub(source.below(3) as u32)
        }
        _ => source.pick(&[0, 1, 2, 10, 11, 12, 64, 8192]),
    };
    set_number(file, number, field, new);
}
