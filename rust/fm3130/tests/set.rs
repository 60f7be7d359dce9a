// SPDX-License-Identifier: Apache-2.0
//! Sets through the wrapper: transactions by select bits, edges by place, refusals, lists in pieces. What
//! must come out is that of docs/FAMILY.md, "A set on one line".

use fm3130::family::{
    edge_1, edge_2, event, registers, Fm31256, Fm3164, Member, Select, Set, SetRefusal, Size,
};
use fm3130::{Phase, Power};

/// Four fresh devices, both sizes, their select bits in another order than their places.
fn four() -> Set {
    Set::new([
        Member::fresh(Size::Kb256, Select::TWO),
        Member::fresh(Size::Kb64, Select::ZERO),
        Member::fresh(Size::Kb64, Select::THREE),
        Member::fresh(Size::Kb256, Select::ONE),
    ])
    .unwrap()
}

/// The devices of a set but the one at a place.
fn others(set: &Set, place: usize) -> Vec<Member> {
    let mut members = set.members().to_vec();
    members.remove(place);
    members
}

/// A list of events with transactions of all four, edges of all four, ticks, power and cut bytes.
fn long_list() -> Vec<u8> {
    let mut events = Vec::new();
    for (place, select) in Select::ALL.into_iter().enumerate() {
        events.extend([edge_1(place), edge_2(3 - place), event::TICK, event::START]);
        for byte in [select.memory_byte(), 0x00, 0x10, 0x35 + place as u8] {
            events.extend(event::written_byte(byte));
        }
        events.extend([event::STOP, event::START]);
        events.extend(event::written_byte(select.companion_byte() | 1));
        events.extend(event::read_byte(true));
        events.push(edge_1(place));
        events.extend(event::read_byte(false));
        events.extend([event::START, event::CLOCK_LOW, event::CLOCK_HIGH]);
    }
    events.extend([event::POWER_LOST_WITH_BACKUP, edge_2(2)]);
    events.extend([event::POWER_LOST_WITHOUT_BACKUP, event::POWER_RETURNED]);
    events
}

#[test]
fn select_bits_are_two() {
    assert_eq!(Select::ALL.map(Select::bits), [0, 1, 2, 3]);
    assert_eq!(
        Select::ALL.map(Select::memory_byte),
        [0xA0, 0xA2, 0xA4, 0xA6]
    );
    assert_eq!(
        Select::ALL.map(Select::companion_byte),
        [0xD0, 0xD2, 0xD4, 0xD6]
    );
    for bits in 0..=u8::MAX {
        assert_eq!(Select::new(bits).is_some(), bits < 4);
    }
}

#[test]
fn a_transaction_reaches_the_device_it_names_alone() {
    let mut set = four();
    for select in Select::ALL {
        let place = set.place_of(select).unwrap();
        let before = others(&set, place);
        let byte = 0x50 + select.bits();
        assert_eq!(
            set.write_memory(select, 0x0123, &[byte, !byte]).unwrap(),
            [true; 2]
        );
        assert_eq!(
            set.write_registers(select, registers::SERIAL, &[byte])
                .unwrap(),
            [true]
        );
        assert_eq!(set.read_memory(select, 0x0123, 2).unwrap(), [byte, !byte]);
        assert_eq!(
            set.read_registers(select, registers::SERIAL, 2).unwrap(),
            [byte, 0x00]
        );
        assert_eq!(others(&set, place), before);
        let device = set.device(place).unwrap();
        assert_eq!(device.memory()[0x0123..0x0125], [byte, !byte]);
        assert_eq!(device.state().serial()[0], byte);
    }
}

#[test]
fn select_bits_that_nobody_has_are_not_acknowledged() {
    let mut set = Set::new([Member::fresh(Size::Kb64, Select::ONE)]).unwrap();
    let before = set.clone();
    for select in [Select::ZERO, Select::TWO, Select::THREE] {
        assert_eq!(set.write_memory(select, 0, &[1]).unwrap(), [false]);
        assert_eq!(set.read_registers(select, registers::FIRST, 1).unwrap(), []);
        assert_eq!(set.place_of(select), None);
    }
    assert_eq!(set, before);
    assert_eq!(set.device(1), None);
}

#[test]
fn sizes_wrap_each_by_itself() {
    let mut set = four();
    set.write_memory(Select::THREE, 0x1FFF, &[1, 2]).unwrap();
    set.write_memory(Select::TWO, 0x1FFF, &[3, 4]).unwrap();
    let small = set.device(2).unwrap();
    assert_eq!((small.memory()[0x1FFF], small.memory()[0x0000]), (1, 2));
    let large = set.device(0).unwrap();
    assert_eq!((large.memory()[0x1FFF], large.memory()[0x2000]), (3, 4));
}

#[test]
fn an_edge_names_its_device_by_place() {
    let mut set = four();
    for place in 0..4 {
        for _ in 0..=place {
            assert_eq!(set.step(edge_1(place)), Ok(1));
        }
        set.run(&[edge_2(place); 10]).unwrap();
    }
    for (place, member) in set.members().iter().enumerate() {
        let counts = (member.counts().one(), member.counts().two());
        assert_eq!(counts, (place as u16 + 1, 10));
    }
}

#[test]
fn power_reaches_every_device() {
    let mut set = four();
    set.step(event::POWER_LOST_WITH_BACKUP).unwrap();
    let powers: Vec<Power> = set.members().iter().map(|one| one.state().power).collect();
    assert_eq!(powers, [Power::Backup; 4]);
}

#[test]
fn one_device_with_select_bits_zero_does_as_alone() {
    let events: Vec<u8> = long_list().into_iter().filter(|one| *one < 10).collect();
    let mut alone = Fm31256::fresh();
    let mut set = Set::new([Member::of(alone.clone(), Select::ZERO)]).unwrap();
    assert_eq!(set.run(&events), Ok(alone.run(&events).unwrap()));
    let member = set.device(0).unwrap();
    assert_eq!(member.image(), alone.image());
    assert_eq!(member.memory(), alone.memory());
}

#[test]
fn a_list_may_be_cut_anywhere() {
    let events = long_list();
    let mut whole = four();
    let expected = whole.run(&events).unwrap();
    assert!(expected.contains(&0) && whole != four());
    for most in [1, 2, 7, 64] {
        let mut set = four();
        let mut answers = Vec::new();
        for piece in events.chunks(most) {
            answers.extend(set.run(piece).unwrap());
        }
        assert!(answers == expected && set == whole, "pieces of {most}");
    }
}

#[test]
fn a_set_is_refused_when_it_is_made() {
    let fresh = |select| Member::fresh(Size::Kb64, select);
    assert_eq!(Set::new([]), Err(SetRefusal::WrongCount));
    let five = Select::ALL.into_iter().chain([Select::ZERO]).map(fresh);
    assert_eq!(Set::new(five), Err(SetRefusal::WrongCount));
    let six = std::iter::repeat_with(|| fresh(Select::ONE)).take(6);
    assert_eq!(Set::new(six), Err(SetRefusal::WrongCount));
    let equal = [fresh(Select::ONE), fresh(Select::TWO), fresh(Select::ONE)];
    assert_eq!(Set::new(equal), Err(SetRefusal::EqualSelects));
    let mut device = Fm3164::fresh();
    device.step(event::START).unwrap();
    assert_eq!(device.phase(), Phase::SlaveByte);
    let inside = Member::of(device, Select::TWO);
    let members = [fresh(Select::ONE), inside.clone()];
    assert_eq!(Set::new(members), Err(SetRefusal::InTransfer));
    // The first that applies.
    let members = [inside.clone(), inside];
    assert_eq!(Set::new(members), Err(SetRefusal::EqualSelects));
    let image = *Fm3164::fresh().image();
    let short = Member::from_parts(Size::Kb256, Select::ZERO, &image, &[0; 8192]).unwrap();
    assert_eq!(Set::new([short]), Err(SetRefusal::MemoryLength));
    let malformed = Member::from_parts(Size::Kb64, Select::ZERO, &[0xFF; 64], &[0; 8192]).unwrap();
    assert_eq!(Set::new([malformed.clone()]), Err(SetRefusal::Image));
    // The count goes before all others.
    let five = std::iter::repeat_n(malformed, 5);
    assert_eq!(Set::new(five), Err(SetRefusal::WrongCount));
}

#[test]
fn a_refused_list_changes_nothing() {
    let mut set = Set::new([
        Member::fresh(Size::Kb64, Select::ZERO),
        Member::fresh(Size::Kb64, Select::ONE),
    ])
    .unwrap();
    let before = set.clone();
    for event in edge_1(2)..=u8::MAX {
        assert_eq!(set.run(&[edge_1(0), event]), Err(SetRefusal::UnknownEvent));
    }
    let mut answers = [7; 2];
    let events = [edge_1(0), edge_2(1), event::START];
    assert_eq!(
        set.run_into(&events, &mut answers),
        Err(SetRefusal::ShortAnswers)
    );
    assert_eq!((set, answers), (before, [7; 2]));
}

#[test]
fn a_set_may_be_taken_apart_and_made_again() {
    let mut set = four();
    set.memory_mut(3).unwrap()[0] = 0x77;
    assert_eq!(set.memory_mut(4), None);
    set.step(edge_1(3)).unwrap();
    let again = Set::new(set.clone().into_members());
    assert_eq!(again.as_ref(), Ok(&set));
    // Inside a transfer it runs on, but cannot be made.
    set.step(event::START).unwrap();
    assert_eq!(Set::new(set.into_members()), Err(SetRefusal::InTransfer));
}
