// SPDX-License-Identifier: Apache-2.0
//! A structured family about calendars that may not go in.

use super::random_source::RandomSource;
use super::script::Script;
use super::structured_lists::structured_list;
use super::transactions::{doubtful_calendar, plausible_calendar};
use super::List;

/// Calendars of every kind written under W = 1, in whole or in part, and W
/// falling, staying or rising, also by rolling over from 0Eh; reads that set no
/// address, mended calendars, ticks and a loss of power now and then.
pub fn bad_dates(source: &mut RandomSource) -> Vec<List> {
    let mut lists = Vec::new();
    for number in 0..4 {
        let mut script = Script::new();
        script.companion_write(0x01, &[0x00]);
        script.companion_write(0x09, &[0x80; 5]);
        for _ in 0..6 {
            script.companion_write(0x00, &[source.byte() | 0x02]);
            write_calendar(source, &mut script);
            script.ticks(source.below(2));
            let_write_fall(source, &mut script);
            script.companion_read_current(source.between(1, 9));
            something_after(source, &mut script);
        }
        script.read_all_registers();
        let name = format!("list {number}");
        lists.push(structured_list(
            source,
            "bad-dates-structured",
            name,
            script,
        ));
    }
    lists
}

/// The whole calendar, or a part of it.
fn write_calendar(source: &mut RandomSource, script: &mut Script) {
    let calendar = if source.chance(40) {
        plausible_calendar(source)
    } else {
        doubtful_calendar(source)
    };
    let first = if source.chance(70) {
        0
    } else {
        source.below(7)
    };
    script.companion_write(2 + first as u8, &calendar.to_bytes()[first..]);
}

/// A write of 00h, by its address or by rolling over; W falls more often than
/// not, and more bytes may follow.
fn let_write_fall(source: &mut RandomSource, script: &mut Script) {
    let kept = if source.chance(20) { 0x02 } else { 0x00 };
    let control = source.byte() & 0xFD | kept;
    let mut data = vec![control];
    if source.chance(40) {
        data.push(source.byte() & 0x7F);
    }
    if source.chance(70) {
        script.companion_write(0x00, &data);
        return;
    }
    let before = source.between(1, 3);
    let mut all = source.bytes(before);
    all.extend(data);
    script.companion_write(0x0F - before as u8, &all);
}

fn something_after(source: &mut RandomSource, script: &mut Script) {
    match source.below(8) {
        0 => script.ticks(2),
        1 => script
            .companion_write(0x00, &[0x03])
            .companion_read(0x02, 7),
        2 => {
            let mended = plausible_calendar(source).to_bytes();
            script.companion_write(0x02, &mended);
            script.companion_write(0x00, &[source.byte() & 0xFD])
        }
        3 => script.power_lost_with_backup().tick().power_returned(),
        4 => script.companion_read(0x00, 9),
        5 => script.companion_write(0x00, &[0x00]).tick(),
        _ => script,
    };
}
