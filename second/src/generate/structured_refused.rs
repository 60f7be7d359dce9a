// SPDX-License-Identifier: Apache-2.0
//! A structured family about refused memory bytes; its parts also serve the
//! random lists.

use super::random_source::RandomSource;
use super::script::Script;
use super::structured_lists::structured_list;
use super::transactions::PROTECTION_BORDERS;
use super::List;

/// Writes to and over the borders of every protection, ended in any way; most
/// reads that follow set no address. Protection changes now and then.
pub fn reading_on(source: &mut RandomSource) -> Vec<List> {
    let mut lists = Vec::new();
    for protection in 0..4_u8 {
        let mut script = Script::new();
        script.companion_write(0x0E, &[source.byte() & 0xE7 | protection << 3]);
        for border in PROTECTION_BORDERS {
            write_at(source, &mut script, border);
            something_between(source, &mut script);
            script.memory_read_current(source.between(1, 3));
            if source.chance(30) {
                script.memory_read_current(1);
            }
            if source.chance(20) {
                script.memory_read(border, 2);
            }
        }
        let name = format!("WP {protection:02b}");
        lists.push(structured_list(
            source,
            "reading-on-structured",
            name,
            script,
        ));
    }
    lists
}

/// Some data bytes from a border or a byte or two before it; the last one may
/// be cut.
pub fn write_at(source: &mut RandomSource, script: &mut Script, border: u16) {
    let before = source.pick(&[0, 0, 0, 1, 2]);
    let upper_bits = source.pick(&[0x0000, 0x0000, 0xE000]);
    let address = border.wrapping_sub(before) & 0x1FFF;
    script.begin_memory_write(address | upper_bits);
    for _ in 0..source.between(1, 4) {
        script.byte(source.byte());
        script.acknowledge_clock(source.chance(80));
    }
    if source.chance(25) {
        let clocks = source.below(9) as u8;
        script.first_bits(source.byte(), clocks);
    }
    if source.chance(70) {
        script.stop();
    }
}

/// Something that sets no memory address, but for the loss of power.
pub fn something_between(source: &mut RandomSource, script: &mut Script) {
    match source.below(12) {
        0 => script.companion_read(source.below(15) as u8, 2),
        1 => script.companion_write(0x0E, &[source.byte()]),
        2 => script.tick().power_returned(),
        3 => script.start().bytes_and_acknowledges(&[0xA0, 0x07]),
        4 => script.start().byte_and_acknowledge(0xA0).first_bits(7, 5),
        5 => script.power_lost_with_backup().power_returned(),
        _ => script,
    };
}
