// SPDX-License-Identifier: Apache-2.0
//! What happened, a line for each byte.

use fm3130::{event, Power};

use crate::bus::{
    Beside, BusByte, Direction, EdgeReport, Happening, Listener, PowerChange, TickReport,
};
use crate::chip::Part;
use crate::failure::Outcome;
use crate::output::{Output, Paint};

/// Prints what happens.
pub struct Transcript<'run> {
    output: &'run mut Output,
}

impl<'run> Transcript<'run> {
    /// A transcript on standard output.
    pub fn new(output: &'run mut Output) -> Transcript<'run> {
        Transcript { output }
    }
}

impl Listener for Transcript<'_> {
    fn happening(&mut self, happening: &Happening, _: Beside) -> Outcome {
        self.output
            .painted(paint_of(happening), &line_of(happening))
    }
}

/// The colour of a happening: what a device refuses stands out, and so does what is beside the bus.
fn paint_of(happening: &Happening) -> Paint {
    match happening {
        Happening::Start { .. } | Happening::Stop => Paint::Plain,
        Happening::Byte(byte) if byte.direction == Direction::Read => Paint::Plain,
        Happening::Byte(byte) if byte.is_acknowledged() => Paint::Good,
        Happening::Byte(_) => Paint::Bad,
        Happening::Ticks(_) | Happening::Edges(_) | Happening::Power(_) => Paint::Aside,
    }
}

/// The line of a happening: its notation in scripts, then words.
pub fn line_of(happening: &Happening) -> String {
    match happening {
        Happening::Start { is_repeated: false } => row("[", "Start"),
        Happening::Start { is_repeated: true } => row("[", "repeated Start"),
        Happening::Stop => row("]", "Stop"),
        Happening::Byte(byte) => byte_line(byte),
        Happening::Ticks(report) => row(&ticks_notation(report), &report.to_string()),
        Happening::Edges(report) => row(&edges_notation(report), &report.to_string()),
        Happening::Power(change) => power_line(change),
    }
}

fn row(notation: &str, words: &str) -> String {
    format!("{notation:<8}{words}")
}

fn ticks_notation(report: &TickReport) -> String {
    match report.count {
        1 => "t".to_string(),
        count => format!("t*{count} "),
    }
}

fn edges_notation(report: &EdgeReport) -> String {
    match report.count {
        1 => report.notation(),
        _ => format!("{} ", report.notation()),
    }
}

/// Direction, value, acknowledge and meaning of a byte.
fn byte_line(byte: &BusByte) -> String {
    let clocks = byte.clocks.len();
    let meaning = match byte.device {
        Some(select) => format!("@{select} {}", byte.meaning),
        None => byte.meaning.clone(),
    };
    if clocks < 8 || byte.is_stray {
        return format!("  clocks  {{{}}}  {meaning}", byte.digits());
    }
    // What nobody hears is no write, and a released line is no read.
    let verb = match byte.direction {
        Direction::Write => "write",
        Direction::Read => "read",
        Direction::Unheard => "line",
    };
    format!(
        "  {verb:<5} {:02X}h  {:<5} {meaning}{}",
        byte.value(),
        acknowledge(byte),
        remark(byte)
    )
}

/// ACK and NACK, as the data sheet writes them; dashes for a byte without its ninth clock.
fn acknowledge(byte: &BusByte) -> &'static str {
    match (byte.ninth(), byte.is_acknowledged()) {
        (None, _) => "--",
        (Some(_), true) => "ACK",
        (Some(_), false) => "NACK",
    }
}

/// What else a reader should know of a byte.
fn remark(byte: &BusByte) -> &'static str {
    match (byte.direction, byte.ninth()) {
        (Direction::Unheard, None) => "",
        (_, None) => "; cut before the acknowledge",
        (Direction::Read, Some(_)) => "",
        (_, Some(ninth)) if !ninth.master_is_high && !ninth.device_pulls => {
            "; it is the master that holds the ninth bit low"
        }
        _ => "",
    }
}

/// What is lost with both supplies.
fn lost(part: Part) -> &'static str {
    match part {
        Part::Fm3130 => "registers lost",
        Part::Family(_) => "counters lost",
    }
}

fn power_line(change: &PowerChange) -> String {
    let lost = lost(change.part);
    let (notation, words) = match (change.event, change.before) {
        (event::POWER_LOST_WITH_BACKUP, Power::On) => {
            ("lost", "main power lost, backup present".to_string())
        }
        (event::POWER_LOST_WITH_BACKUP, _) => ("lost", "main power is lost already".to_string()),
        (event::POWER_LOST_WITHOUT_BACKUP, Power::On) => {
            ("gone", format!("main power lost, no backup: {lost}"))
        }
        (event::POWER_LOST_WITHOUT_BACKUP, Power::Backup) => {
            ("gone", format!("backup lost too: {lost}"))
        }
        (event::POWER_LOST_WITHOUT_BACKUP, Power::None) => {
            ("gone", "both supplies are gone already".to_string())
        }
        (_, Power::On) => ("power", "main power is there already".to_string()),
        (_, Power::Backup) => ("power", "main power returned, POR set".to_string()),
        (_, Power::None) => ("power", "main power returned".to_string()),
    };
    match change.inside {
        Some(clocks) => row(
            notation,
            &format!("{words}, after {clocks} clocks of a byte"),
        ),
        None => row(notation, &words),
    }
}
