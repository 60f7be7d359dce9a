// SPDX-License-Identifier: Apache-2.0
//! One row of a drawing: cells from left to right above the wires SCL, SDA and ACS, and the lamps.

use fm3130::{Pin, PinFunction, Report};

use super::style::{self, color_of, fitted, text, FAINT, INK};
use super::wires::{Puller, Wires};
use crate::bus::{Beside, BusByte, BusClock, Direction};

/// The height of a row without lamps.
const HEIGHT: f64 = 150.0;
/// Where the wires begin.
pub const LEFT: f64 = 52.0;
/// Where the wires end at most.
const RIGHT: f64 = style::WIDTH - 18.0;

/// The width of a Start or a Stop.
pub const EDGE: f64 = 30.0;
/// The width of ticks and power events.
pub const ASIDE: f64 = 66.0;
/// The width of a whole byte.
pub const BYTE: f64 = 8.0 * CLOCK + NINTH;
/// How far the wires go on after the last cell.
const REST: f64 = 12.0;
/// The width of a clock that carries data.
const CLOCK: f64 = 13.0;
/// The width of the ninth clock, which has words in it.
const NINTH: f64 = 32.0;

// Heights inside a row, from the top.
const LABEL: f64 = 14.0;
const BOX_TOP: f64 = 19.0;
const BOX_HEIGHT: f64 = 20.0;
const BOX_TEXT: f64 = 33.0;
const CLOCK_HIGH: f64 = 52.0;
const CLOCK_LOW: f64 = 68.0;
const DATA_HIGH: f64 = 80.0;
const DATA_LOW: f64 = 98.0;
const DIGITS: f64 = 109.0;
const PIN_HIGH: f64 = 120.0;
const PIN_LOW: f64 = 132.0;

/// The first lamp's line, and how far the next is below it.
const LAMP: f64 = 156.0;
const NEXT_LAMP: f64 = 6.0;

/// The height of a row, with or without the eight lamps.
pub fn height(has_lamps: bool) -> f64 {
    match has_lamps {
        true => HEIGHT + NEXT_LAMP * f64::from(Report::LAMPS) + 14.0,
        false => HEIGHT,
    }
}

/// Something inside a byte, after so many of its clocks.
pub struct Mark {
    /// The clocks done before it.
    pub clocks: usize,
    /// What it is.
    pub name: String,
    /// The ACS pin and the lamps after it.
    pub after: Beside,
}

/// Ticks or a power event between bytes.
pub struct Aside {
    /// What it is, in the box.
    pub name: String,
    /// What came of it, above the box.
    pub words: String,
    /// The colour of the box.
    pub color: &'static str,
}

/// One row.
pub struct Row {
    wires: Wires,
    /// Where the next cell begins.
    x: f64,
    /// Where SDA was changed last, the pin, and a lamp.
    data_from: f64,
    pin_from: f64,
    lamps_from: f64,
    /// Boxes and texts.
    shapes: String,
    /// The path of SCL.
    clock: String,
    /// The paths of SDA, by who pulls.
    data: [String; Puller::ALL.len()],
}

/// The width of a byte, whole or cut.
pub fn width_of(byte: &BusByte) -> f64 {
    let data = byte.clocks.len().min(8) as f64 * CLOCK;
    match byte.ninth() {
        Some(_) => data + NINTH,
        None => data.max(NINTH),
    }
}

impl Row {
    /// An empty row, on which the wires go on from the row before.
    pub fn new(wires: Wires) -> Row {
        let mut shapes = String::new();
        let drawn = if wires.has_pin { 3 } else { 2 };
        for (name, y) in [("SCL", CLOCK_LOW), ("SDA", DATA_LOW), ("ACS", PIN_LOW)]
            .into_iter()
            .take(drawn)
        {
            shapes.push_str(&text(20.0, y - 4.0, 10.0, "start", FAINT, name));
        }
        if wires.lamps.is_some() {
            let y = LAMP + NEXT_LAMP * 3.5 + 3.0;
            shapes.push_str(&text(20.0, y, 10.0, "start", FAINT, "lamps"));
            for lamp in [0, Report::LAMPS - 1] {
                let y = LAMP + NEXT_LAMP * f64::from(lamp) + 3.0;
                let number = lamp.to_string();
                shapes.push_str(&text(LEFT - 4.0, y, 8.0, "end", FAINT, &number));
            }
        }
        if wires.has_pin {
            shapes.push_str(&pin_words(LEFT, wires.pin));
        }
        Row {
            clock: format!("M{LEFT} {}", clock_height(wires.clock_is_high)),
            wires,
            x: LEFT,
            data_from: LEFT,
            pin_from: LEFT,
            lamps_from: LEFT,
            shapes,
            data: Default::default(),
        }
    }

    /// The wires at the end of the row.
    pub fn wires(&self) -> Wires {
        self.wires
    }

    /// True when a cell of some width fits; a first cell always does.
    pub fn has_room(&self, width: f64) -> bool {
        self.x == LEFT || self.x + width <= RIGHT
    }

    /// SCL changes at a place.
    fn clock_to(&mut self, x: f64, is_high: bool) {
        if self.wires.clock_is_high != is_high {
            self.clock
                .push_str(&format!("H{x:.1}V{}", clock_height(is_high)));
            self.wires.clock_is_high = is_high;
        }
    }

    /// SDA changes at a place: what it was is drawn up to there.
    fn data_to(&mut self, x: f64, puller: Puller) {
        let before = self.wires.puller;
        if before == puller {
            return;
        }
        let (from, to) = (data_height(before), data_height(puller));
        let path = format!("M{:.1} {from}H{x:.1}", self.data_from);
        self.data[before.place()].push_str(&path);
        if from != to {
            let edge = format!("M{x:.1} {from}V{to}");
            self.data[puller.place()].push_str(&edge);
        }
        self.data_from = x;
        self.wires.puller = puller;
    }

    /// A Start: SDA falls while SCL is high.
    pub fn start(&mut self, is_repeated: bool) {
        let x = self.x;
        self.data_to(x + 4.0, Puller::Nobody);
        self.clock_to(x + 10.0, true);
        self.data_to(x + 17.0, Puller::Master);
        self.clock_to(x + 25.0, false);
        self.boundary_at(x);
        let name = if is_repeated { "Sr" } else { "S" };
        self.boxed(EDGE, style::EDGE, name, false);
        self.x += EDGE;
    }

    /// A Stop: SDA rises while SCL is high.
    pub fn stop(&mut self) {
        let x = self.x;
        self.clock_to(x + 2.0, false);
        self.data_to(x + 4.0, Puller::Master);
        self.clock_to(x + 10.0, true);
        self.data_to(x + 17.0, Puller::Nobody);
        self.boundary_at(x);
        self.boxed(EDGE, style::EDGE, "P", false);
        self.x += EDGE;
    }

    /// Ticks or a power event between bytes; the wires rest.
    pub fn aside(&mut self, aside: &Aside) {
        self.boundary_at(self.x);
        self.label(ASIDE, ASIDE, &aside.words);
        self.boxed(ASIDE, aside.color, &aside.name, false);
        self.x += ASIDE;
    }

    /// A byte: its meaning, its value, its acknowledge, its clocks.
    pub fn byte(&mut self, byte: &BusByte, marks: &[Mark]) {
        let begin = self.x;
        let width = width_of(byte);
        self.boundary_at(self.x);
        let label = match byte.device {
            Some(select) => format!("@{select} {}", byte.label),
            None => byte.label.clone(),
        };
        self.label(8.0 * CLOCK, width, &label);
        self.boxes_of_byte(byte);
        for (index, clock) in byte.clocks.iter().enumerate() {
            self.marks_at(index, marks);
            let width = if index == 8 { NINTH } else { CLOCK };
            self.one_clock(clock, Puller::at(clock, byte.device), width);
        }
        self.marks_at(byte.clocks.len(), marks);
        self.x = begin + width;
    }

    /// The value in the sender's colour, and the acknowledge in its giver's.
    fn boxes_of_byte(&mut self, byte: &BusByte) {
        let by_device = style::sent_by(byte.device);
        let (sender, taker) = match byte.direction {
            Direction::Write => (style::SENT_BY_MASTER, by_device),
            Direction::Read => (by_device, style::SENT_BY_MASTER),
            Direction::Unheard => (style::UNHEARD, style::UNHEARD),
        };
        let is_cut = byte.clocks.len() < 9;
        let is_part = byte.clocks.len() < 8;
        let width = width_of(byte);
        if byte.is_stray || is_part {
            return self.boxed(width, sender, &byte.digits(), is_cut);
        }
        let value = format!("{:02X}h", byte.value());
        if byte.ninth().is_none() {
            return self.boxed(width, sender, &value, is_cut);
        }
        self.boxed(width - NINTH, sender, &value, is_cut);
        let begin = self.x;
        self.x += width - NINTH;
        match byte.is_acknowledged() {
            true => self.boxed(NINTH, taker, "ACK", false),
            false => self.boxed(NINTH, style::NOT_ACKNOWLEDGED, "NACK", false),
        }
        self.x = begin;
    }

    /// A whole pulse of SCL with SDA steady.
    fn one_clock(&mut self, clock: &BusClock, puller: Puller, width: f64) {
        let x = self.x;
        self.clock_to(x + 1.0, false);
        self.data_to(x + 2.0, puller);
        let middle = x + width / 2.0;
        self.clock_to(middle - CLOCK * 0.2, true);
        self.clock_to(middle + CLOCK * 0.25, false);
        let digit = if clock.line_is_high { "1" } else { "0" };
        self.shapes
            .push_str(&text(middle, DIGITS, 8.0, "middle", FAINT, digit));
        self.x += width;
    }

    /// What happened after so many clocks of the byte: a small arrow with a name.
    fn marks_at(&mut self, clocks: usize, marks: &[Mark]) {
        for mark in marks.iter().filter(|mark| mark.clocks == clocks) {
            let (x, top) = (self.x, BOX_TOP + BOX_HEIGHT + 2.0);
            self.shapes.push_str(&format!(
                "<path d=\"M{:.1} {top}h6l-3 6z\" fill=\"{}\"/>\n",
                x - 3.0,
                color_of(Puller::Both)
            ));
            let y = CLOCK_LOW + 8.0;
            let color = color_of(Puller::Both);
            self.shapes
                .push_str(&text(x, y, 8.0, "middle", color, &mark.name));
            self.pin(mark.after.pin);
            self.lamps(mark.after.lamps);
        }
    }

    /// The device lets go of SDA, since its power is lost.
    pub fn release(&mut self) {
        let puller = match self.wires.puller {
            Puller::Nobody | Puller::Device(_) => Puller::Nobody,
            Puller::Master | Puller::Both => Puller::Master,
        };
        self.data_to(self.x + 2.0, puller);
    }

    /// The pin after a cell.
    pub fn pin(&mut self, pin: Pin) {
        if pin == self.wires.pin {
            return;
        }
        self.draw_pin();
        let (x, from, to) = (self.x, pin_height(self.wires.pin), pin_height(pin));
        self.pin_path(&format!("M{x:.1} {from}V{to}"), pin);
        self.pin_from = x;
        self.wires.pin = pin;
        self.shapes.push_str(&pin_words(x, pin));
    }

    /// The pin up to here.
    fn draw_pin(&mut self) {
        if !self.wires.has_pin {
            return;
        }
        let pin = self.wires.pin;
        let points = format!("M{:.1} {}H{:.1}", self.pin_from, pin_height(pin), self.x);
        self.pin_path(&points, pin);
    }

    /// The lamps after a cell.
    pub fn lamps(&mut self, lamps: Option<Report>) {
        if lamps != self.wires.lamps {
            self.draw_lamps();
            self.lamps_from = self.x;
            self.wires.lamps = lamps;
        }
    }

    /// The lamps up to here: a broad line where one is lit, the first lamp's above.
    fn draw_lamps(&mut self) {
        let Some(report) = self.wires.lamps else {
            return;
        };
        for lamp in 0..Report::LAMPS {
            let y = LAMP + NEXT_LAMP * f64::from(lamp);
            let points = format!("M{:.1} {y}H{:.1}", self.lamps_from, self.x);
            let (color, width) = match report.is_lit(lamp) {
                true => (style::LIT, 4.0),
                false => (style::DARK, 1.0),
            };
            self.shapes.push_str(&path(&points, color, width));
        }
    }

    /// A line in the colour of the pin; dotted while it toggles.
    fn pin_path(&mut self, points: &str, pin: Pin) {
        let color = match pin.is_pulled_low() {
            true => color_of(Puller::Device(None)),
            false => FAINT,
        };
        let dashes = if toggles(pin) { "2 2" } else { "none" };
        self.shapes.push_str(&format!(
            "<path d=\"{points}\" fill=\"none\" stroke=\"{color}\" stroke-width=\"1.3\" \
             stroke-dasharray=\"{dashes}\"/>\n"
        ));
    }

    /// A faint line where a cell begins, so that boxes and wires are seen to belong together.
    fn boundary_at(&mut self, x: f64) {
        let top = BOX_TOP + BOX_HEIGHT;
        self.shapes.push_str(&format!(
            "<path d=\"M{x:.1} {top}V{DIGITS}\" stroke=\"#e1e5ea\" stroke-width=\"0.8\"/>\n"
        ));
    }

    /// Words above the box that a cell begins with; they may use the width of the whole cell.
    fn label(&mut self, width_of_box: f64, width: f64, words: &str) {
        let fitted = fitted(words, width, 9.0);
        let middle = self.x + width_of_box.min(width) / 2.0;
        self.shapes
            .push_str(&text(middle, LABEL, 9.0, "middle", INK, &fitted));
    }

    /// A box with a name in it; dashed if the byte was cut.
    fn boxed(&mut self, width: f64, color: &str, name: &str, is_cut: bool) {
        let dashes = if is_cut { "3 2" } else { "none" };
        self.shapes.push_str(&format!(
            "<rect x=\"{:.1}\" y=\"{BOX_TOP}\" width=\"{:.1}\" height=\"{BOX_HEIGHT}\" rx=\"3\" \
             fill=\"{color}\" stroke=\"{FAINT}\" stroke-width=\"0.6\" \
             stroke-dasharray=\"{dashes}\"/>\n",
            self.x + 1.0,
            width - 2.0
        ));
        let middle = self.x + width / 2.0;
        let size = if name.len() > 3 { 9.0 } else { 11.0 };
        self.shapes
            .push_str(&text(middle, BOX_TEXT, size, "middle", INK, name));
    }

    /// The wires go on a little, so that what the last event left is seen.
    pub fn rest(&mut self) {
        self.x += REST;
    }

    /// The row as text, with all wires drawn to its end.
    pub fn into_text(mut self) -> String {
        self.draw_pin();
        self.draw_lamps();
        let end = self.x;
        self.clock.push_str(&format!("H{end:.1}"));
        let puller = self.wires.puller;
        let rest = format!("M{:.1} {}H{end:.1}", self.data_from, data_height(puller));
        self.data[puller.place()].push_str(&rest);
        let mut row = self.shapes;
        row.push_str(&path(&self.clock, INK, 1.3));
        for puller in Puller::ALL {
            let width = if puller == Puller::Nobody { 1.4 } else { 2.2 };
            row.push_str(&path(&self.data[puller.place()], color_of(puller), width));
        }
        row
    }
}

fn clock_height(is_high: bool) -> f64 {
    if is_high {
        CLOCK_HIGH
    } else {
        CLOCK_LOW
    }
}

fn data_height(puller: Puller) -> f64 {
    match puller {
        Puller::Nobody => DATA_HIGH,
        _ => DATA_LOW,
    }
}

/// True when the pin gives a frequency.
fn toggles(pin: Pin) -> bool {
    matches!(
        pin.function,
        PinFunction::SquareWave | PinFunction::Calibration
    )
}

/// High, low, or between them while it toggles.
fn pin_height(pin: Pin) -> f64 {
    if toggles(pin) {
        (PIN_HIGH + PIN_LOW) / 2.0
    } else if pin.is_pulled_low() {
        PIN_LOW
    } else {
        PIN_HIGH
    }
}

/// A line of one colour; nothing if it has no points.
fn path(points: &str, color: &str, width: f64) -> String {
    if points.is_empty() {
        return String::new();
    }
    format!(
        "<path d=\"{points}\" fill=\"none\" stroke=\"{color}\" stroke-width=\"{width}\" \
         stroke-linecap=\"round\"/>\n"
    )
}

/// What the pin does, below its line.
fn pin_words(x: f64, pin: Pin) -> String {
    text(
        x + 2.0,
        PIN_LOW + 10.0,
        8.0,
        "start",
        FAINT,
        &pin.to_string(),
    )
}
