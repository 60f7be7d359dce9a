// SPDX-License-Identifier: Apache-2.0
//! A drawing (SVG) of the bus: the two wires, who pulls them, the bytes and what they mean.
//!
//! [`Drawing`] makes cells of what happens and puts them into rows as wide as a page. A [`Row`]
//! draws cells, and lamps below them where a run keeps the proving record; [`Wires`] are the levels that go
//! on from cell to cell and from row to row; `page` is all that is not a row; `style` is what both are drawn with.

mod page;
mod row;
pub mod style;
mod wires;

use fm3130::family::Select;
use fm3130::{event, Calendar, Pin, Report};

use crate::bus::{Beside, BusByte, EdgeReport, Happening, Listener, PowerChange, TickReport};
use crate::chip::State;
use crate::failure::Outcome;
use crate::files::Replacement;
use crate::output::say_aside;
use row::{Aside, Mark, Row};
use wires::Wires;

/// A drawing with more cells would be no drawing any more: it stops and says so.
const MOST_CELLS: usize = 4000;

/// Draws what happens.
pub struct Drawing<'run> {
    file: &'run mut Replacement,
    title: String,
    row: Row,
    /// The rows that are full.
    rows: Vec<String>,
    cells: usize,
    has_lamps: bool,
    /// What happened inside the byte under way; it is drawn with the byte.
    marks: Vec<Mark>,
    /// The clocks drawn.
    clocks: usize,
    /// A clock to point at; the mark counts all clocks of the drawing before it.
    pointed: Option<Mark>,
    /// The select bits of the devices of a set; none of a single device.
    set: Vec<Select>,
}

impl<'run> Drawing<'run> {
    /// A drawing for a run that begins in a state, and with some lamps if any are to be drawn.
    pub fn new(
        file: &'run mut Replacement,
        title: &str,
        state: &State,
        lamps: Option<Report>,
    ) -> Drawing<'run> {
        Drawing {
            file,
            title: title.to_string(),
            row: Row::new(Wires::of(state, lamps)),
            has_lamps: lamps.is_some(),
            rows: Vec::new(),
            cells: 0,
            marks: Vec::new(),
            clocks: 0,
            pointed: None,
            set: Vec::new(),
        }
    }

    /// The drawing of a set, whose devices have these select bits: each has a colour of its own.
    pub fn of_set(self, set: &[Select]) -> Drawing<'run> {
        Drawing {
            set: set.to_vec(),
            ..self
        }
    }

    /// Points at a clock, counted from 0, by an arrow with a name; the ACS pin is the one before it.
    pub fn point_at(&mut self, clock: usize, name: &str, pin: Pin) {
        self.pointed = Some(Mark {
            clocks: clock,
            name: name.to_string(),
            after: Beside { pin, lamps: None },
        });
    }

    /// Makes a mark of what is pointed at, if it is in a byte of so many clocks.
    fn mark_pointed(&mut self, clocks: usize) {
        let is_inside = |mark: &mut Mark| mark.clocks < self.clocks + clocks;
        if let Some(mut mark) = self.pointed.take_if(is_inside) {
            mark.clocks = mark.clocks.saturating_sub(self.clocks);
            self.marks.push(mark);
        }
        self.clocks += clocks;
    }

    /// Makes room for a cell; false if the drawing is full.
    fn make_room(&mut self, width: f64) -> bool {
        self.cells += 1;
        if self.cells > MOST_CELLS {
            return false;
        }
        if !self.row.has_room(width) {
            let next = Row::new(self.row.wires());
            let full = std::mem::replace(&mut self.row, next);
            self.rows.push(full.into_text());
        }
        true
    }

    /// A Start stays with its slave byte.
    fn start(&mut self, is_repeated: bool) {
        if self.make_room(row::EDGE + row::BYTE + row::EDGE) {
            self.row.start(is_repeated);
        }
    }

    fn stop(&mut self) {
        if self.make_room(row::EDGE) {
            self.row.stop();
        }
    }

    /// A byte leaves room for a Stop, which stays with it.
    fn byte(&mut self, byte: &BusByte) {
        self.mark_pointed(byte.clocks.len());
        let marks = std::mem::take(&mut self.marks);
        if self.make_room(row::width_of(byte) + row::EDGE) {
            self.row.byte(byte, &marks);
        }
    }

    /// A box between bytes, or a mark inside one.
    fn aside(&mut self, aside: &Aside, inside: Option<usize>, after: Beside) {
        match inside {
            // More marks in one byte than there may be cells: the drawing is full.
            Some(_) if self.marks.len() >= MOST_CELLS => self.cells = MOST_CELLS + 1,
            Some(clocks) => self.marks.push(Mark {
                clocks,
                name: aside.name.clone(),
                after,
            }),
            None => {
                if self.make_room(row::ASIDE) {
                    self.row.aside(aside);
                }
            }
        }
    }

    fn power(&mut self, change: &PowerChange, after: Beside) {
        if change.event != event::POWER_RETURNED {
            self.row.release();
        }
        self.aside(&box_of_power(change), change.inside, after);
    }
}

/// The box of a run of ticks: how many, and the time after them.
fn box_of_ticks(report: &TickReport) -> Aside {
    let name = match report.count {
        1 => "tick".to_string(),
        count => format!("t*{count}"),
    };
    let time = |core: Calendar| {
        format!(
            "{:02X}:{:02X}:{:02X}",
            core.hours, core.minutes, core.seconds
        )
    };
    Aside {
        name,
        words: report.after.core().map_or("no clock".to_string(), time),
        color: style::TICK,
    }
}

/// The box of edges on a counter's pin: how many, and the count after them.
fn box_of_edges(report: &EdgeReport) -> Aside {
    Aside {
        name: report.notation(),
        words: report.label(),
        color: style::COUNT,
    }
}

/// The box of a power event.
fn box_of_power(change: &PowerChange) -> Aside {
    let (name, words) = match change.event {
        event::POWER_LOST_WITH_BACKUP => ("lost", "on backup"),
        event::POWER_LOST_WITHOUT_BACKUP => ("gone", "no supply"),
        _ => ("power", "power on"),
    };
    Aside {
        name: name.to_string(),
        words: words.to_string(),
        color: style::POWER,
    }
}

impl Listener for Drawing<'_> {
    fn happening(&mut self, happening: &Happening, after: Beside) -> Outcome {
        let inside = match happening {
            Happening::Start { is_repeated } => {
                self.start(*is_repeated);
                None
            }
            Happening::Stop => {
                self.stop();
                None
            }
            Happening::Byte(byte) => {
                self.byte(byte);
                None
            }
            Happening::Ticks(report) => {
                self.aside(&box_of_ticks(report), report.inside, after);
                report.inside
            }
            Happening::Edges(report) => {
                self.aside(&box_of_edges(report), report.inside, after);
                report.inside
            }
            Happening::Power(change) => {
                self.power(change, after);
                change.inside
            }
        };
        // What is inside a byte is drawn with the byte, and so are the pin and the lamps after it.
        if inside.is_none() {
            self.row.pin(after.pin);
            self.row.lamps(after.lamps);
        }
        Ok(())
    }

    fn finish(&mut self) -> Outcome {
        let mut last = std::mem::replace(&mut self.row, Row::new(Wires::free()));
        let is_cut = self.cells > MOST_CELLS;
        if !is_cut {
            last.rest();
        }
        self.rows.push(last.into_text());
        if is_cut {
            say_aside(&format!(
                "the drawing stops after {MOST_CELLS} cells; --vcd has no such limit"
            ));
        }
        let page = page::whole(&self.title, &self.rows, is_cut, self.has_lamps, &self.set);
        self.file.write(page.as_bytes())
    }
}
