// SPDX-License-Identifier: Apache-2.0
//! A waveform file (VCD) of the two wires, which logic analysers open and decode.
//!
//! Every event takes one window of 10 microseconds, so that SCL runs at 100 kHz. A Clock is a whole
//! pulse of SCL with SDA steady; SDA changes while SCL is high only in a Start or a Stop. Ticks and
//! power events have wires of their own and are not to scale.

use fm3130::family::event::{EDGE_1, EDGE_2};
use fm3130::{event, Pin, PinFunction, Power};

use crate::bus::{Moment, Observer, TickRun};
use crate::chip::{Part, State};
use crate::failure::Outcome;
use crate::files::Replacement;

/// The length of an event's window.
const WINDOW: u64 = 10;

/// Moments inside a window: the clock is taken low if it is high, data change, the clock rises, SDA
/// turns for a Start or a Stop, the clock falls.
const CLOCK_LOW: u64 = 1;
const DATA: u64 = 2;
const CLOCK_RISES: u64 = 5;
const TURN: u64 = 7;
const CLOCK_FALLS: u64 = 9;

/// Runs of ticks up to this length are drawn tick by tick; a longer one is one long pulse.
const MOST_TICKS_DRAWN: u64 = 8;

/// The scope that all wires stand in.
const SCOPE: &str = "fm3130";

/// The letter of a number: how many ticks the last long pulse stands for, so that whoever reads the waveform can tell. It
/// is no wire, and sigrok passes it over.
const TICKS: char = '-';

/// How a view of ours begins; one that somebody else made is left alone.
pub const VIEW_BEGIN: &str = "[*] fm3130 run\n";

/// A view of all wires for GTKWave, which stands beside a waveform file of a name.
pub fn view_of(name: &str, part: Part) -> String {
    let mut view = format!("{VIEW_BEGIN}[dumpfile] \"{name}\"\n[timestart] 0\n@28\n");
    for (index, (_, wire, _)) in WIRES.iter().enumerate() {
        if Wire::is_of(index, part) {
            view.push_str(&format!("{SCOPE}.{wire}\n"));
        }
    }
    view
}

/// The wires in the order of the file.
#[derive(Clone, Copy)]
enum Wire {
    Clock,
    Data,
    Master,
    Device,
    Pin,
    FunctionHigh,
    FunctionLow,
    MainPower,
    Supplied,
    Tick,
    FirstCounter,
    SecondCounter,
}

impl Wire {
    /// Whether a part has the wire: one has the pin of a clock, another those of counters.
    fn is_of(index: usize, part: Part) -> bool {
        let is_of_clock = (Wire::Pin as usize..=Wire::FunctionLow as usize).contains(&index);
        let is_of_counters = index >= Wire::FirstCounter as usize;
        match part {
            Part::Fm3130 => !is_of_counters,
            Part::Family(_) => !is_of_clock,
        }
    }
}

/// Letter in the file, name and meaning of each wire.
const WIRES: [(char, &str, &str); 12] = [
    ('!', "SCL", "serial clock"),
    (
        '"',
        "SDA",
        "serial data: low if the master or the device pulls",
    ),
    (
        '#',
        "MASTER",
        "what the master does with SDA: 1 releases, 0 pulls",
    ),
    (
        '$',
        "DEVICE",
        "what the device does with SDA: 1 releases, 0 pulls",
    ),
    ('%', "ACS", "the ACS pin: 0 when the alarm pulls it low"),
    (
        '&',
        "ACS_F1",
        "the pin's function, high bit: 00 released, 01 alarm",
    ),
    (
        '\'',
        "ACS_F0",
        "the pin's function, low bit: 10 square wave, 11 calibration",
    ),
    ('(', "VDD", "main power"),
    (')', "SUPPLIED", "main power or backup is there"),
    ('*', "TICK", "a one-second tick, not to scale"),
    (
        '+',
        "CNT1",
        "an edge on CNT1, filtered by its polarity: a pulse",
    ),
    (
        ',',
        "CNT2",
        "an edge on CNT2, filtered by its polarity: a pulse",
    ),
];

/// Writes a waveform file while a run goes on.
pub struct Waveform<'run> {
    file: &'run mut Replacement,
    /// The begin of the window under way, in microseconds.
    now: u64,
    /// The time written last.
    written: Option<u64>,
    /// Ticks not yet drawn: a long run comes in several parts and is one pulse.
    ticks: u64,
    part: Part,
    levels: [bool; WIRES.len()],
}

impl<'run> Waveform<'run> {
    /// Begins a file for a run that begins in a state.
    pub fn begin(file: &'run mut Replacement, state: &State) -> Outcome<Waveform<'run>> {
        let mut waveform = Waveform {
            file,
            now: 0,
            written: None,
            ticks: 0,
            part: state.part,
            levels: [true; WIRES.len()],
        };
        // Inside a transfer the clock rests low.
        waveform.levels[Wire::Clock as usize] = state.phase == fm3130::Phase::Idle;
        for wire in [Wire::Tick, Wire::FirstCounter, Wire::SecondCounter] {
            waveform.levels[wire as usize] = false;
        }
        for (wire, level) in pin_and_supplies(state.pin(), state.power) {
            waveform.levels[wire as usize] = level;
        }
        waveform.head()?;
        waveform.now = WINDOW;
        Ok(waveform)
    }

    fn head(&mut self) -> Outcome {
        let numbered = WIRES.into_iter().zip(self.levels).enumerate();
        let wires: Vec<_> = numbered
            .filter(|(index, _)| Wire::is_of(*index, self.part))
            .map(|(_, wire)| wire)
            .collect();
        let mut head = format!("$version {} stand-in $end\n", self.part);
        for ((_, name, meaning), _) in &wires {
            head.push_str(&format!("$comment {name}: {meaning} $end\n"));
        }
        // The scope is what a viewer opens to find the wires.
        head.push_str(&format!(
            "$timescale 1 us $end\n$scope module {SCOPE} $end\n"
        ));
        for ((letter, name, _), _) in &wires {
            head.push_str(&format!("$var wire 1 {letter} {name} $end\n"));
        }
        head.push_str(&format!("$var real 64 {TICKS} TICKS $end\n$upscope $end\n"));
        head.push_str("$enddefinitions $end\n#0\n$dumpvars\n");
        for ((letter, _, _), level) in &wires {
            head.push_str(&format!("{}{letter}\n", u8::from(*level)));
        }
        head.push_str(&format!("r0 {TICKS}\n$end\n"));
        self.written = Some(0);
        self.file.write(head.as_bytes())
    }

    /// Gives a wire a level at a moment of the window; nothing is written if it has it already.
    fn set(&mut self, moment: u64, wire: Wire, level: bool) -> Outcome {
        let is_shown = Wire::is_of(wire as usize, self.part);
        if !is_shown || self.levels[wire as usize] == level {
            return Ok(());
        }
        self.levels[wire as usize] = level;
        let time = self.now + moment;
        let letter = WIRES[wire as usize].0;
        let value = u8::from(level);
        let text = if self.written == Some(time) {
            format!("{value}{letter}\n")
        } else {
            format!("#{time}\n{value}{letter}\n")
        };
        self.written = Some(time);
        self.file.write(text.as_bytes())
    }

    /// Sets SDA and who pulls it.
    fn data(&mut self, moment: u64, master_is_high: bool, device_pulls: bool) -> Outcome {
        self.set(moment, Wire::Master, master_is_high)?;
        self.set(moment, Wire::Device, !device_pulls)?;
        self.set(moment, Wire::Data, master_is_high && !device_pulls)
    }

    /// From bus free, SDA falls at once. Inside a transfer the clock is low: SDA is released first,
    /// and the clock rises.
    fn start(&mut self) -> Outcome {
        self.data(DATA, true, false)?;
        self.set(CLOCK_RISES, Wire::Clock, true)?;
        self.data(TURN, false, false)?;
        self.set(CLOCK_FALLS, Wire::Clock, false)
    }

    fn stop(&mut self) -> Outcome {
        self.set(CLOCK_LOW, Wire::Clock, false)?;
        self.data(DATA, false, false)?;
        self.set(CLOCK_RISES, Wire::Clock, true)?;
        self.data(TURN, true, false)
    }

    fn clock(&mut self, moment: &Moment) -> Outcome {
        self.set(CLOCK_LOW, Wire::Clock, false)?;
        self.data(DATA, moment.master_is_high(), moment.device_pulls())?;
        self.set(CLOCK_RISES, Wire::Clock, true)?;
        self.set(CLOCK_FALLS, Wire::Clock, false)
    }

    /// An edge on a counter's pin is a pulse of its wire, and the bus rests.
    fn edge(&mut self, wire: Wire) -> Outcome {
        self.set(DATA, wire, true)?;
        self.set(TURN, wire, false)
    }

    /// A loss of power makes the device let go of SDA. The clock is low then, or SDA is high
    /// already, so that no decoder takes it for a Stop.
    fn power(&mut self, power: Power) -> Outcome {
        if power != Power::On {
            let master_is_high = self.levels[Wire::Master as usize];
            self.data(DATA, master_is_high, false)?;
        }
        Ok(())
    }

    fn show_pin_and_supplies(&mut self, moment: u64, pin: Pin, power: Power) -> Outcome {
        for (wire, level) in pin_and_supplies(pin, power) {
            self.set(moment, wire, level)?;
        }
        Ok(())
    }

    /// The ticks not yet drawn: each a pulse, or all of them one long pulse.
    fn draw_ticks(&mut self) -> Outcome {
        let count = std::mem::take(&mut self.ticks);
        if count > MOST_TICKS_DRAWN {
            self.set(DATA, Wire::Tick, true)?;
            self.file.write(format!("r{count} {TICKS}\n").as_bytes())?;
            self.now += WINDOW * (MOST_TICKS_DRAWN - 1);
            self.set(CLOCK_FALLS, Wire::Tick, false)?;
            self.now += WINDOW;
            return Ok(());
        }
        for _ in 0..count {
            self.set(DATA, Wire::Tick, true)?;
            self.set(TURN, Wire::Tick, false)?;
            self.now += WINDOW;
        }
        Ok(())
    }
}

impl Observer for Waveform<'_> {
    fn moment(&mut self, moment: &Moment) -> Outcome {
        self.draw_ticks()?;
        match moment.event {
            event::START => self.start()?,
            event::STOP => self.stop()?,
            event::CLOCK_LOW | event::CLOCK_HIGH => self.clock(moment)?,
            EDGE_1 => self.edge(Wire::FirstCounter)?,
            EDGE_2 => self.edge(Wire::SecondCounter)?,
            _ => self.power(moment.after.power)?,
        }
        self.show_pin_and_supplies(CLOCK_FALLS, moment.answer.pin(), moment.after.power)?;
        self.now += WINDOW;
        Ok(())
    }

    /// The ticks up to each change of the pin, the change, and the rest.
    fn ticks(&mut self, run: &TickRun) -> Outcome {
        let mut taken = 0;
        for (tick, pin) in &run.pin_changes {
            self.ticks += tick - taken;
            taken = *tick;
            self.draw_ticks()?;
            self.show_pin_and_supplies(0, *pin, run.after.power)?;
        }
        self.ticks += run.count - taken;
        Ok(())
    }

    /// A last time, so that a viewer shows the last event to its end.
    fn finish(&mut self) -> Outcome {
        self.draw_ticks()?;
        self.file
            .write(format!("#{}\n", self.now + WINDOW).as_bytes())
    }
}

/// The levels of the wires for the pin and the supplies.
fn pin_and_supplies(pin: Pin, power: Power) -> [(Wire, bool); 5] {
    let (high, low) = match pin.function {
        PinFunction::Released => (false, false),
        PinFunction::Alarm => (false, true),
        PinFunction::SquareWave => (true, false),
        PinFunction::Calibration => (true, true),
    };
    [
        (Wire::Pin, !pin.is_pulled_low()),
        (Wire::FunctionHigh, high),
        (Wire::FunctionLow, low),
        (Wire::MainPower, power == Power::On),
        (Wire::Supplied, power != Power::None),
    ]
}
