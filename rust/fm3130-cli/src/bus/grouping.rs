// SPDX-License-Identifier: Apache-2.0
//! Puts clocks together to bytes, and parts of a run of ticks to one run.

use fm3130::{event, family, Phase, Pin, Power, Report};

use super::edges::EdgeReport;
use super::happening::{BusByte, BusClock, Direction, Happening, PowerChange};
use super::meaning::{self, Meaning};
use super::moment::{Moment, TickRun};
use super::play::{play, Observer, Outputs};
use super::resume::{earlier_clocks, Earlier};
use super::ticks::TickReport;
use crate::chip::{Chip, State};
use crate::failure::Outcome;
use crate::source::Source;

/// What is seen beside the bus, after something happened.
#[derive(Clone, Copy, Debug)]
pub struct Beside {
    /// The ACS pin.
    pub pin: Pin,
    /// The lamps, where a run keeps the proving record.
    pub lamps: Option<Report>,
}

/// Someone who wants to know what happened.
pub trait Listener {
    /// One thing happened.
    fn happening(&mut self, happening: &Happening, after: Beside) -> Outcome;

    /// Nothing more happens.
    fn finish(&mut self) -> Outcome {
        Ok(())
    }
}

/// Lets a device do the events of a source, and tells one listener.
pub fn play_to(listener: &mut dyn Listener, device: &mut Chip, source: &mut dyn Source) -> Outcome {
    let mut grouping = Grouping::new(vec![listener], &device.state(), None);
    let mut outputs = Outputs {
        observers: vec![&mut grouping],
        prints: true,
        answers: None,
        recording: None,
        lamps: None,
    };
    play(device, source, &mut outputs)
}

/// Puts events together and tells listeners.
///
/// It counts clocks from Start to Start as the master does: nine to a byte. What a byte means is
/// asked of the device's states, so nothing of the device's rules is repeated here.
pub struct Grouping<'run> {
    listeners: Vec<&'run mut dyn Listener>,
    /// The byte under way.
    group: Earlier,
    ticks: Option<TickReport>,
    edges: Option<EdgeReport>,
    /// The ACS pin and the lamps after the events told.
    beside: Beside,
    /// A Start came, and since then neither a Stop nor a loss of power.
    is_in_transfer: bool,
}

impl<'run> Grouping<'run> {
    /// A grouping that tells some listeners, of a run that begins in a state and with some lamps.
    pub fn new(
        listeners: Vec<&'run mut dyn Listener>,
        state: &State,
        lamps: Option<Report>,
    ) -> Grouping<'run> {
        Grouping {
            listeners,
            group: earlier_clocks(state),
            ticks: None,
            edges: None,
            beside: Beside {
                pin: state.pin(),
                lamps,
            },
            is_in_transfer: state.phase != Phase::Idle,
        }
    }

    fn tell(&mut self, happening: &Happening) -> Outcome {
        for listener in &mut self.listeners {
            listener.happening(happening, self.beside)?;
        }
        Ok(())
    }

    fn tell_ticks(&mut self) -> Outcome {
        match self.ticks.take() {
            Some(report) => {
                self.beside.pin = report.after.pin();
                self.beside.lamps = report.lamps;
                self.tell(&Happening::Ticks(report))
            }
            None => Ok(()),
        }
    }

    fn tell_edges(&mut self) -> Outcome {
        match self.edges.take() {
            Some(report) => self.tell(&Happening::Edges(report)),
            None => Ok(()),
        }
    }

    /// Tells of the clocks so far, whether or not they are a whole byte.
    fn tell_group(&mut self) -> Outcome {
        let group = std::mem::take(&mut self.group);
        let Some(first) = group.first else {
            return Ok(());
        };
        let byte = BusByte {
            direction: direction(&first),
            device: meaning::hearer(&first, group.eighth.as_ref()),
            is_stray: !self.is_in_transfer,
            clocks: group.clocks,
            meaning: String::new(),
            label: String::new(),
        };
        let Meaning { words, label } = match group.eighth {
            _ if byte.is_stray => meaning::of_stray_clocks(),
            Some(eighth) => meaning::of_whole_byte(&first, &eighth, byte.value()),
            None => meaning::of_part_byte(&first, byte.clocks.len()),
        };
        self.tell(&Happening::Byte(BusByte {
            meaning: words,
            label,
            ..byte
        }))
    }

    /// Clocks outside a transfer are no byte, so that nothing happens inside of one.
    fn tell_stray_clocks(&mut self) -> Outcome {
        match self.is_in_transfer {
            true => Ok(()),
            false => self.tell_group(),
        }
    }

    fn start(&mut self, moment: &Moment) -> Outcome {
        self.tell_group()?;
        self.beside.lamps = moment.lamps;
        let is_repeated = self.is_in_transfer;
        self.is_in_transfer = true;
        self.tell(&Happening::Start { is_repeated })
    }

    fn stop(&mut self, moment: &Moment) -> Outcome {
        self.tell_group()?;
        self.beside.lamps = moment.lamps;
        self.is_in_transfer = false;
        self.tell(&Happening::Stop)
    }

    fn clock(&mut self, moment: &Moment) -> Outcome {
        self.beside.pin = moment.answer.pin();
        self.beside.lamps = moment.lamps;
        self.group.first.get_or_insert(moment.before);
        self.group.clocks.push(BusClock {
            master_is_high: moment.master_is_high(),
            line_is_high: moment.answer.line_is_high(),
            device_pulls: moment.device_pulls(),
        });
        match self.group.clocks.len() {
            8 => self.group.eighth = Some(moment.after),
            9 => return self.tell_group(),
            _ => {}
        }
        Ok(())
    }

    /// An edge on a counter's pin; those on one pin are told together.
    fn edge(&mut self, moment: &Moment) -> Outcome {
        self.tell_stray_clocks()?;
        let is_another = |edges: &EdgeReport| {
            edges.event != moment.event || edges.before.select != moment.before.select
        };
        if self.edges.as_ref().is_some_and(is_another) {
            self.tell_edges()?;
        }
        let inside = self.clocks_under_way();
        let report = self.edges.get_or_insert(EdgeReport {
            event: moment.event,
            count: 0,
            before: moment.before,
            after: moment.after,
            inside,
        });
        report.count += 1;
        report.after = moment.after;
        Ok(())
    }

    /// A loss of power ends what was under way; other power events leave it.
    fn power(&mut self, moment: &Moment) -> Outcome {
        self.tell_stray_clocks()?;
        let is_lost = moment.before.power == Power::On && moment.after.power != Power::On;
        if is_lost {
            self.tell_group()?;
            self.is_in_transfer = false;
        }
        self.beside.pin = moment.answer.pin();
        self.beside.lamps = moment.lamps;
        let change = PowerChange {
            event: moment.event,
            before: moment.before.power,
            part: moment.before.part,
            inside: self.clocks_under_way(),
        };
        self.tell(&Happening::Power(change))
    }

    /// Tells what a later event could still have been a part of, but for a byte: somebody waits for it.
    pub fn pause(&mut self) -> Outcome {
        self.tell_ticks()?;
        self.tell_edges()
    }

    /// The clocks of the byte under way, if there are any.
    fn clocks_under_way(&self) -> Option<usize> {
        let clocks = self.group.clocks.len();
        (clocks > 0).then_some(clocks)
    }
}

impl Observer for Grouping<'_> {
    fn moment(&mut self, moment: &Moment) -> Outcome {
        self.tell_ticks()?;
        if let family::event::EDGE_1 | family::event::EDGE_2 = moment.event {
            return self.edge(moment);
        }
        self.tell_edges()?;
        match moment.event {
            event::START => self.start(moment),
            event::STOP => self.stop(moment),
            event::CLOCK_LOW | event::CLOCK_HIGH => self.clock(moment),
            _ => self.power(moment),
        }
    }

    fn ticks(&mut self, run: &TickRun) -> Outcome {
        self.tell_edges()?;
        self.tell_stray_clocks()?;
        let inside = self.clocks_under_way();
        match &mut self.ticks {
            Some(report) => report.extend(run),
            None => self.ticks = Some(TickReport::of(run, inside)),
        }
        Ok(())
    }

    fn finish(&mut self) -> Outcome {
        self.tell_ticks()?;
        self.tell_edges()?;
        self.tell_group()?;
        for listener in &mut self.listeners {
            listener.finish()?;
        }
        Ok(())
    }
}

/// Who sends a byte, by the state before its first clock.
fn direction(first: &State) -> Direction {
    match first.phase {
        Phase::Idle => Direction::Unheard,
        Phase::Read(_) => Direction::Read,
        _ => Direction::Write,
    }
}
