// SPDX-License-Identifier: Apache-2.0
//! The wires of a recording, and the events that their edges are.

use std::collections::VecDeque;

use fm3130::{event, Power, State};

use super::roles::Roles;
use super::seen::{Giver, PinSeen, Seen, Wire, WIRES};

/// What a file says of a wire.
#[derive(Clone, Copy)]
pub enum Change {
    /// It has a level.
    To(bool),
    /// Nobody drives it.
    Released,
}

impl Change {
    /// What a value says; an unknown one says nothing.
    pub fn of(value: u8) -> Option<Change> {
        match value {
            b'0' | b'l' | b'L' => Some(Change::To(false)),
            b'1' | b'h' | b'H' => Some(Change::To(true)),
            b'z' | b'Z' => Some(Change::Released),
            _ => None,
        }
    }

    /// The level after a change: a wire that nobody drives is pulled up, but is no first level.
    fn level(change: Option<Change>, before: Option<bool>) -> Option<bool> {
        match change {
            Some(Change::To(level)) => Some(level),
            Some(Change::Released) => before.map(|_| true),
            None => before,
        }
    }
}

/// Levels of all wires, where the file has given one.
type Levels = [Option<bool>; WIRES];

/// The wires, and what was seen on them.
pub struct Wires {
    levels: Levels,
    /// SCL has moved before both levels were known, or was high when they were: there may be a Clock
    /// that was not seen, unless a Start or a Stop begins anew.
    may_lack_clock: bool,
    /// It was so at a Clock of a byte that was under way.
    pub lacks_clock: bool,
    /// The level of SDA when SCL rose, if it did not turn since.
    bit: Option<bool>,
    roles: Roles,
    /// The supplies, as the events so far have left them.
    power: Power,
    /// What was seen last: the pin after it is known only when the next begins.
    last: Option<Seen>,
    /// What was seen before it, and not yet asked for.
    pub seen: VecDeque<Seen>,
    /// How many slave bytes named the part.
    pub named: usize,
}

impl Wires {
    /// Wires of a device that is in a state.
    pub fn new(state: &State) -> Wires {
        Wires {
            levels: [None; WIRES],
            may_lack_clock: false,
            lacks_clock: false,
            bit: None,
            roles: Roles::of(state),
            power: state.power,
            last: None,
            seen: VecDeque::new(),
            named: 0,
        }
    }

    /// The level of a wire.
    pub fn level(&self, wire: Wire) -> Option<bool> {
        self.levels[wire as usize]
    }

    /// The levels after a moment, at which so many ticks pass if the wire for them rises. The first levels that are
    /// known are no edges. Where both wires of the bus change at once, data change while the clock is low.
    pub fn step(&mut self, changes: &[Option<Change>; WIRES], ticks: u64) {
        let before = self.levels;
        for (level, change) in self.levels.iter_mut().zip(changes) {
            *level = Change::level(*change, *level);
        }
        self.step_bus(&before);
        let rises = |wire: Wire| {
            before[wire as usize] == Some(false) && self.levels[wire as usize] == Some(true)
        };
        if rises(Wire::Tick) {
            self.push_ticks(ticks, &before);
        }
        self.step_power(&before);
    }

    fn step_bus(&mut self, before: &Levels) {
        let now = (self.level(Wire::Clock), self.level(Wire::Data));
        let then = (before[Wire::Clock as usize], before[Wire::Data as usize]);
        let (Some(clock), Some(data)) = now else {
            self.may_lack_clock |= then.0.is_some() && then.0 != now.0;
            return;
        };
        match then {
            (Some(true), Some(data_before)) if clock => self.turn(data_before, data, before),
            (Some(true), Some(_)) => self.fall(before),
            (Some(false), Some(_)) if clock => self.bit = Some(data),
            (Some(false), Some(_)) => {}
            (clock_before, _) => {
                self.may_lack_clock |= clock || clock_before == Some(true);
            }
        }
    }

    /// Supplies that are others than before. Where there is no wire for the backup, it is there.
    fn step_power(&mut self, before: &Levels) {
        let Some(is_on) = self.level(Wire::MainPower) else {
            return;
        };
        let power = match (is_on, self.level(Wire::Supplied)) {
            (true, _) => Power::On,
            (false, Some(false)) => Power::None,
            (false, _) => Power::Backup,
        };
        if power == self.power {
            return;
        }
        let event = match (self.power, power) {
            (_, Power::On) => event::POWER_RETURNED,
            (_, Power::None) => event::POWER_LOST_WITHOUT_BACKUP,
            (Power::None, Power::Backup) => return,
            (Power::On | Power::Backup, Power::Backup) => event::POWER_LOST_WITH_BACKUP,
        };
        self.power = power;
        if power != Power::On {
            self.roles.lose_power();
        }
        self.push(event, true, Giver::Anybody, before);
    }

    /// Notes ticks at once: the pin is known after the last.
    fn push_ticks(&mut self, ticks: u64, before: &Levels) {
        self.push(event::TICK, true, Giver::Anybody, before);
        if ticks > 1 {
            self.last = self.last.map(|last| Seen {
                times: ticks - 1,
                ..last
            });
            self.push(event::TICK, true, Giver::Anybody, &[None; WIRES]);
        }
    }

    /// Notes an event. The pin after the one before it is what the wires were until now.
    fn push(&mut self, event: u8, line_is_high: bool, giver: Giver, before: &Levels) {
        let pin = PinSeen::of(before);
        let next = Seen {
            event,
            line_is_high,
            times: 1,
            giver,
            pin: PinSeen::default(),
        };
        if let Some(last) = self.last.replace(next) {
            self.seen.push_back(Seen { pin, ..last });
        }
    }

    /// SDA turns while SCL is high: a condition and no bit.
    fn turn(&mut self, before_data: bool, data: bool, before: &Levels) {
        if before_data == data {
            return;
        }
        self.bit = None;
        self.may_lack_clock = false;
        let event = if data { event::STOP } else { event::START };
        if self.power == Power::On {
            self.roles.condition(event);
        }
        self.push(event, true, Giver::Master, before);
    }

    /// SCL falls: a whole pulse with SDA steady is a Clock.
    fn fall(&mut self, before: &Levels) {
        self.lacks_clock |= self.may_lack_clock && self.roles.is_for_the_part();
        if let Some(line_is_high) = self.bit.take() {
            let giver = self.roles.giver();
            self.named += usize::from(self.roles.names_the_part());
            self.roles.take_clock(line_is_high);
            let event = event::clock(giver == Giver::Part || line_is_high);
            self.push(event, line_is_high, giver, before);
        }
    }

    /// No change follows: the pin after the last event is what the wires are.
    pub fn finish(&mut self) {
        if let Some(last) = self.last.take() {
            let pin = PinSeen::of(&self.levels);
            self.seen.push_back(Seen { pin, ..last });
        }
    }
}
