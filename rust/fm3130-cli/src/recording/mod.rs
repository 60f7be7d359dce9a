// SPDX-License-Identifier: Apache-2.0
//! A recording of the two wires, read from a waveform file (VCD) of any length, as events and levels.
//!
//! A recording begins once the file has given a level of each wire. What they were before nobody knows,
//! so that the first levels are no edges: neither a Start nor a pulse.
//!
//! A waveform shows the level of SDA and not who pulls it. Where the line is low, the master is taken
//! to pull it, but where the protocol says that it has let go: at the ninth clock of a byte that it
//! sends to one of the part's four slave addresses, and at the eight bits of a byte that it reads
//! from there. Whatever other parts pull counts as the master's.
//!
//! Ticks, power and the ACS pin are taken from wires that are called as our own waveforms call them, where there
//! are any.

mod roles;
mod seen;
mod wires;

use std::io::{self, BufRead};

use fm3130::{event, State};

pub use seen::{Giver, Seen};
use seen::{Wire, WIRES};
use wires::{Change, Wires};

/// The most wires that are named where one is not there.
const MOST_NAMES: usize = 12;

/// The longest word that is read: a file without blanks is no waveform.
const MOST_SIGNS: usize = 1 << 16;

/// How a sigrok session file begins: it is a ZIP archive.
pub const SESSION_BEGIN: [u8; 4] = *b"PK\x03\x04";

/// The number of ticks that a pulse stands for, in our own waveforms.
const NUMBER: &str = "TICKS";

/// The wires beside the bus, as our own waveforms name them.
const BESIDE: [(&str, Wire); 6] = [
    ("TICK", Wire::Tick),
    ("VDD", Wire::MainPower),
    ("SUPPLIED", Wire::Supplied),
    ("ACS", Wire::Pin),
    ("ACS_F1", Wire::FunctionHigh),
    ("ACS_F0", Wire::FunctionLow),
];

/// So many Clocks, in words.
pub fn clocks(count: usize) -> String {
    match count {
        1 => "1 Clock".to_string(),
        _ => format!("{count} Clocks"),
    }
}

/// How many events were seen.
#[derive(Clone, Copy, Debug, Default, PartialEq, Eq)]
pub struct Counts {
    /// All of them.
    pub events: usize,
    /// Clocks whose level is the part's.
    pub answers: usize,
    /// Clocks that are not for the part.
    pub others: usize,
    /// Clocks outside any transfer.
    pub anybody: usize,
    /// Slave bytes that name the part.
    pub named: usize,
}

impl Counts {
    fn add(&mut self, seen: &Seen) {
        let is_clock = seen.event == event::CLOCK_LOW || seen.event == event::CLOCK_HIGH;
        self.events += 1;
        self.answers += usize::from(seen.giver == Giver::Part);
        self.others += usize::from(seen.giver == Giver::Others);
        self.anybody += usize::from(is_clock && seen.giver == Giver::Anybody);
    }
}

/// The words of a file, one after the other.
struct Words<Input> {
    input: Input,
}

impl<Input: BufRead> Words<Input> {
    /// The next word; nothing at the end.
    fn next(&mut self) -> Result<Option<String>, String> {
        let mut word = Vec::new();
        loop {
            let some = match self.input.fill_buf() {
                Ok(some) => some,
                Err(error) if error.kind() == io::ErrorKind::Interrupted => continue,
                Err(error) => return Err(format!("it cannot be read: {error}")),
            };
            if some.is_empty() {
                break;
            }
            let blank = some.iter().position(u8::is_ascii_whitespace);
            let length = blank.unwrap_or(some.len());
            word.extend_from_slice(&some[..length]);
            self.input.consume(length + usize::from(blank.is_some()));
            if blank.is_some() && !word.is_empty() {
                break;
            }
            if word.len() > MOST_SIGNS {
                return Err(
                    "it is no waveform file: it has a word of more than 65,536 signs".to_string(),
                );
            }
        }
        let text = String::from_utf8_lossy(&word).into_owned();
        Ok((!text.is_empty()).then_some(text))
    }

    /// The words up to `$end`.
    fn up_to_end(&mut self) -> Result<Vec<String>, String> {
        let mut words = Vec::new();
        while let Some(word) = self.next()? {
            if word == "$end" {
                break;
            }
            words.push(word);
        }
        Ok(words)
    }
}

/// A waveform file that is read piece by piece.
pub struct Recording<Input> {
    words: Words<Input>,
    /// The marks that stand for wires in the file.
    marks: Vec<(String, Wire)>,
    /// The names of the clock's wire and of the data's.
    names: [String; 2],
    wires: Wires,
    /// What would be seen if the two wires of the bus were swapped.
    swapped: Wires,
    counts: Counts,
    /// What changes at the moment under way.
    changes: [Option<Change>; WIRES],
    /// The mark of the number of ticks, if there is one.
    number: Option<String>,
    /// The ticks of the next pulse.
    ticks: u64,
    is_over: bool,
}

impl<Input: BufRead> Recording<Input> {
    /// Opens a waveform file, for a device that is in a state before its first event; or says why nothing can be
    /// judged by it.
    pub fn open(
        input: Input,
        [clock, data]: &[String; 2],
        state: &State,
    ) -> Result<Recording<Input>, String> {
        let mut words = Words { input };
        let wires = wires_of_head(&mut words)?;
        Ok(Recording {
            marks: marks(&wires, [clock, data])?,
            words,
            names: [clock.clone(), data.clone()],
            wires: Wires::new(state),
            swapped: Wires::new(state),
            counts: Counts::default(),
            changes: [None; WIRES],
            number: mark_of(&wires, NUMBER),
            ticks: 1,
            is_over: false,
        })
    }

    /// The names of the wires beside the bus that there are.
    pub fn beside(&self) -> Vec<&'static str> {
        let is_there = |wire: Wire| self.marks.iter().any(|(_, one)| *one == wire);
        let there = BESIDE.into_iter().filter(|(_, wire)| is_there(*wire));
        there.map(|(name, _)| name).collect()
    }

    /// The next events, at most so many; none at the end.
    pub fn piece(&mut self, most: usize) -> Result<Vec<Seen>, String> {
        while !self.is_over && self.wires.seen.len() < most {
            self.take_word()?;
        }
        if self.wires.lacks_clock {
            return Err(self.lacks_clock());
        }
        let mut piece = Vec::new();
        while let Some(front) = self.wires.seen.front_mut().filter(|_| piece.len() < most) {
            let some = front.times.min((most - piece.len()) as u64);
            let one = Seen { times: 1, ..*front };
            piece.extend((0..some).map(|_| one));
            front.times -= some;
            if front.times == 0 {
                self.wires.seen.pop_front();
            }
        }
        piece.iter().for_each(|seen| self.counts.add(seen));
        Ok(piece)
    }

    fn take_word(&mut self) -> Result<(), String> {
        let Some(word) = self.words.next()? else {
            self.step();
            self.wires.finish();
            self.is_over = true;
            return Ok(());
        };
        let (value, mark) = match word.as_bytes() {
            [b'#', ..] => {
                self.step();
                return Ok(());
            }
            [b'$', ..] => {
                if word == "$comment" {
                    self.words.up_to_end()?;
                }
                return Ok(());
            }
            [b'r' | b'R', ..] => {
                let mark = self.words.next()?.unwrap_or_default();
                self.take_number(&word[1..], &mark);
                return Ok(());
            }
            // A vector; its wire is the next word.
            [b'b' | b'B', .., value] => (*value, self.words.next()?.unwrap_or_default()),
            [value, ..] => (*value, word.get(1..).unwrap_or_default().to_string()),
            [] => return Ok(()),
        };
        if let Some((_, wire)) = self.marks.iter().find(|(one, _)| *one == mark) {
            let place = *wire as usize;
            self.changes[place] = Change::of(value).or(self.changes[place]);
        }
        Ok(())
    }

    /// Our own waveforms have a number of the ticks that one long pulse stands for.
    fn take_number(&mut self, number: &str, mark: &str) {
        if self.number.as_deref() != Some(mark) {
            return;
        }
        if let Some(ticks) = number.parse().ok().filter(|ticks| *ticks > 0) {
            self.ticks = ticks;
        }
    }

    fn step(&mut self) {
        let changes = std::mem::replace(&mut self.changes, [None; WIRES]);
        // The number is that of a pulse that begins, and not of the end of the one before.
        let is_high = matches!(changes[Wire::Tick as usize], Some(Change::To(true)));
        let ticks = match is_high {
            true => std::mem::replace(&mut self.ticks, 1),
            false => 1,
        };
        self.wires.step(&changes, ticks);
        let mut other = changes;
        other.swap(Wire::Clock as usize, Wire::Data as usize);
        self.swapped.step(&other, 1);
        self.swapped.seen.clear();
    }

    /// Says that the two wires seem to be swapped, if they do: then more slave bytes would name the part.
    pub fn seems_swapped(&self) -> Option<String> {
        let (named, otherwise) = (self.wires.named, self.swapped.named);
        (otherwise > named).then(|| {
            let [clock, data] = &self.names;
            format!(
                "nothing to judge: with the wires swapped it names the part, {otherwise} times, and as \
                 they are {named} times; try --scl {data} --sda {clock}"
            )
        })
    }

    fn lacks_clock(&self) -> String {
        let clock = &self.names[0];
        format!(
            "the image is inside a byte, and a Clock of it may be missing: {clock} was high, or moved, \
             before a level of each wire was recorded; begin while it is low"
        )
    }

    /// What was seen in all, after the last piece; or why nothing was judged by it.
    pub fn finish(&self) -> Result<Counts, String> {
        let [clock, data] = &self.names;
        let level = |is_high| if is_high { "high" } else { "low" };
        let levels = (self.wires.level(Wire::Clock), self.wires.level(Wire::Data));
        let (at_end, data_at_end) = match levels {
            (Some(one), Some(other)) => (level(one), level(other)),
            (None, _) => return Err(format!("nothing to judge: it has no level of {clock}")),
            (_, None) => return Err(format!("nothing to judge: it has no level of {data}")),
        };
        let counts = Counts {
            named: self.wires.named,
            ..self.counts
        };
        if let Some(words) = self.seems_swapped() {
            return Err(words);
        }
        match counts {
            Counts { events: 0, .. } => Err(format!(
                "nothing to judge: it has no Start, no Stop and no whole pulse of {clock}; \
                 at its end {clock} is {at_end} and {data} is {data_at_end}"
            )),
            Counts { answers: 0, .. } => Err(unanswered(counts.anybody)),
            _ => Ok(counts),
        }
    }
}

/// The mark that stands for a name in the file.
fn mark_of(wires: &[(String, String)], wanted: &str) -> Option<String> {
    let mut found = wires.iter();
    let found = found.find(|(_, name)| name.eq_ignore_ascii_case(wanted));
    found.map(|(mark, _)| mark.clone())
}

/// The marks that stand for the wires in the file: the two of the bus must be there.
fn marks(wires: &[(String, String)], names: [&String; 2]) -> Result<Vec<(String, Wire)>, String> {
    let mark = |wanted: &str| mark_of(wires, wanted);
    let [clock, data] = names.map(|name| mark(name));
    let mut marks = match (clock, data) {
        (Some(clock), Some(data)) if clock != data => {
            vec![(clock, Wire::Clock), (data, Wire::Data)]
        }
        (Some(_), Some(_)) => return Err(format!("{} and {} are one wire", names[0], names[1])),
        (None, _) => return Err(not_there(names[0], wires)),
        (_, None) => return Err(not_there(names[1], wires)),
    };
    for (name, wire) in BESIDE {
        let is_free = |mark: &String| marks.iter().all(|(one, _)| one != mark);
        if let Some(mark) = mark(name).filter(is_free) {
            marks.push((mark, wire));
        }
    }
    Ok(marks)
}

/// Mark and name of every wire of a head, which must end.
fn wires_of_head(words: &mut Words<impl BufRead>) -> Result<Vec<(String, String)>, String> {
    let mut wires = Vec::new();
    while let Some(word) = words.next()? {
        match word.as_str() {
            "$enddefinitions" => return Ok(wires),
            "$comment" | "$date" | "$version" => {
                words.up_to_end()?;
            }
            "$var" => {
                // Kind, width, mark, name; more may follow.
                if let [_, _, mark, name, ..] = &words.up_to_end()?[..] {
                    wires.push((mark.clone(), name.clone()));
                }
            }
            _ => {}
        }
    }
    Err("it is no waveform file, or is cut: its head has no $enddefinitions".to_string())
}

/// Says that a wire is not there, and which are.
fn not_there(name: &str, wires: &[(String, String)]) -> String {
    let names: Vec<&str> = wires.iter().map(|(_, name)| name.as_str()).collect();
    let (shown, more) = names.split_at(names.len().min(MOST_NAMES));
    let more = match more.len() {
        0 => String::new(),
        count => format!(" and {count} more"),
    };
    match shown {
        [] => format!("it has no wire {name}, and no other"),
        _ => format!(
            "it has no wire {name}; its wires: {}{more}",
            shown.join(", ")
        ),
    }
}

/// Says that the part answers nothing of a recording.
fn unanswered(anybody: usize) -> String {
    match anybody {
        0 => "nothing to judge: no slave byte of the part has its acknowledge clock".to_string(),
        _ => format!(
            "nothing to judge: {} outside any transfer, and nothing that names the part",
            clocks(anybody)
        ),
    }
}

#[cfg(test)]
mod tests {
    use super::seen::PinSeen;
    use super::*;
    use fm3130::{Device, PinFunction};

    const HEAD: &str = "$timescale 1 us $end $var wire 1 ! D0 $end $var wire 1 \" D1 [0] $end\n\
                        $enddefinitions $end\n";

    /// Levels at the begin, both high.
    const FREE: &str = "#0 $dumpvars 1! 1\" $end\n";

    /// The slave byte A0h and its acknowledge, from SCL low on.
    const NAMED: &str =
        "1\" 1! #  0! # 0\" 1! # 0! # 1\" 1! # 0! # 0\" 1! # 0! # 1! # 0! # 1! # 0! \
                         # 1! # 0! # 1! # 0! # 1! # 0! # ";

    /// All that a text shows, read in pieces of three events.
    fn read(text: &str, clock: &str, data: &str, state: &State) -> Result<Vec<Seen>, String> {
        let names = [clock.to_string(), data.to_string()];
        let mut recording = Recording::open(text.as_bytes(), &names, state)?;
        let mut all = Vec::new();
        loop {
            let piece = recording.piece(3)?;
            if piece.is_empty() {
                return recording.finish().map(|_| all);
            }
            all.extend(piece);
        }
    }

    fn read_in(state: &State, body: &str) -> Result<Vec<Seen>, String> {
        read(&format!("{HEAD}{body}"), "d0", "D1", state)
    }

    /// What a fresh device would see.
    fn read_fresh(body: &str) -> Result<Vec<Seen>, String> {
        read_in(&Device::fresh().state(), body)
    }

    /// The events before a transaction that names the part; without it there is nothing to judge.
    fn events(body: &str) -> Vec<u8> {
        let named = format!("{body} # 0! # 1\" # 1! # 0\" # 0! # {NAMED}");
        let seen = read_fresh(&named).unwrap();
        let events: Vec<u8> = seen.iter().map(|one| one.event).collect();
        let named = [0, 3, 2, 3, 2, 2, 2, 2, 2, 3];
        assert_eq!(events[events.len() - named.len()..], named, "{body}");
        events[..events.len() - named.len()].to_vec()
    }

    #[test]
    fn edges_become_events() {
        // Start, a clock with the line low, one with it high, Stop.
        let body = "#1 0\" #2 0! #3 1! #4 0! #5 b1 \" #6 1! #7 0! #8 0\" #9 1! #10 z\"";
        assert_eq!(events(&format!("{FREE}{body}")), [0, 2, 3, 1]);
    }

    #[test]
    fn data_that_change_with_the_clock_change_while_it_is_low() {
        let body = "#1 0\" #2 0! #3 1! 1\" #4 0! 0\" #5 1! #6 0!";
        assert_eq!(events(&format!("{FREE}{body}")), [0, 3, 2]);
    }

    #[test]
    fn unknown_levels_and_comments_change_nothing() {
        let body = "#1 x\" #2 $comment 0\" $end #3 0\" #4 0!";
        assert_eq!(events(&format!("{FREE}{body}")), [0]);
    }

    /// A hung bus: the recording begins with SDA low, and nobody saw it fall.
    #[test]
    fn the_first_levels_are_no_edges() {
        assert_eq!(events("#0 1! 0\""), []);
        assert_eq!(events("$dumpvars 1! 0\" $end #0"), []);
        assert_eq!(events("#0 x! x\" #1 1! #2 0\" #3 1\""), [1]);
        // A wire that nobody drives, or that is unknown, has no level yet.
        assert_eq!(events("#0 1! z\" #1 0\" #2 1\""), [1]);
        assert_eq!(events("#0 z! 1\" #1 1! #2 0\" #3 0!"), [0]);
        // Two pulses while SDA is unknown, and half of one, are no Clocks; the next is one.
        let body = "#0 1! x\" #1 0! #2 1! #3 0! #4 1! #5 0\" #6 0! #7 1! #8 0!";
        assert_eq!(events(body), [2]);
    }

    /// The state after some events on a fresh device.
    fn after(events: &[u8]) -> State {
        let mut device = Device::fresh();
        device.run(events).unwrap();
        device.state()
    }

    #[test]
    fn an_image_may_stand_inside_a_byte() {
        // The slave byte A0h but its last bit; SCL rests low.
        let state = after(&[0, 3, 2, 3, 2, 2, 2, 2]);
        let rest = "#1 1! #2 0! #3 1! #4 0!";
        let seen = read_in(&state, &format!("#0 0! 0\" {rest}")).unwrap();
        let events: Vec<u8> = seen.iter().map(|one| one.event).collect();
        assert_eq!(events, [2, 3]);
        assert_eq!(seen[1].giver, Giver::Part);
        // SCL is high at the begin: nobody knows whether that Clock is in the image.
        for begin in [
            "#0 1! 0\"",
            "#0 0! x\" #1 1! 0\"",
            "#0 1! #1 0! 0\"",
            "#0 1! #1 0! #2 0\"",
        ] {
            let said = read_in(&state, &format!("{begin} # 0! # {rest}")).unwrap_err();
            assert!(said.contains("inside a byte"), "{begin}: {said}");
        }
        // A Stop or a Start drops the byte, and then it does not matter.
        let seen = read_in(&state, &format!("#0 1! 0\" #1 1\" #2 0\" #3 0! # {NAMED}"));
        assert_eq!(seen.unwrap().len(), 2 + 9);
    }

    #[test]
    fn a_wire_that_is_not_there_is_named_and_so_are_the_others() {
        let state = Device::fresh().state();
        let said = |clock, data| read(HEAD, clock, data, &state).unwrap_err();
        assert_eq!(said("SCL", "D1"), "it has no wire SCL; its wires: D0, D1");
        assert_eq!(said("D0", "SDA"), "it has no wire SDA; its wires: D0, D1");
        assert_eq!(said("D0", "d0"), "D0 and d0 are one wire");
        let wires: String = (0..14)
            .map(|n| format!("$var wire 1 {n} D{n} $end "))
            .collect();
        let many = format!("{wires}$enddefinitions $end");
        assert_eq!(
            read(&many, "SCL", "D1", &state).unwrap_err(),
            "it has no wire SCL; its wires: D0, D1, D2, D3, D4, D5, D6, D7, D8, D9, D10, D11 and 2 more"
        );
        let none = read("$enddefinitions $end", "SCL", "SDA", &state);
        assert_eq!(none.unwrap_err(), "it has no wire SCL, and no other");
    }

    #[test]
    fn a_head_must_end() {
        let state = Device::fresh().state();
        let cut = HEAD.replace("$enddefinitions $end", "$comment $enddefinitions $end");
        let said = read(&format!("{cut}{FREE}"), "D0", "D1", &state).unwrap_err();
        assert!(said.ends_with("its head has no $enddefinitions"), "{said}");
    }

    #[test]
    fn what_is_not_answered_is_not_judged() {
        let said = |body: &str| read_fresh(body).unwrap_err();
        assert_eq!(
            said("#0 1! x\" #1 0! #2 z\""),
            "nothing to judge: it has no level of D1"
        );
        assert_eq!(said(""), "nothing to judge: it has no level of d0");
        assert_eq!(
            said("#0 1! 0\" #5"),
            "nothing to judge: it has no Start, no Stop and no whole pulse of d0; \
             at its end d0 is high and D1 is low"
        );
        assert_eq!(
            said("#0 0! 0\" #1 1! #2 0! #3 1! #4 0!"),
            "nothing to judge: 2 Clocks outside any transfer, and nothing that names the part"
        );
        assert_eq!(
            said("#0 1! 1\" #1 0\" #2 0! #3 1! #4 0!"),
            "nothing to judge: no slave byte of the part has its acknowledge clock"
        );
    }

    #[test]
    fn ticks_and_power_have_wires_of_their_own() {
        let head = "$var wire 1 ! SCL $end $var wire 1 \" SDA $end $var wire 1 t TICK $end \
                    $var real 64 n TICKS $end $var wire 1 v VDD $end $var wire 1 s SUPPLIED $end $enddefinitions $end\n";
        let body = "#0 1! 1\" 0t 1v 1s r0 n #1 1t #2 0t #3 1t r4 n #4 0t #5 0v #6 1v #7 0v 0s \
                    #8 1s #9 1v #10 0\" #11 0! # ";
        let state = Device::fresh().state();
        let seen = read(&format!("{head}{body}{NAMED}"), "SCL", "SDA", &state).unwrap();
        let events: Vec<u8> = seen.iter().map(|one| one.event).collect();
        assert_eq!(events[..10], [4, 4, 4, 4, 4, 5, 7, 6, 7, 0]);
    }

    #[test]
    fn the_pin_is_what_the_wires_are_before_the_next_event() {
        let head = "$var wire 1 ! SCL $end $var wire 1 \" SDA $end $var wire 1 t TICK $end \
                    $var real 64 n TICKS $end $var wire 1 p ACS $end $var wire 1 h ACS_F1 $end $var wire 1 l ACS_F0 $end \
                    $enddefinitions $end\n";
        let body = "#0 1! 1\" 0t 1p 0h 1l #1 r3 n 1t #2 0t #3 0p #4 0\" #5 0! 1p # ";
        let state = Device::fresh().state();
        let seen = read(&format!("{head}{body}{NAMED}"), "SCL", "SDA", &state).unwrap();
        let alarm = |is_low| PinSeen {
            is_low: Some(is_low),
            function: Some(PinFunction::Alarm),
        };
        let pins: Vec<PinSeen> = seen[..4].iter().map(|one| one.pin).collect();
        let unknown = PinSeen::default();
        assert_eq!(pins, [unknown, unknown, alarm(true), alarm(false)]);
        assert_eq!(alarm(true).in_answer(0x05), 0x0B);
        assert_eq!(unknown.in_answer(0x0B), 0x0B);
        // A level alone says nothing of a square wave, and says it of an alarm.
        let low = PinSeen {
            is_low: Some(true),
            function: None,
        };
        assert_eq!((low.in_answer(0x05), low.in_answer(0x03)), (0x05, 0x0B));
    }
}
