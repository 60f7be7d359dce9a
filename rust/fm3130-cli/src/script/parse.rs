// SPDX-License-Identifier: Apache-2.0
//! From text to items.

use fm3130::family::{edge_1, edge_2, Select};
use fm3130::masters::Master;

use super::item::{Action, Expected, Item, Ninth, Turn};
use super::problem::{Place, Problem};
use crate::chip::Part;
use crate::nearest::nearest;

/// The greatest repeat: a century has 3,155,760,000 seconds.
const MOST_TIMES: u64 = 4_294_967_295;

/// What words there are, for whoever wrote another.
const KNOWN_WORDS: &str = "known: [ ] r r+ R r- t lost gone power, bytes as A0 or 0xA0, \
                           clocks as {0110}, expectations as r=5A A0+ A0- pin=low";

/// The same for a part with counters.
const KNOWN_WITH_EDGES: &str =
    "known: [ ] r r+ R r- t c1 c2 lost gone power, bytes as A0 or 0xA0, \
     clocks as {0110}, expectations as r=5A A0+ A0-";

/// The same for a set.
const KNOWN_IN_A_SET: &str =
    "known: [ ] r r+ R r- t c1@0 c2@0 lost gone power, bytes as A0 or 0xA0, \
     clocks as {0110}, expectations as r=5A A0+ A0-";

/// Words of more than a letter, one of which a typo may have been.
const LONG_WORDS: [&str; 3] = ["lost", "gone", "power"];

/// A message and advice.
type Wrong = (String, String);

/// What a script is for.
#[derive(Clone, Copy)]
enum Target<'run> {
    /// One device of a part.
    One(Part),
    /// A set, whose devices have these select bits by their places.
    Set(&'run [Select]),
}

/// The items of a text for a part, or the first problem in it.
pub fn parse(text: &str, part: Part) -> Result<Vec<Item>, Problem> {
    parse_for(text, Target::One(part))
}

/// The items of a text for a set, whose devices have these select bits, or the first problem in it.
pub fn parse_for_set(text: &str, selects: &[Select]) -> Result<Vec<Item>, Problem> {
    parse_for(text, Target::Set(selects))
}

fn parse_for(text: &str, target: Target) -> Result<Vec<Item>, Problem> {
    let mut items = Vec::new();
    for (index, content) in text.lines().enumerate() {
        let mut line = Line::new(index + 1, content, target);
        while line.skip_to_item() {
            line.must_be_of_one_master()?;
            items.push(line.item()?);
        }
    }
    Ok(items)
}

/// The turns of a text, or the first problem in it. Two masters share an FM3130.
pub fn parse_turns(text: &str) -> Result<Vec<Turn>, Problem> {
    let mut turns: Vec<Turn> = Vec::new();
    for (index, content) in text.lines().enumerate() {
        let mut line = Line::new(index + 1, content, Target::One(Part::Fm3130));
        while line.skip_to_item() {
            if let Some(master) = line.master() {
                turns.push(Turn {
                    master,
                    items: Vec::new(),
                    words: String::new(),
                });
                continue;
            }
            let begin = line.next;
            let item = line.item()?;
            let Some(turn) = turns.last_mut() else {
                let advice = "write a: or b: before it";
                return Err(Problem::new(
                    line.since(begin),
                    "no master plays this",
                    advice,
                ));
            };
            turn.items.push(item);
            if !turn.words.is_empty() {
                turn.words.push(' ');
            }
            turn.words.extend(&line.signs[begin..line.next]);
        }
    }
    Ok(turns)
}

/// One line, read from left to right.
struct Line<'run> {
    number: usize,
    signs: Vec<char>,
    next: usize,
    /// What the script is for.
    target: Target<'run>,
}

impl<'run> Line<'run> {
    fn new(number: usize, content: &str, target: Target<'run>) -> Line<'run> {
        Line {
            number,
            signs: content.chars().collect(),
            next: 0,
            target,
        }
    }

    fn peek(&self) -> Option<char> {
        self.signs.get(self.next).copied()
    }

    /// The characters from one place to the next one to be read.
    fn since(&self, begin: usize) -> Place {
        Place {
            line: self.number,
            column: begin + 1,
            width: (self.next - begin).max(1),
        }
    }

    /// True at a comment, which ends the line.
    fn is_at_comment(&self) -> bool {
        let rest = &self.signs[self.next..];
        rest.starts_with(&['#']) || rest.starts_with(&['/', '/'])
    }

    /// Goes to the next item; false at the end of the line. A byte order mark counts as a blank.
    fn skip_to_item(&mut self) -> bool {
        while let Some(sign) = self.peek() {
            if self.is_at_comment() {
                return false;
            }
            if !(sign.is_whitespace() || sign == ',' || sign == '\u{FEFF}') {
                return true;
            }
            self.next += 1;
        }
        false
    }

    /// The master whose turn begins here, `a:` or `b:`. With a number after it, it would be a repeat.
    fn master(&mut self) -> Option<Master> {
        let master = match self.signs[self.next..] {
            ['a', ':', ..] => Master::Rig,
            ['b', ':', ..] => Master::Handheld,
            _ => return None,
        };
        if self
            .signs
            .get(self.next + 2)
            .is_some_and(|sign| sign.is_ascii_digit())
        {
            return None;
        }
        self.next += 2;
        Some(master)
    }

    /// Refuses a turn of two masters where there is one.
    fn must_be_of_one_master(&mut self) -> Result<(), Problem> {
        let begin = self.next;
        match self.master() {
            None => Ok(()),
            Some(_) => Err(Problem::new(
                self.since(begin),
                "this begins a turn of two masters",
                "`fm3130 share` plays a script of two masters",
            )),
        }
    }

    /// An item: an action, what is expected of it, and its repeat.
    fn item(&mut self) -> Result<Item, Problem> {
        let begin = self.next;
        let (action, expected) = match self.peek() {
            Some('[') => (self.single(Action::Start), None),
            Some(']') => (self.single(Action::Stop), None),
            Some('{') => (self.clocks()?, None),
            Some('}') => return Err(self.stray("there is no { before this }")),
            Some(':' | '*') => {
                return Err(self.stray("a repeat stands right after what it repeats"))
            }
            _ => self.word()?,
        };
        let word = self.since(begin);
        let times = self.times()?;
        if action == Action::Look && self.since(begin) != word {
            let message = "the pin is looked at once";
            return Err(Problem::new(self.since(begin), message, ""));
        }
        Ok(Item {
            action,
            times,
            expected,
            place: self.since(begin),
        })
    }

    fn single(&mut self, action: Action) -> Action {
        self.next += 1;
        action
    }

    /// A problem with the one character here.
    fn stray(&mut self, message: &str) -> Problem {
        let begin = self.next;
        self.next += 1;
        Problem::new(self.since(begin), message, "")
    }

    /// Clocks in braces; blanks between them do not count.
    fn clocks(&mut self) -> Result<Action, Problem> {
        let begin = self.next;
        self.next += 1;
        let mut levels = Vec::new();
        loop {
            match self.peek() {
                Some('0') => levels.push(false),
                Some('1') => levels.push(true),
                Some('}') => break,
                Some(sign) if sign.is_whitespace() || sign == ',' => {}
                None => return Err(self.open_brace(begin)),
                Some(_) if self.is_at_comment() => return Err(self.open_brace(begin)),
                Some(_) => return Err(self.stray("a clock is 0 or 1")),
            }
            self.next += 1;
        }
        self.next += 1;
        if levels.is_empty() {
            let advice = "write each clock as 0 or 1, such as {0110}";
            return Err(Problem::new(
                self.since(begin),
                "no clocks in braces",
                advice,
            ));
        }
        Ok(Action::Clocks(levels))
    }

    fn open_brace(&self, begin: usize) -> Problem {
        Problem::new(
            self.since(begin),
            "a { without a } on its line",
            "write clocks as {0110}",
        )
    }

    /// A word: up to a blank, a bracket, a brace, a repeat or a comment.
    fn word(&mut self) -> Result<(Action, Option<Expected>), Problem> {
        let begin = self.next;
        while let Some(sign) = self.peek() {
            let ends = sign.is_whitespace() || ",[]{}:*".contains(sign) || self.is_at_comment();
            if ends {
                break;
            }
            self.next += 1;
        }
        let word: String = self.signs[begin..self.next].iter().collect();
        meaning_of(&word, self.target)
            .map_err(|(message, advice)| Problem::new(self.since(begin), message, advice))
    }

    /// The repeat right after an action, or 1.
    fn times(&mut self) -> Result<u64, Problem> {
        if !matches!(self.peek(), Some(':' | '*')) {
            return Ok(1);
        }
        let begin = self.next;
        self.next += 1;
        let first_digit = self.next;
        while self
            .peek()
            .is_some_and(|sign| sign.is_alphanumeric() || sign == '_')
        {
            self.next += 1;
        }
        let digits: String = self.signs[first_digit..self.next]
            .iter()
            .filter(|sign| **sign != '_')
            .collect();
        match digits.parse::<u64>() {
            Ok(times) if (1..=MOST_TIMES).contains(&times) => Ok(times),
            _ => Err(Problem::new(
                self.since(begin),
                format!("a repeat is a decimal number from 1 to {MOST_TIMES}"),
                "write r:8 or t*60, without blanks",
            )),
        }
    }
}

/// What a word asks for and expects; else a message and advice.
fn meaning_of(word: &str, target: Target) -> Result<(Action, Option<Expected>), Wrong> {
    if let Some((left, right)) = word.split_once('=') {
        return expectation(word, left, right, target);
    }
    // `r+` and `r-` say what the master does, and `A0+` and `A0-` what the device is to do.
    let acknowledge = match word.strip_suffix(['+', '-']) {
        Some(byte) if is_byte(byte) => Some((byte, word.ends_with('+'))),
        _ => None,
    };
    match acknowledge {
        Some((byte, is_expected)) => Ok((
            action_of(byte, target)?,
            Some(Expected::Acknowledge(is_expected)),
        )),
        None => Ok((action_of(word, target)?, None)),
    }
}

/// `r=5A` and `pin=low`.
fn expectation(
    word: &str,
    left: &str,
    right: &str,
    target: Target,
) -> Result<(Action, Option<Expected>), Wrong> {
    let wrong = |message: String, advice: &str| Err((message, advice.to_string()));
    match (left, read_of(left)) {
        ("pin", _) => match Expected::PINS.iter().find(|(name, _)| *name == right) {
            _ if !has_pin(target) => wrong(format!("{word}: there is no ACS pin"), ""),
            Some((_, pin)) => Ok((Action::Look, Some(Expected::Pin(*pin)))),
            None => wrong(
                format!("{word} is no state of the pin"),
                "write pin=low, pin=high, pin=released, pin=square or pin=calibration",
            ),
        },
        (_, Some(read)) => match byte_of(right, target) {
            Ok(byte) => Ok((read, Some(Expected::Byte(byte)))),
            Err(_) => wrong(
                format!("{word} expects no byte"),
                "write r=5A, with two hexadecimal digits",
            ),
        },
        _ => wrong(
            format!("{word}: of this no value is expected"),
            "write r=5A for a byte that is read, A0+ or A0- for one that is written, or pin=low",
        ),
    }
}

/// Whether there is an ACS pin to look at.
fn has_pin(target: Target) -> bool {
    matches!(target, Target::One(part) if !part.has_counters())
}

/// Whether a word writes a byte; `c1` and `c2` are edges.
fn is_byte(word: &str) -> bool {
    !matches!(word, "c1" | "c2") && byte_of(word, Target::One(Part::Fm3130)).is_ok()
}

/// The read that a word asks for.
fn read_of(word: &str) -> Option<Action> {
    match word {
        "r" => Some(Action::Read(Ninth::ByWhatFollows)),
        "r+" => Some(Action::Read(Ninth::Acknowledge)),
        "R" | "r-" => Some(Action::Read(Ninth::Release)),
        _ => None,
    }
}

/// What a word asks for; else a message and advice.
fn action_of(word: &str, target: Target) -> Result<Action, Wrong> {
    if let Some((pin @ ("c1" | "c2"), select)) = word.split_once('@') {
        return edge_of_device(word, pin, select, target);
    }
    if let Some(read) = read_of(word) {
        return Ok(read);
    }
    match word {
        "c1" | "c2" => edge(word, target),
        "t" => Ok(Action::Tick),
        "lost" => Ok(Action::PowerLost),
        "gone" => Ok(Action::PowerGone),
        "power" => Ok(Action::PowerReturned),
        _ => byte_of(word, target).map(Action::Write),
    }
}

/// An edge that names no device: that of the one part of a script.
fn edge(word: &str, target: Target) -> Result<Action, Wrong> {
    match target {
        Target::One(part) if !part.has_counters() => Err(no_counters(word, part)),
        Target::One(_) if word == "c1" => Ok(Action::FirstEdge),
        Target::One(_) => Ok(Action::SecondEdge),
        Target::Set(selects) => Err((
            format!("{word} does not say which device of the set"),
            format!("write {}", list_of(selects, &format!("{word}@"))),
        )),
    }
}

/// An edge that names a device of a set by its select bits.
fn edge_of_device(word: &str, pin: &str, select: &str, target: Target) -> Result<Action, Wrong> {
    let Target::Set(selects) = target else {
        let message = format!("{word} names a device of a set, and there is one part");
        let advice = format!("write {pin}, or make a set of parts such as --part fm3164@0");
        return Err((message, advice));
    };
    let has_bits = |one: &Select| one.to_string() == select;
    let Some(place) = selects.iter().position(has_bits) else {
        let message = format!("{word} names no device of the set");
        let advice = format!("write {}", list_of(selects, &format!("{pin}@")));
        return Err((message, advice));
    };
    Ok(Action::EdgeOfDevice(match pin {
        "c1" => edge_1(place),
        _ => edge_2(place),
    }))
}

/// Some words that differ in their select bits, for whoever wrote another.
fn list_of(selects: &[Select], begin: &str) -> String {
    let words: Vec<String> = selects.iter().map(|one| format!("{begin}{one}")).collect();
    words.join(" or ")
}

/// Two digits that look like a byte are an edge in every script, and never a byte by accident.
fn no_counters(word: &str, part: Part) -> Wrong {
    let (pin, byte) = (word.replace('c', "CNT"), word.to_uppercase());
    let message = format!("{word} is an edge on {pin}, and the {part} has no counters");
    let advice =
        format!("write {byte} or 0x{byte} for the byte; fm3130 run --part fm3164 has counters");
    (message, advice)
}

/// The byte that a word writes; else a message and advice.
fn byte_of(word: &str, target: Target) -> Result<u8, Wrong> {
    let prefixed = word.strip_prefix("0x").or_else(|| word.strip_prefix("0X"));
    let digits = prefixed.unwrap_or(word);
    let is_number = !digits.is_empty() && digits.chars().all(|sign| sign.is_ascii_hexdigit());
    if !is_number && prefixed.is_some() {
        let message = format!("{word} is no byte");
        return Err((message, "write 0x and two hexadecimal digits".to_string()));
    }
    if !is_number {
        let known = match target {
            Target::Set(_) => KNOWN_IN_A_SET,
            Target::One(part) if part.has_counters() => KNOWN_WITH_EDGES,
            Target::One(_) => KNOWN_WORDS,
        };
        let advice = match nearest(word, LONG_WORDS) {
            Some(near) => format!("perhaps {near}; {known}"),
            None => known.to_string(),
        };
        return Err((format!("unknown word {word}"), advice));
    }
    let fits = digits.len() == 2 || (digits.len() == 1 && prefixed.is_some());
    if !fits {
        let message = format!("{word} is not one byte");
        let advice = "a byte has two hexadecimal digits, and a blank stands between bytes";
        return Err((message, advice.to_string()));
    }
    u8::from_str_radix(digits, 16).map_err(|error| (error.to_string(), String::new()))
}

#[cfg(test)]
mod tests {
    use super::*;
    use fm3130::family::Size;

    /// The items of a text for the FM3130.
    fn parse(text: &str) -> Result<Vec<Item>, Problem> {
        super::parse(text, Part::Fm3130)
    }

    fn once(action: Action) -> (Action, u64) {
        (action, 1)
    }

    /// The actions of some items, and how often each is done.
    fn done(items: Vec<Item>) -> Vec<(Action, u64)> {
        let pairs = items.into_iter();
        pairs.map(|item| (item.action, item.times)).collect()
    }

    /// What the items of a text expect.
    fn expected(text: &str) -> Vec<Option<Expected>> {
        let items = parse(text).unwrap();
        items.into_iter().map(|item| item.expected).collect()
    }

    /// Line, column and width of the problem in a text, and its message.
    fn problem(text: &str) -> (usize, usize, usize, String) {
        let problem = parse(text).expect_err(text);
        let place = problem.place;
        (place.line, place.column, place.width, problem.message)
    }

    #[test]
    fn a_bus_pirate_line() {
        let items = parse("[0xA0 0x00,1f R]").unwrap();
        let expected = [
            once(Action::Start),
            once(Action::Write(0xA0)),
            once(Action::Write(0x00)),
            once(Action::Write(0x1F)),
            once(Action::Read(Ninth::Release)),
            once(Action::Stop),
        ];
        assert_eq!(done(items), expected);
    }

    #[test]
    fn repeats_clocks_ticks_and_power() {
        let items = parse("r:8 {01 1}:2 t*31_000_000 lost gone power FF*3 0x5 r+ r-").unwrap();
        let times: Vec<u64> = items.iter().map(|item| item.times).collect();
        assert_eq!(times, [8, 2, 31_000_000, 1, 1, 1, 3, 1, 1, 1]);
        assert_eq!(items[1].action, Action::Clocks(vec![false, true, true]));
        assert_eq!(items[7].action, Action::Write(0x05));
        assert_eq!(items[8].action, Action::Read(Ninth::Acknowledge));
        assert_eq!(items[9].action, Action::Read(Ninth::Release));
    }

    #[test]
    fn comments_and_empty_texts() {
        assert_eq!(parse("").unwrap(), []);
        assert_eq!(parse("# [ A0\n// ]\n \t\r\n").unwrap(), []);
        assert_eq!(parse("t# t\nt//t").unwrap().len(), 2);
        assert_eq!(parse("\u{FEFF}t").unwrap().len(), 1);
    }

    #[test]
    fn turns_of_two_masters() {
        let turns = parse_turns("a: [ A0 # begins\n b:t*60 a:]\nb:").unwrap();
        let masters: Vec<Master> = turns.iter().map(|turn| turn.master).collect();
        assert_eq!(
            masters,
            [Master::Rig, Master::Handheld, Master::Rig, Master::Handheld]
        );
        let words: Vec<&str> = turns.iter().map(|turn| turn.words.as_str()).collect();
        assert_eq!(words, ["[ A0", "t*60", "]", ""]);
        assert_eq!(turns[1].items[0].times, 60);
        assert_eq!(parse_turns("# none\n").unwrap(), []);
    }

    #[test]
    fn problems_of_turns() {
        let place = |text: &str| {
            let problem = parse_turns(text).expect_err(text);
            (problem.place.column, problem.message)
        };
        assert_eq!(place("[ A0 ]"), (1, "no master plays this".to_string()));
        assert_eq!(place("a: a:8"), (4, "a is not one byte".to_string()));
        assert_eq!(place("a: c: ]"), (4, "c is not one byte".to_string()));
        // In a script of one master there are no turns.
        assert_eq!(
            problem("t\n b: [ ]"),
            (2, 2, 2, "this begins a turn of two masters".to_string())
        );
        assert_eq!(problem("a:8").3, "a is not one byte");
    }

    #[test]
    fn expectations_of_bytes_and_of_the_pin() {
        assert_eq!(
            expected("r=5A r+=0x7 R=c1:3 r-=FF A0+ 0xd0- FF+*3 r+ r- A0"),
            [
                Some(Expected::Byte(0x5A)),
                Some(Expected::Byte(0x07)),
                Some(Expected::Byte(0xC1)),
                Some(Expected::Byte(0xFF)),
                Some(Expected::Acknowledge(true)),
                Some(Expected::Acknowledge(false)),
                Some(Expected::Acknowledge(true)),
                None,
                None,
                None,
            ]
        );
        for (word, pin) in Expected::PINS {
            let text = format!("t pin={word}");
            assert_eq!(expected(&text), [None, Some(Expected::Pin(pin))]);
        }
        let items = parse("[ A1 r=00:7 ]").unwrap();
        assert_eq!((items[2].times, items[2].place.column), (7, 6));
        assert_eq!(items[2].place.width, 6);
    }

    #[test]
    fn wrong_expectations_say_why() {
        for (text, message) in [
            ("r=5", "r=5 expects no byte"),
            ("r=", "r= expects no byte"),
            ("A0=5A", "A0=5A: of this no value is expected"),
            ("pin=up", "pin=up is no state of the pin"),
            ("pin=low:2", "the pin is looked at once"),
            ("pin=low*1", "the pin is looked at once"),
            ("t+", "unknown word t+"),
            ("r=5A+", "r=5A+ expects no byte"),
            ("A0++", "unknown word A0++"),
            ("c1+", "unknown word c1+"),
        ] {
            assert_eq!(problem(text).3, message);
        }
        let counters = super::parse("pin=low", Part::Family(Size::Kb64)).unwrap_err();
        assert_eq!(counters.message, "pin=low: there is no ACS pin");
    }

    #[test]
    fn edges_are_for_parts_with_counters() {
        let items = super::parse("c1 c2*5 C1 0xc2", Part::Family(Size::Kb256)).unwrap();
        let expected = [
            once(Action::FirstEdge),
            (Action::SecondEdge, 5),
            once(Action::Write(0xC1)),
            once(Action::Write(0xC2)),
        ];
        assert_eq!(done(items), expected);
        assert_eq!(
            problem("[ A0 c1 ]"),
            (
                1,
                6,
                2,
                "c1 is an edge on CNT1, and the FM3130 has no counters".to_string()
            )
        );
        let unknown = super::parse("c3c", Part::Family(Size::Kb64)).unwrap_err();
        assert_eq!(unknown.message, "c3c is not one byte");
        let unknown = super::parse("lots", Part::Family(Size::Kb64)).unwrap_err();
        assert!(unknown.advice.contains(" c1 c2 "));
        assert_eq!(parse("C1 0xc1 c0 c3").unwrap().len(), 4);
    }

    #[test]
    fn edges_of_a_set_name_their_device() {
        let selects = [Select::TWO, Select::ZERO];
        let items = parse_for_set("c1@2 c2@0*5 C1", &selects).unwrap();
        let expected = [
            once(Action::EdgeOfDevice(edge_1(0))),
            (Action::EdgeOfDevice(edge_2(1)), 5),
            once(Action::Write(0xC1)),
        ];
        assert_eq!(done(items), expected);
        let problem = |text: &str| {
            let problem = parse_for_set(text, &selects).expect_err(text);
            (problem.place.width, problem.message, problem.advice)
        };
        let (width, message, advice) = problem("[ c1 ]");
        assert_eq!(
            (width, message.as_str(), advice.as_str()),
            (
                2,
                "c1 does not say which device of the set",
                "write c1@2 or c1@0"
            )
        );
        for word in ["c2@1", "c2@", "c2@4", "c2@02", "c2@x"] {
            let (width, message, advice) = problem(word);
            assert_eq!(width, word.len());
            assert_eq!(message, format!("{word} names no device of the set"));
            assert_eq!(advice, "write c2@2 or c2@0");
        }
        assert!(problem("lots").2.contains(" c1@0 c2@0 "));
        let alone = super::parse("c1@0", Part::Family(Size::Kb64)).unwrap_err();
        assert_eq!(
            alone.message,
            "c1@0 names a device of a set, and there is one part"
        );
    }

    #[test]
    fn problems_have_places() {
        let place = |text: &str| {
            let (line, column, width, _) = problem(text);
            (line, column, width)
        };
        assert_eq!(place("[ A0 lots ]"), (1, 6, 4));
        assert_eq!(place("[\n\n  A0D0"), (3, 3, 4));
        assert_eq!(place("[ 5 ]"), (1, 3, 1));
        assert_eq!(place("0x1FF"), (1, 1, 5));
        assert_eq!(place("0x"), (1, 1, 2));
        assert_eq!(place("0xG0"), (1, 1, 4));
        assert_eq!(place("t* 60"), (1, 2, 1));
        assert_eq!(place("t *60"), (1, 3, 1));
        assert_eq!(place("t*0"), (1, 2, 2));
        assert_eq!(place("t:99999999999"), (1, 2, 12));
        assert_eq!(place("r:8x"), (1, 2, 3));
        assert_eq!(place("{012}"), (1, 4, 1));
        assert_eq!(place("  {01"), (1, 3, 3));
        assert_eq!(place("{}"), (1, 1, 2));
        assert_eq!(place("}"), (1, 1, 1));
        assert_eq!(place("é ß"), (1, 1, 1));
    }

    #[test]
    fn problems_say_what_is_wrong() {
        assert_eq!(problem("lots").3, "unknown word lots");
        let advice = parse("lots").unwrap_err().advice;
        assert!(advice.starts_with("perhaps lost; known: [ ]"), "{advice}");
        assert_eq!(problem("A0D0").3, "A0D0 is not one byte");
        assert_eq!(problem("{2}").3, "a clock is 0 or 1");
        assert_eq!(problem("{0 # 1}").3, "a { without a } on its line");
        assert!(problem("t*").3.starts_with("a repeat is a decimal number"));
    }
}
