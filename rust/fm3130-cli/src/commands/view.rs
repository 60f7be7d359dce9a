// SPDX-License-Identifier: Apache-2.0
//! `fm3130 view`: the memory in hexadecimal, or the registers in words.

use std::ffi::{OsStr, OsString};
use std::path::PathBuf;

use fm3130::{selector, IMAGE_BYTES};

use crate::arguments::{wrong, Arguments, Options};
use crate::chip::{Chip, Part, Refused};
use crate::failure::{Failure, Outcome};
use crate::files::{self, NamedFile};
use crate::output::Output;
use crate::words;

const OPTIONS: Options = Options {
    with_value: &["--memory", "--image", "--part"],
    alone: &["--registers"],
};

/// Memory bytes on a line.
const BYTES_OF_A_LINE: usize = 16;

/// Shows a part of the memory or of the registers.
pub fn command(words: Vec<OsString>) -> Outcome {
    let arguments = Arguments::sort(words, &OPTIONS)?;
    arguments.at_most(2)?;
    let shows_registers = arguments.has("--registers");
    let parts = Parts::read(&arguments, shows_registers)?;
    let (start, length) = extent(&arguments.plain, parts.part, shows_registers)?;
    parts.must_be_of_one_part()?;
    let selector = if shows_registers {
        selector::REGISTERS
    } else {
        selector::MEMORY
    };
    // The viewer looks at the lengths first: a short file is told by 01's number.
    let part = parts.part;
    let part = part
        .view(&parts.image, &parts.memory, selector, start, length)
        .map_err(|refusal| parts.refused(refusal))?;
    let lines = if shows_registers {
        register_lines(&parts, start, part)
    } else {
        memory_lines(start, part)
    };
    let mut output = Output::new();
    for line in lines {
        output.line(&line)?;
    }
    output.finish()
}

/// The bytes of the files, or fresh ones where no file is named.
struct Parts {
    part: Part,
    image: Vec<u8>,
    image_path: Option<PathBuf>,
    memory: Vec<u8>,
    memory_path: Option<PathBuf>,
}

impl Parts {
    fn read(arguments: &Arguments, shows_registers: bool) -> Outcome<Parts> {
        let (image_path, memory_path) = (arguments.path("--image"), arguments.path("--memory"));
        match (&image_path, &memory_path) {
            (None, _) if shows_registers => return Err(wrong("--registers needs --image FILE")),
            (_, None) if !shows_registers => return Err(wrong("view needs --memory FILE")),
            (Some(image), Some(memory)) => files::must_differ(&[
                NamedFile {
                    option: "--image",
                    path: image,
                },
                NamedFile {
                    option: "--memory",
                    path: memory,
                },
            ])?,
            _ => {}
        }
        let part = arguments.part()?;
        let fresh = Chip::fresh(part);
        Ok(Parts {
            part,
            image: read_or(&image_path, IMAGE_BYTES, fresh.image())?,
            memory: read_or(&memory_path, part.memory_bytes(), fresh.memory())?,
            image_path,
            memory_path,
        })
    }

    /// Refuses an image whose mark is another part's: its bytes would be shown as registers that it has not.
    fn must_be_of_one_part(&self) -> Outcome {
        match (&self.image_path, self.part.other_owner(&self.image)) {
            (Some(path), Some(owner)) => Err(Failure::Refused(format!(
                "{}: it is the image of {owner}, not of an {}; --part chooses the part",
                path.display(),
                self.part
            ))),
            _ => Ok(()),
        }
    }

    /// The refusal, with the file that it is about.
    fn refused(&self, refusal: Refused) -> Failure {
        let path = match refusal.number() {
            1 => &self.memory_path,
            2 => &self.image_path,
            _ => return wrong(refusal.to_string()),
        };
        match path {
            Some(path) => Failure::of_refusal(path, refusal),
            None => Failure::Refused(refusal.to_string()),
        }
    }
}

/// The bytes of a file, or others if no file is named.
fn read_or(path: &Option<PathBuf>, length: usize, otherwise: &[u8]) -> Outcome<Vec<u8>> {
    match path {
        Some(path) => files::read_at_most(path, length),
        None => Ok(otherwise.to_vec()),
    }
}

/// Start and length; without a length, up to the end. A register is named by its address, and the
/// viewer counts from the first one of the part.
fn extent(plain: &[OsString], part: Part, shows_registers: bool) -> Outcome<(u64, u64)> {
    let (first, last) = part.registers();
    let (first, end) = match shows_registers {
        true => (u64::from(first), part.register_count() as u64),
        false => (0, part.memory_bytes() as u64),
    };
    let start = match plain.first() {
        Some(word) => number(word)?.checked_sub(first).ok_or_else(|| {
            wrong(format!(
                "registers of the {part} are {first:02X}h to {last:02X}h"
            ))
        })?,
        None => 0,
    };
    let length = match plain.get(1) {
        Some(word) => number(word)?,
        None => end.saturating_sub(start),
    };
    Ok((start, length))
}

/// A number: `0x1F`, `1Fh` or decimal `31`.
fn number(word: &OsStr) -> Outcome<u64> {
    let text = word.to_string_lossy();
    let hexadecimal = text
        .strip_prefix("0x")
        .or_else(|| text.strip_prefix("0X"))
        .or_else(|| text.strip_suffix('h'));
    let is_plain = |digits: &str| digits.chars().all(|sign| sign.is_ascii_hexdigit());
    let parsed = match hexadecimal {
        Some(digits) if is_plain(digits) => u64::from_str_radix(digits, 16).ok(),
        None if is_plain(&text) => text.parse().ok(),
        _ => None,
    };
    parsed.ok_or_else(|| wrong(format!("{text} is no number; write 0x1F, 1Fh or 31")))
}

/// The registers in words; all of a device if all of them are shown and the image is good.
fn register_lines(parts: &Parts, start: u64, part: &[u8]) -> Vec<String> {
    let (first, _) = parts.part.registers();
    if part.len() < parts.part.register_count() {
        // The viewer has found the part within the registers, so the sum is an address.
        return words::of_registers(parts.part, first + start as u8, part);
    }
    match Chip::from_parts(parts.part, &parts.image, &parts.memory) {
        Ok(device) => words::of_device(&device),
        Err(refusal) => {
            let mut lines = words::of_registers(parts.part, first, part);
            lines.push(format!("The rest cannot be told: {refusal}"));
            lines
        }
    }
}

/// Lines of sixteen bytes with their characters; lines like the one before are left out.
fn memory_lines(start: u64, part: &[u8]) -> Vec<String> {
    let mut lines = Vec::new();
    let mut before: Option<&[u8]> = None;
    let mut is_left_out = false;
    let last = part.len().div_ceil(BYTES_OF_A_LINE).saturating_sub(1);
    for (index, bytes) in part.chunks(BYTES_OF_A_LINE).enumerate() {
        if before == Some(bytes) && index != last {
            if !is_left_out {
                lines.push("*".to_string());
            }
            is_left_out = true;
            continue;
        }
        is_left_out = false;
        before = Some(bytes);
        lines.push(memory_line(start + (index * BYTES_OF_A_LINE) as u64, bytes));
    }
    lines
}

fn memory_line(address: u64, bytes: &[u8]) -> String {
    let digits: Vec<String> = bytes.iter().map(|byte| format!("{byte:02X}")).collect();
    let signs: String = bytes
        .iter()
        .map(|byte| match byte {
            0x20..=0x7E => char::from(*byte),
            _ => '.',
        })
        .collect();
    let width = BYTES_OF_A_LINE * 3 - 1;
    format!("{address:04X}h  {:<width$}  |{signs}|", digits.join(" "))
}

#[cfg(test)]
mod tests {
    use super::*;

    #[test]
    fn numbers_in_three_notations() {
        let value = |text: &str| number(OsStr::new(text)).ok();
        assert_eq!(value("0x1F"), Some(31));
        assert_eq!(value("1fh"), Some(31));
        assert_eq!(value("31"), Some(31));
        assert_eq!(value("1F"), None);
        assert_eq!(value("+1"), None);
        assert_eq!(value("0x"), None);
        assert_eq!(value(""), None);
        assert_eq!(value("99999999999999999999"), None);
    }

    #[test]
    fn equal_lines_are_left_out_but_the_last() {
        let lines = memory_lines(0x10, &[0; 80]);
        assert_eq!(lines.len(), 3);
        assert!(lines[0].starts_with("0010h  00 00"));
        assert_eq!(lines[1], "*");
        assert!(lines[2].starts_with("0050h"));
        assert_eq!(memory_lines(0, b""), Vec::<String>::new());
        assert_eq!(memory_lines(0, b"Hi\n")[0].split('|').nth(1), Some("Hi."));
    }
}
