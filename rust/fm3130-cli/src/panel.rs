// SPDX-License-Identifier: Apache-2.0
//! The eight lamps after each thing that happens, a line for each.

use fm3130::Report;

use crate::bus::{Beside, Happening, Listener};
use crate::failure::Outcome;
use crate::output::Output;
use crate::transcript::line_of;

/// The lamps by their numbers, above the column that shows them.
const HEAD: &str = "01234567  lamps at 1000h to 1007h: * lit, as its last whole read says; . dark";

/// Prints the lamps beside what happens.
pub struct Panel<'run> {
    output: &'run mut Output,
    shown: Report,
}

impl<'run> Panel<'run> {
    /// A panel on standard output, with the lamps before the first event.
    pub fn begin(output: &'run mut Output, lamps: Report) -> Outcome<Panel<'run>> {
        output.line(HEAD)?;
        Ok(Panel {
            output,
            shown: lamps,
        })
    }
}

impl Listener for Panel<'_> {
    fn happening(&mut self, happening: &Happening, after: Beside) -> Outcome {
        let lamps = after.lamps.unwrap_or_default();
        let change = change_of(self.shown, lamps);
        self.shown = lamps;
        self.output
            .line(&format!("{lamps}  {}{change}", line_of(happening)))
    }
}

/// Which lamps went on, and which off, in words; nothing where none did.
fn change_of(before: Report, after: Report) -> String {
    let named = |bits: u8, words: &str| {
        let lamps: Vec<String> = (0..Report::LAMPS)
            .filter(|lamp| Report(bits).is_lit(*lamp))
            .map(|lamp| lamp.to_string())
            .collect();
        match lamps.len() {
            0 => None,
            1 => Some(format!("lamp {} {words}", lamps[0])),
            _ => Some(format!("lamps {} {words}", lamps.join(", "))),
        }
    };
    let lit = named(after.0 & !before.0, "lit");
    let dark = named(before.0 & !after.0, "dark");
    let changes: Vec<String> = [lit, dark].into_iter().flatten().collect();
    match changes.is_empty() {
        true => String::new(),
        false => format!("  <- {}", changes.join("; ")),
    }
}

#[cfg(test)]
mod tests {
    use super::*;

    #[test]
    fn changes_are_told_in_words() {
        let change = |before, after| change_of(Report(before), Report(after));
        assert_eq!(change(0b1001, 0b1001), "");
        assert_eq!(change(0, 1), "  <- lamp 0 lit");
        assert_eq!(change(0b1000_0001, 0), "  <- lamps 0, 7 dark");
        assert_eq!(change(0b0001, 0b0110), "  <- lamps 1, 2 lit; lamp 0 dark");
    }
}
