// SPDX-License-Identifier: Apache-2.0
//! What trim settings leave of an error, as text. Residues and verdicts are those of the archive.

use fm3130::trim::{self, Setting, Sign, Verdict, CYCLES, LAST_CODE};

/// How many settings are shown on either side of the proposal.
const NEIGHBOURS: i64 = 2;

/// The columns on either side of zero.
const BAR: u32 = 22;

/// The error, the setting that is asked about, the proposal, and a table of settings around it.
pub fn lines(error: i32, proposal: Setting, asked: Option<Setting>) -> Vec<String> {
    let mut lines = vec![format!("Error     {}", cycles(error))];
    lines.extend(asked.and_then(|setting| setting_line("Setting", error, setting)));
    lines.extend(setting_line("Proposal", error, proposal));
    lines.push(String::new());
    lines.extend(table(error, proposal, asked));
    lines
}

/// A setting and what it leaves; nothing for a setting that is refused.
fn setting_line(name: &str, error: i32, setting: Setting) -> Option<String> {
    let residue = cycles(trim::residue(error, setting)?);
    let bits = setting.control_bits()?;
    Some(format!(
        "{name:<8}  {setting} (XX{bits:06b}) leaves {residue}"
    ))
}

/// Cycles, also as parts in a million, the data sheet's unit.
fn cycles(number: i32) -> String {
    let millionths = f64::from(number) * 1e6 / f64::from(CYCLES);
    format!("{} cycles, {millionths:+.2} ppm", signed(number))
}

/// A number with its sign; zero has none.
fn signed(number: i32) -> String {
    match number {
        0 => "0".to_string(),
        _ => format!("{number:+}"),
    }
}

/// The table: a row for each setting that is shown, a gap where some are left out.
fn table(error: i32, proposal: Setting, asked: Option<Setting>) -> Vec<String> {
    let places = places_around(place_of(proposal), asked.map(place_of));
    let rows: Vec<Row> = places
        .into_iter()
        .filter_map(|place| Row::at(place, error))
        .collect();
    let longest = rows.iter().map(|row| row.residue.unsigned_abs()).max();
    let zero_column = BAR as usize + 1;
    let mut lines = vec![format!("Setting  Residue  {:>zero_column$}", "0")];
    let mut before = None;
    for row in &rows {
        if before.is_some_and(|place| place + 1 != row.place) {
            lines.push("    ...".to_string());
        }
        before = Some(row.place);
        let line = row.line(longest.unwrap_or(0).max(1), proposal, asked);
        lines.push(line.trim_end().to_string());
    }
    lines
}

/// Where a setting stands in the order of the cycles that settings add: its code, below 0 for minus.
fn place_of(setting: Setting) -> i64 {
    // A code above 31 has no place; it is put past the last one, and not shown.
    let code = setting.code.min(LAST_CODE + 1) as i64;
    match setting.sign {
        Sign::Plus => code,
        Sign::Minus => -code,
    }
}

/// The places to show, in order: those around the proposal, and the one that is asked about.
fn places_around(proposal: i64, asked: Option<i64>) -> Vec<i64> {
    let last = LAST_CODE as i64;
    let mut places: Vec<i64> = (proposal - NEIGHBOURS..=proposal + NEIGHBOURS).collect();
    places.extend(asked);
    places.retain(|place| (-last..=last).contains(place));
    places.sort_unstable();
    places.dedup();
    places
}

/// A line of the table.
struct Row {
    place: i64,
    residue: i32,
    verdict: Verdict,
}

impl Row {
    fn at(place: i64, error: i32) -> Option<Row> {
        let sign = match place < 0 {
            true => Sign::Minus,
            false => Sign::Plus,
        };
        let code = place.unsigned_abs();
        let setting = Setting { sign, code };
        Some(Row {
            place,
            residue: trim::residue(error, setting)?,
            verdict: trim::check(error, setting),
        })
    }

    /// The row as text, with a bar from zero to the residue.
    fn line(&self, longest: u32, proposal: Setting, asked: Option<Setting>) -> String {
        let name = match self.place {
            0 => "+0 -0".to_string(),
            place => format!("{place:+}"),
        };
        let length = (self.residue.unsigned_abs() * BAR).div_ceil(longest) as usize;
        let (left, right) = match self.residue < 0 {
            true => ("-".repeat(length), String::new()),
            false => (String::new(), "+".repeat(length)),
        };
        let width = BAR as usize;
        let residue = signed(self.residue);
        let remarks = self.remarks(proposal, asked);
        format!("{name:>7}  {residue:>7}  {left:>width$}|{right:<width$}  {remarks}")
    }

    /// What is to be said of the setting.
    fn remarks(&self, proposal: Setting, asked: Option<Setting>) -> String {
        let remarks = [
            (self.verdict == Verdict::Accepted, "accepted"),
            (self.place == place_of(proposal), "proposed"),
            (asked.map(place_of) == Some(self.place), "asked about"),
        ];
        let remarks = remarks.into_iter().filter(|(holds, _)| *holds);
        remarks
            .map(|(_, words)| words)
            .collect::<Vec<&str>>()
            .join(", ")
    }
}
