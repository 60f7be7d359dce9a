// SPDX-License-Identifier: Apache-2.0
//! Trim settings of the other maker's clock (02, number 9; document 002, "Clock
//! Calibration").

/// "a signed error from -20,000 to 20,000": the cycles counted over a 64-minute
/// cycle, minus 125,829,120.
pub const LARGEST_ERROR: i32 = 20_000;

/// "A setting is a sign and a code 0 to 31".
pub const LARGEST_CODE: u8 = 31;

/// "plus adds 512 cycles a step"
pub const CYCLES_ADDED: i32 = 512;

/// "minus takes 256 away"
pub const CYCLES_TAKEN_AWAY: i32 = 256;

/// The sign of a setting.
#[derive(Clone, Copy, Debug, PartialEq, Eq)]
pub enum Sign {
    Plus,
    Minus,
}

/// Both signs.
pub const SIGNS: [Sign; 2] = [Sign::Plus, Sign::Minus];

/// What a setting leaves of an error: "plus adds 512 cycles a step, minus takes
/// 256 away".
pub fn residue(error: i32, sign: Sign, code: u8) -> i32 {
    match sign {
        Sign::Plus => error + CYCLES_ADDED * i32::from(code),
        Sign::Minus => error - CYCLES_TAKEN_AWAY * i32::from(code),
    }
}

/// "distance from zero"
pub fn distance(residue: i32) -> i32 {
    residue.abs()
}

/// All 64 settings; code 0 is there with either sign.
pub fn all_settings() -> Vec<(Sign, u8)> {
    let mut settings = Vec::new();
    for sign in SIGNS {
        for code in 0..=LARGEST_CODE {
            settings.push((sign, code));
        }
    }
    settings
}

/// "Outside the range both refuse".
pub fn is_in_range(error: i32) -> bool {
    (-LARGEST_ERROR..=LARGEST_ERROR).contains(&error)
}

/// The least distance from zero that any setting leaves, by trying all 64.
pub fn least_distance(error: i32) -> i32 {
    let mut least = distance(error);
    for (sign, code) in all_settings() {
        least = least.min(distance(residue(error, sign, code)));
    }
    least
}

/// The checker: "accepts it exactly if no setting leaves a smaller distance from
/// zero". `None` is a refusal: an error outside the range or a code above 31.
pub fn accepts(error: i32, sign: Sign, code: u8) -> Option<bool> {
    if !is_in_range(error) || code > LARGEST_CODE {
        return None;
    }
    Some(distance(residue(error, sign, code)) == least_distance(error))
}

/// The settings that are accepted for an error in the range.
pub fn accepted_settings(error: i32) -> Vec<(Sign, u8)> {
    let least = least_distance(error);
    all_settings()
        .into_iter()
        .filter(|(sign, code)| distance(residue(error, *sign, *code)) == least)
        .collect()
}

/// The proposer: the first of the settings that are accepted. `None` is a
/// refusal: an error outside the range.
pub fn propose(error: i32) -> Option<(Sign, u8)> {
    if !is_in_range(error) {
        return None;
    }
    accepted_settings(error).first().copied()
}
