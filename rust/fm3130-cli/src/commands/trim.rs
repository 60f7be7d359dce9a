// SPDX-License-Identifier: Apache-2.0
//! `fm3130 trim`: a trim setting of another maker's clock, proposed or checked.

use std::ffi::OsString;
use std::num::IntErrorKind;

use fm3130::trim::{self, Setting, Sign, Verdict};

use crate::arguments::wrong;
use crate::failure::{Failure, Outcome};
use crate::output::Output;
use crate::trimming;

/// Proposes a setting for an error, and checks one if it is given.
pub fn command(words: Vec<OsString>) -> Outcome {
    let words = plain_words(words)?;
    let (error, setting) = match &words[..] {
        [] => return Err(wrong("trim needs an ERROR in cycles, such as -600")),
        [error] => (read_error(error)?, None),
        [error, setting] => (read_error(error)?, Some(read_setting(setting)?)),
        [_, _, more, ..] => return Err(wrong(format!("one word too many: {more}"))),
    };
    let Some(proposal) = trim::propose(error) else {
        let why = Verdict::ErrorOutOfRange;
        return Err(Failure::Refused(format!("error {}: {why}", words[0])));
    };
    let mut output = Output::new();
    for line in trimming::lines(error, proposal, setting) {
        output.line(&line)?;
    }
    output.finish()?;
    match setting.map(|setting| (setting, trim::check(error, setting))) {
        None | Some((_, Verdict::Accepted)) => Ok(()),
        Some((setting, verdict)) => Err(Failure::Refused(format!("setting {setting}: {verdict}"))),
    }
}

/// The words, none of which can be an option here: a number may begin with a dash.
fn plain_words(words: Vec<OsString>) -> Outcome<Vec<String>> {
    let words = words.iter().filter(|word| *word != "--");
    let words: Vec<String> = words
        .map(|word| word.to_string_lossy().into_owned())
        .collect();
    match words.iter().find(|word| word.starts_with("--")) {
        Some(option) => Err(wrong(format!("unknown option {option}"))),
        None => Ok(words),
    }
}

/// An error: an optional sign and decimal digits.
fn read_error(word: &str) -> Outcome<i32> {
    match word.parse::<i32>() {
        Ok(error) => Ok(error),
        // Past the ends of the type it is as much out of range as the ends are.
        Err(problem) => match problem.kind() {
            IntErrorKind::PosOverflow => Ok(i32::MAX),
            IntErrorKind::NegOverflow => Ok(i32::MIN),
            _ => Err(wrong(format!(
                "{word} is no error; write a whole number of cycles, such as -600"
            ))),
        },
    }
}

/// A setting: a sign and decimal digits.
fn read_setting(word: &str) -> Outcome<Setting> {
    let parts = [('+', Sign::Plus), ('-', Sign::Minus)]
        .into_iter()
        .find_map(|(mark, sign)| Some((sign, word.strip_prefix(mark)?)));
    let is_plain = |digits: &str| digits.bytes().all(|byte| byte.is_ascii_digit());
    match parts {
        Some((sign, digits)) if !digits.is_empty() && is_plain(digits) => Ok(Setting {
            sign,
            // A code that does not fit the type is as much above 31 as the greatest that does.
            code: digits.parse().unwrap_or(u64::MAX),
        }),
        _ => Err(wrong(format!(
            "{word} is no setting; write its sign and its code, +2 or -10"
        ))),
    }
}

#[cfg(test)]
mod tests {
    use super::*;

    #[test]
    fn errors_are_whole_numbers() {
        let error = |word: &str| read_error(word).ok();
        assert_eq!(error("-600"), Some(-600));
        assert_eq!(error("+7"), Some(7));
        assert_eq!(error("99999999999999999999"), Some(i32::MAX));
        assert_eq!(error("-99999999999999999999"), Some(i32::MIN));
        for word in ["", "-", "+", "1.5", "1,000", "0x10", "six", " 1"] {
            assert_eq!(error(word), None, "{word:?}");
        }
    }

    #[test]
    fn settings_have_a_sign_and_a_code() {
        let setting = |word: &str| read_setting(word).map(|setting| setting.to_string()).ok();
        assert_eq!(setting("+1"), Some("+1".to_string()));
        assert_eq!(setting("-0"), Some("-0".to_string()));
        assert_eq!(setting("-032"), Some("-32".to_string()));
        assert_eq!(
            setting("+99999999999999999999"),
            Some(format!("+{}", u64::MAX))
        );
        for word in ["", "1", "+", "-", "--1", "+-1", "+1.", "plus1", "- 1"] {
            assert_eq!(setting(word), None, "{word:?}");
        }
    }
}
