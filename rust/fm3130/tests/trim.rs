// SPDX-License-Identifier: Apache-2.0
//! The trim functions against a plain search, over all errors and all settings.

use fm3130::trim::{
    check, propose, residue, Setting, Sign, Verdict, CYCLES, GREATEST_ERROR, LAST_CODE,
};

/// A setting of each sign with each code of 0 to 31.
fn all_settings() -> Vec<Setting> {
    [Sign::Plus, Sign::Minus]
        .into_iter()
        .flat_map(|sign| (0..=31).map(move |code| Setting { sign, code }))
        .collect()
}

/// What a setting leaves, in the request's words.
fn left(error: i32, setting: Setting) -> i32 {
    match setting.sign {
        Sign::Plus => error + 512 * setting.code as i32,
        Sign::Minus => error - 256 * setting.code as i32,
    }
}

#[test]
fn every_setting_of_every_error_is_judged_as_a_plain_search_does() {
    let settings = all_settings();
    let mut accepted = 0;
    for error in -20_000..=20_000 {
        let least = settings.iter().map(|setting| left(error, *setting).abs());
        let least = least.min().unwrap();
        for setting in &settings {
            let expected = match left(error, *setting).abs() == least {
                true => Verdict::Accepted,
                false => Verdict::NotNearest,
            };
            assert_eq!(check(error, *setting), expected, "{error} {setting}");
            assert_eq!(residue(error, *setting), Some(left(error, *setting)));
            accepted += u32::from(expected == Verdict::Accepted);
        }
        let proposed = propose(error).unwrap();
        assert!(proposed.code <= 31, "{error}: {proposed}");
        assert_eq!(check(error, proposed), Verdict::Accepted, "{error}");
    }
    // Each error has one nearest setting at least; code 0 has two signs, and there are ties.
    assert!(accepted > 40_001, "{accepted}");
}

#[test]
fn errors_out_of_range_are_refused_up_to_the_ends() {
    let near = (20_001..=66_000).flat_map(|error| [error, -error]);
    let ends = [i32::MIN, i32::MIN + 1, i32::MAX - 1, i32::MAX];
    let far = (0..31).flat_map(|bit| [1 << bit, -1 << bit]);
    let far = far.filter(|error: &i32| error.unsigned_abs() > 20_000);
    for error in near.chain(ends).chain(far) {
        assert_eq!(propose(error), None, "{error}");
        for code in [0, 1, 31, 32, u64::MAX] {
            for sign in [Sign::Plus, Sign::Minus] {
                let setting = Setting { sign, code };
                assert_eq!(check(error, setting), Verdict::ErrorOutOfRange, "{error}");
                assert_eq!(residue(error, setting), None, "{error} {setting}");
            }
        }
    }
}

#[test]
fn codes_above_31_are_refused() {
    for code in (32..=300).chain([1 << 32, u64::MAX]) {
        for sign in [Sign::Plus, Sign::Minus] {
            for error in [-20_000, -600, 0, 128, 20_000] {
                let setting = Setting { sign, code };
                assert_eq!(check(error, setting), Verdict::CodeAbove31, "{setting}");
                assert_eq!(residue(error, setting), None, "{setting}");
            }
        }
    }
}

#[test]
fn the_examples_of_the_request() {
    let accepted = |error| -> Vec<String> {
        let settings = all_settings().into_iter();
        let settings = settings.filter(|setting| check(error, *setting) == Verdict::Accepted);
        settings.map(|setting| setting.to_string()).collect()
    };
    assert_eq!(accepted(128), ["+0", "-0", "-1"]);
    assert_eq!(accepted(-600), ["+1"]);
    let plus_1 = Setting {
        sign: Sign::Plus,
        code: 1,
    };
    assert_eq!(residue(-600, plus_1), Some(-88));
}

#[test]
fn the_example_of_document_002() {
    // A reading of 512.01024 Hz, 20 parts in a million too fast, asks for -10.
    let error = (f64::from(CYCLES) * 20e-6).round() as i32;
    assert_eq!(propose(error).unwrap().to_string(), "-10");
}

#[test]
fn every_verdict_has_its_number_and_words() {
    let all = [
        Verdict::Accepted,
        Verdict::NotNearest,
        Verdict::ErrorOutOfRange,
        Verdict::CodeAbove31,
    ];
    let numbers: Vec<u64> = all.iter().map(|verdict| verdict.number()).collect();
    assert_eq!(numbers, [0, 1, 3, 4]);
    for verdict in all {
        assert!(verdict.to_string().starts_with(verdict.words()));
    }
    assert!(propose(GREATEST_ERROR).is_some() && propose(GREATEST_ERROR + 1).is_none());
    assert_eq!(propose(-GREATEST_ERROR).unwrap().code, LAST_CODE);
}
