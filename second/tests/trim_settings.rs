// SPDX-License-Identifier: Apache-2.0
//! 02, number 9: "A checker accepts it exactly if no setting leaves a smaller
//! distance from zero".

use second::generate;
use second::trim::{
    accepted_settings, accepts, all_settings, least_distance, propose, residue, Sign,
};

use Sign::{Minus, Plus};

/// "error 128 accepts code 0 with either sign and minus 1; error -600 accepts
/// plus 1 alone, leaving -88"
#[test]
fn the_two_errors_of_the_request() {
    assert_eq!(accepted_settings(128), [(Plus, 0), (Minus, 0), (Minus, 1)]);
    assert_eq!(residue(128, Minus, 1), -128);
    assert_eq!(accepted_settings(-600), [(Plus, 1)]);
    assert_eq!(residue(-600, Plus, 1), -88);
    for (sign, code) in all_settings() {
        let expected = code == 0 || (sign, code) == (Minus, 1);
        assert_eq!(accepts(128, sign, code), Some(expected));
        let expected = (sign, code) == (Plus, 1);
        assert_eq!(accepts(-600, sign, code), Some(expected));
    }
}

/// 002: "a +20 ppm oscillator frequency error" asks for -10; 20 ppm of
/// 125,829,120 cycles are about 2,517.
#[test]
fn the_example_of_document_002() {
    assert_eq!(accepted_settings(2_517), [(Minus, 10)]);
}

#[test]
fn there_are_64_settings() {
    let settings = all_settings();
    assert_eq!(settings.len(), 64);
    for sign in [Plus, Minus] {
        for code in 0..=31 {
            let count = settings.iter().filter(|one| **one == (sign, code)).count();
            assert_eq!(count, 1);
        }
    }
}

#[test]
fn residues_step_by_step() {
    for error in [-20_000, -600, 0, 128, 20_000] {
        assert_eq!(residue(error, Plus, 0), error);
        assert_eq!(residue(error, Minus, 0), error);
        for code in 1..=31 {
            let before = residue(error, Plus, code - 1);
            assert_eq!(residue(error, Plus, code), before + 512);
            let before = residue(error, Minus, code - 1);
            assert_eq!(residue(error, Minus, code), before - 256);
        }
    }
    assert_eq!(residue(20_000, Plus, 31), 35_872);
    assert_eq!(residue(-20_000, Minus, 31), -27_936);
}

/// The least distance without a search: how far the error is from the nearest
/// step, or from the last one.
fn least_by_division(error: i32) -> i32 {
    let (size, step) = if error >= 0 {
        (error, 256)
    } else {
        (-error, 512)
    };
    if size >= 31 * step {
        return size - 31 * step;
    }
    let over = size % step;
    over.min(step - over)
}

#[test]
fn every_error_of_the_range() {
    let mut accepted = 0;
    for error in -20_000..=20_000 {
        let least = least_by_division(error);
        assert_eq!(least_distance(error), least, "error {error}");
        for (sign, code) in all_settings() {
            let left = residue(error, sign, code);
            let expected = left == least || left == -least;
            assert_eq!(accepts(error, sign, code), Some(expected));
            accepted += u32::from(expected);
        }
    }
    // one for each error, one more where code 0 is best (either sign), and one
    // more where two steps are equally near
    let code_0_is_best = 128 + 256 + 1;
    let equally_near = 31 + 31;
    assert_eq!(accepted, 40_001 + code_0_is_best + equally_near);
}

#[test]
fn the_proposer_is_always_accepted() {
    for error in -20_000..=20_000 {
        let (sign, code) = propose(error).expect("in the range");
        assert_eq!(accepts(error, sign, code), Some(true), "error {error}");
    }
}

#[test]
fn far_errors_take_the_last_step() {
    assert_eq!(accepted_settings(20_000), [(Minus, 31)]);
    assert_eq!(least_distance(20_000), 12_064);
    assert_eq!(accepted_settings(-20_000), [(Plus, 31)]);
    assert_eq!(least_distance(-20_000), 4_128);
}

/// "Outside the range both refuse, as the checker does any code above 31."
#[test]
fn outside_the_range_both_refuse() {
    for error in [i32::MIN, -20_001, 20_001, i32::MAX] {
        assert_eq!(propose(error), None);
        for sign in [Plus, Minus] {
            for code in 0..=255 {
                assert_eq!(accepts(error, sign, code), None);
            }
        }
    }
    for error in [-20_000, -600, 0, 128, 20_000] {
        assert!(propose(error).is_some());
        for sign in [Plus, Minus] {
            for code in 0..=255 {
                let refused = accepts(error, sign, code).is_none();
                assert_eq!(refused, code > 31);
            }
        }
    }
}

#[test]
fn the_edges_hold_answers_of_every_kind() {
    let cases = generate::trim_edges();
    assert_eq!(cases.len(), 23_040);
    let count = |wanted: Option<bool>| {
        cases
            .iter()
            .filter(|(error, sign, code)| accepts(*error, *sign, *code) == wanted)
            .count()
    };
    assert!(count(None) > 10_000);
    assert!(count(Some(true)) > 40);
    assert!(count(Some(false)) > 1_000);
}
