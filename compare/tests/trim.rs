// SPDX-License-Identifier: Apache-2.0
//! Trim settings: the proved checker, residue and proposer beside the second program's plain search.

use compare::archive;
use second::generate::trim_edges;
use second::trim::{accepts, all_settings, residue, Sign};

/// Minus is 0 and plus is 1, for C.
fn number_of(sign: Sign) -> u64 {
    match sign {
        Sign::Minus => 0,
        Sign::Plus => 1,
    }
}

/// Holds one setting of one error; the verdicts are 0 accepted, 1 not the nearest, and refusals above.
fn hold(error: i32, sign: Sign, code: u8) {
    let (way, steps) = (number_of(sign), u64::from(code));
    let verdict = archive::trim_check(error, way, steps);
    let found = match verdict {
        0 => Some(true),
        1 => Some(false),
        _ => None,
    };
    assert_eq!(
        found,
        accepts(error, sign, code),
        "{error} {sign:?} {code}: {verdict}"
    );
    let left = if found.is_some() {
        residue(error, sign, code)
    } else {
        0
    };
    assert_eq!(
        archive::trim_residue(error, way, steps),
        left,
        "{error} {sign:?} {code}"
    );
}

/// Every error in range with every setting, and a proposal that the second program accepts too.
#[test]
fn every_error_and_setting_agrees() {
    for error in -20_000..=20_000 {
        for (sign, code) in all_settings() {
            hold(error, sign, code);
        }
        let proposed = archive::trim_propose(error);
        assert!(proposed < 64, "{error}: {proposed}");
        let sign = if proposed / 32 == 1 {
            Sign::Plus
        } else {
            Sign::Minus
        };
        let code = (proposed % 32) as u8;
        assert_eq!(
            accepts(error, sign, code),
            Some(true),
            "{error}: {proposed}"
        );
    }
}

/// At the edges of what is allowed, and outside the range to the ends of an i32.
#[test]
fn edges_and_refusals_agree() {
    let edges = trim_edges();
    assert!(edges.len() > 20_000);
    for (error, sign, code) in edges {
        hold(error, sign, code);
    }
    for error in [
        i32::MIN,
        i32::MIN + 1,
        -20_001,
        20_001,
        i32::MAX - 1,
        i32::MAX,
    ] {
        assert!(archive::trim_propose(error) >= 64, "{error}");
        for (sign, code) in all_settings() {
            hold(error, sign, code);
        }
    }
}

/// Codes and signs that no byte of the second program can be.
#[test]
fn other_codes_and_signs_are_refused() {
    for code in [32, 255, 256, 288, 1 << 32, u64::MAX] {
        assert!(archive::trim_check(0, 1, code) > 1, "{code}");
    }
    for sign in [2, 3, 256, 1 << 32, u64::MAX] {
        assert!(archive::trim_check(0, sign, 0) > 1, "{sign}");
    }
}
