// SPDX-License-Identifier: Apache-2.0
//! Errors and settings at the edges of what is allowed (02, number 9).

use crate::trim::{Sign, SIGNS};

/// Errors at the limits, far outside, around zero, at the last steps, and where
/// two codes leave the same distance.
const ERRORS: [i32; 45] = [
    i32::MIN,
    i32::MIN + 1,
    -2_000_000_000,
    -32_769,
    -32_768,
    -20_001,
    -20_000,
    -19_999,
    -15_873,
    -15_872,
    -15_871,
    -15_617,
    -15_616,
    -15_615,
    -769,
    -768,
    -767,
    -600,
    -512,
    -257,
    -256,
    -255,
    -1,
    0,
    1,
    127,
    128,
    129,
    256,
    383,
    384,
    385,
    600,
    7_807,
    7_808,
    7_809,
    7_936,
    7_937,
    19_999,
    20_000,
    20_001,
    32_767,
    32_768,
    i32::MAX - 1,
    i32::MAX,
];

/// Each of these errors with both signs and all 256 codes. Every error of the
/// range with every setting is a plain loop of 40,001 times 64 and needs no
/// generator.
pub fn trim_edges() -> Vec<(i32, Sign, u8)> {
    let mut cases = Vec::new();
    for error in ERRORS {
        for sign in SIGNS {
            for code in 0..=255 {
                cases.push((error, sign, code));
            }
        }
    }
    cases
}
