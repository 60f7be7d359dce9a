// SPDX-License-Identifier: Apache-2.0
//! Trim settings on the command line: what is printed, and what is not accepted.

mod support;

use support::Folder;

#[test]
fn a_proposal_with_what_the_settings_around_it_leave() {
    let printed = Folder::new("trim-proposal").succeed(&["trim", "-600"]);
    let expected = "\
Error     -600 cycles, -4.77 ppm
Proposal  +1 (XX100001) leaves -88 cycles, -0.70 ppm

Setting  Residue                        0
     -1     -856   ---------------------|
  +0 -0     -600         ---------------|
     +1      -88                     ---|                        accepted, proposed
     +2     +424                        |++++++++++
     +3     +936                        |++++++++++++++++++++++
";
    assert_eq!(printed, expected);
}

#[test]
fn a_setting_that_is_accepted_beside_others() {
    let folder = Folder::new("trim-accepted");
    for setting in ["+0", "-0", "-1"] {
        let printed = folder.succeed(&["trim", "128", setting]);
        assert_eq!(printed.matches("accepted").count(), 2, "{setting}");
        let said = format!("Setting   {setting} (XX");
        assert!(printed.lines().any(|line| line.starts_with(&said)));
        assert!(printed.lines().any(|line| line.ends_with("asked about")));
    }
    // Zero is shown without a sign, and a row is marked though its bar is empty.
    let printed = folder.succeed(&["trim", "--", "256", "-1"]);
    assert!(printed.contains("leaves 0 cycles, +0.00 ppm"));
    assert!(printed.contains("accepted, proposed, asked about"));
}

#[test]
fn a_setting_that_is_not_accepted_is_shown_and_fails() {
    let folder = Folder::new("trim-refused");
    let refused = |words: &[&str], said: &str| -> String {
        let ran = folder.run(&[&["trim"], words].concat());
        assert_eq!(ran.code, 4, "{words:?}: {}", ran.errors);
        assert_eq!(ran.errors, format!("fm3130: {said}\n"), "{words:?}");
        ran.output
    };
    let not_nearest = "another setting leaves a smaller distance from zero (number 1)";
    let printed = refused(&["-600", "+2"], &format!("setting +2: {not_nearest}"));
    assert!(printed.contains("Setting   +2 (XX100010) leaves +424 cycles, +3.37 ppm\n"));
    let printed = refused(&["-600", "-31"], &format!("setting -31: {not_nearest}"));
    assert!(printed.contains("asked about\n    ...\n     -1     -856"));
    let printed = refused(
        &["-600", "+32"],
        "setting +32: the code is above 31 (number 4)",
    );
    assert!(printed.contains("Proposal  +1") && !printed.contains("asked about"));
}

#[test]
fn an_error_out_of_range_is_refused_with_nothing_printed() {
    let folder = Folder::new("trim-range");
    for error in ["20001", "-20001", "2147483648", "-99999999999999999999"] {
        for words in [&["trim", error][..], &["trim", error, "+99"]] {
            let ran = folder.run(words);
            let said = format!(
                "fm3130: error {error}: the error is not from -20,000 to 20,000 (number 3)\n"
            );
            assert_eq!((ran.code, ran.errors), (4, said));
            assert_eq!(ran.output, "");
        }
    }
    for (error, proposal) in [("20000", "-31"), ("-20000", "+31"), ("0", "-0")] {
        let printed = folder.succeed(&["trim", error]);
        assert!(printed.contains(&format!("Proposal  {proposal} ")));
    }
}
