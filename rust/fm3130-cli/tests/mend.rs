// SPDX-License-Identifier: Apache-2.0
//! `fm3130 mend`: what it prints, when it writes, and what it refuses.

mod support;

use support::Folder;

/// A folder with a fresh image in which registers and core hold other bytes.
fn folder_with(name: &str, time: [u8; 7], core: [u8; 7]) -> Folder {
    let folder = Folder::new(name);
    folder.succeed(&["fresh", "--image", "image"]);
    let mut image = folder.read("image");
    image[2..9].copy_from_slice(&time);
    image[15..22].copy_from_slice(&core);
    folder.write("image", image);
    folder
}

const VALID: [u8; 7] = [0x59, 0x59, 0x23, 0x07, 0x31, 0x12, 0x99];
const APRIL_31: [u8; 7] = [0x00, 0x30, 0x12, 0x03, 0x31, 0x04, 0x24];

#[test]
fn what_was_changed_is_printed_in_words_and_written() {
    let folder = folder_with("mend", APRIL_31, [0x5A, 0x00, 0x00, 0x00, 0x30, 0x02, 0x09]);
    let before = folder.read("image");
    let expected = "\
06h date: 31h to 30h, April has 30 days
core seconds: 5Ah to 00h, not two decimal digits
core day: 00h to 01h, days of the week are 1 to 7
core date: 30h to 28h, February 09 has 28 days
image: 1 register and the core put right
";
    assert_eq!(folder.succeed(&["mend", "--image", "image"]), expected);
    let after = folder.read("image");
    for (place, (old, new)) in before.iter().zip(&after).enumerate() {
        assert_eq!(old != new, [6, 15, 18, 19].contains(&place), "byte {place}");
    }
    // Once is enough.
    let again = folder.succeed(&["mend", "--image", "image"]);
    assert_eq!(
        again,
        "image: registers and core are valid, nothing to put right\n"
    );
    assert_eq!(folder.read("image"), after);
    assert_eq!(folder.snapshot().len(), 1, "no other file is left behind");
}

#[test]
fn a_dry_run_prints_the_same_and_writes_nothing() {
    let folder = folder_with("mend-dry", APRIL_31, VALID);
    let before = folder.snapshot();
    let expected = "\
06h date: 31h to 30h, April has 30 days
image: 1 register to put right, nothing written
";
    let printed = folder.succeed(&["mend", "--dry-run", "--image", "image"]);
    assert_eq!(printed, expected);
    assert!(folder.snapshot() == before);
}

#[test]
#[cfg(unix)]
fn a_valid_image_is_not_written() {
    use std::os::unix::fs::MetadataExt;
    let folder = folder_with("mend-valid", VALID, VALID);
    let identity = |folder: &Folder| {
        let file = folder.file("image").metadata().unwrap();
        (file.ino(), file.mtime_nsec())
    };
    let before = identity(&folder);
    folder.succeed(&["mend", "--image", "image"]);
    assert_eq!(identity(&folder), before, "the very same file");
    let folder = folder_with("mend-replaced", APRIL_31, VALID);
    let before = identity(&folder);
    folder.succeed(&["mend", "--image", "image"]);
    assert_ne!(identity(&folder).0, before.0, "a new file took its place");
}

#[test]
#[cfg(unix)]
fn a_link_stays_and_its_file_is_put_right() {
    use std::os::unix::fs::symlink;
    let folder = folder_with("mend-link", APRIL_31, VALID);
    symlink("image", folder.file("link")).unwrap();
    folder.succeed(&["mend", "--image", "link"]);
    assert!(folder.file("link").is_symlink(), "a link stays a link");
    assert_eq!(folder.read("image")[6], 0x30);
}

#[test]
fn what_cannot_be_mended_is_refused_and_stays() {
    let folder = folder_with("mend-refused", APRIL_31, APRIL_31);
    folder.write("short", [0; 63]);
    folder.write("zeros", [0; 64]);
    let mut fixed = folder.read("image");
    fixed[4] = 0x40;
    folder.write("fixed", fixed);
    let before = folder.snapshot();
    let fails = |words: &[&str], code: i32, said: &str| {
        let ran = folder.run(&[&["mend"], words].concat());
        assert_eq!(ran.code, code, "{words:?}: {}", ran.errors);
        assert!(ran.errors.contains(said), "{words:?}: {}", ran.errors);
        assert_eq!(ran.output, "", "{words:?}");
    };
    fails(&[], 2, "mend needs --image FILE");
    fails(&["--image", "image", "more"], 2, "one word too many: more");
    fails(
        &["--image", "image", "--force"],
        2,
        "unknown option --force",
    );
    fails(&["--image", "none"], 1, "none: there is no such file");
    fails(&["--image", "."], 1, "not a regular file");
    fails(
        &["--image", "short"],
        4,
        "the file has 63 bytes: image is not 64",
    );
    fails(
        &["--image", "zeros"],
        4,
        "no well-formed state writes it (number 2)",
    );
    fails(
        &["--image", "fixed"],
        4,
        "no well-formed state writes it (number 2)",
    );
    assert!(folder.snapshot() == before);
    assert!(!folder.file("none").exists());
}
