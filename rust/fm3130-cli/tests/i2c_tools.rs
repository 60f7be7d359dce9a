// SPDX-License-Identifier: Apache-2.0
//! Programs that know nothing of this house, on a bus that is ours: Debian's i2c-tools, Python's smbus and smbus2.

mod support;

use std::path::Path;

use support::{Folder, Ran};

/// Debian puts them where not every PATH looks.
const TOOLS: &str = "/usr/sbin/";

/// Runs a program on the bus; the words before it are options.
fn bus(folder: &Folder, options: &[&str], program: &[&str]) -> Ran {
    let path = match program[0].starts_with("i2c") {
        true => format!("{TOOLS}{}", program[0]),
        false => program[0].to_string(),
    };
    assert!(
        !path.starts_with('/') || Path::new(&path).exists(),
        "{path} is missing; tools/setup.sh installs it"
    );
    let mut words = vec!["bus"];
    words.extend(options);
    words.extend(["--", &path]);
    words.extend(&program[1..]);
    folder.run(&words)
}

/// A program that must succeed, in a folder whose device is kept in two files.
fn tool(folder: &Folder, program: &str) -> String {
    let kept = ["--quiet", "--image", "image", "--memory", "memory"];
    let program: Vec<&str> = program.split(' ').collect();
    let ran = bus(folder, &kept, &program);
    assert_eq!(ran.code, 0, "{program:?}: {}{}", ran.output, ran.errors);
    ran.output
}

#[test]
fn i2cdetect_finds_the_memory_and_the_companion() {
    let folder = Folder::new("bus-detect");
    let found = |options: &[&str], number: &str| -> Vec<String> {
        let ran = bus(&folder, options, &["i2cdetect", "-y", number]);
        assert_eq!(ran.code, 0, "{}", ran.errors);
        let cells = ran
            .output
            .lines()
            .skip(1)
            .flat_map(|line| line[3..].split(' '));
        let cells = cells.map(|cell| cell.trim().to_string());
        cells
            .filter(|cell| !cell.is_empty() && cell != "--")
            .collect()
    };
    assert_eq!(found(&[], "1"), ["50", "68"]);
    assert_eq!(
        found(&["--number", "7", "--part", "fm31256"], "7"),
        ["50", "68"]
    );
    let set = ["--part", "fm31256@0", "--part", "fm3164@2"];
    assert_eq!(found(&set, "1"), ["50", "52", "68", "6a"]);
    let ran = bus(&folder, &["--number", "7"], &["i2cdetect", "-l"]);
    assert!(
        ran.output.contains("i2c-7") && ran.output.contains("fm3130"),
        "{}",
        ran.output
    );
    let ran = bus(&folder, &[], &["i2cdetect", "-F", "1"]);
    assert!(
        ran.output.contains("SMBus PEC                        no"),
        "{}",
        ran.output
    );
    assert!(
        ran.output.contains("I2C                              yes"),
        "{}",
        ran.output
    );
    // Another number is not ours.
    assert_ne!(bus(&folder, &[], &["i2cdetect", "-y", "97"]).code, 0);
}

#[test]
fn bytes_come_back_and_the_device_lives_on() {
    let folder = Folder::new("bus-bytes");
    tool(&folder, "i2ctransfer -y 1 w5@0x50 0x01 0x23 0x5a 0xa5 0x11");
    let read = tool(&folder, "i2ctransfer -y 1 w2@0x50 0x01 0x23 r3");
    assert_eq!(read, "0x5a 0xa5 0x11\n");
    assert_eq!(folder.read("memory")[0x123..0x126], [0x5A, 0xA5, 0x11]);
    // The clock is set: 12:34:56 on 16/11/26, day 1, by single registers and by a block.
    tool(&folder, "i2cset -y 1 0x68 0x01 0x00");
    tool(&folder, "i2cset -y 1 0x68 0x00 0x02");
    tool(
        &folder,
        "i2cset -y 1 0x68 0x02 0x56 0x34 0x12 0x01 0x16 0x11 0x26 i",
    );
    tool(&folder, "i2cset -y 1 0x68 0x00 0x00");
    assert_eq!(tool(&folder, "i2cget -y 1 0x68 0x02"), "0x56\n");
    assert_eq!(tool(&folder, "i2cget -y 1 0x68 0x03 w"), "0x1234\n");
    assert_eq!(
        tool(&folder, "i2cget -y 1 0x68 0x05 i 4"),
        "0x01 0x16 0x11 0x26\n"
    );
    let dump = tool(&folder, "i2cdump -y -r 0x00-0x0f 1 0x68 b");
    assert!(
        dump.contains("00: 00 00 56 34 12 01 16 11 26 00 00 00 00 00 00 XX"),
        "{dump}"
    );
    // The command sees the same device.
    let words = folder.succeed(&["view", "--registers", "--image", "image"]);
    assert!(
        words.contains("Calendar   12:34:56, 16/11/26, day 1"),
        "{words}"
    );
}

#[test]
fn what_is_not_acknowledged_is_an_error() {
    let folder = Folder::new("bus-errors");
    let kept = ["--quiet", "--image", "image", "--memory", "memory"];
    tool(&folder, "i2cset -y 1 0x68 0x0e 0x08");
    for (program, said) in [
        (&["i2cget", "-y", "1", "0x33"][..], "Read failed"),
        (
            &["i2ctransfer", "-y", "1", "w1@0x33", "0x00"],
            "No such device or address",
        ),
        // 0000h to 07FFh are protected: the data byte is refused, and not stored.
        (
            &["i2ctransfer", "-y", "1", "w3@0x50", "0x00", "0x10", "0x5a"],
            "Remote I/O error",
        ),
        (
            &["i2ctransfer", "-y", "1", "w1@0x68", "0x0f"],
            "Remote I/O error",
        ),
    ] {
        let ran = bus(&folder, &kept, program);
        assert_ne!(ran.code, 0, "{program:?}");
        assert!(ran.errors.contains(said), "{program:?}: {}", ran.errors);
    }
    assert_eq!(folder.read("memory")[0x10], 0);
    tool(&folder, "i2ctransfer -y 1 w3@0x50 0x08 0x00 0x5a");
    assert_eq!(folder.read("memory")[0x800], 0x5A);
}

#[test]
fn a_set_is_on_the_bus_with_its_select_bits() {
    let folder = Folder::new("bus-set");
    let set = [
        "--quiet",
        "--part",
        "fm31256@1",
        "--part",
        "fm3164@3",
        "--image",
        "images",
        "--memory",
        "memories",
    ];
    let run = |program: &str| {
        let program: Vec<&str> = program.split(' ').collect();
        let ran = bus(&folder, &set, &program);
        assert_eq!(ran.code, 0, "{program:?}: {}", ran.errors);
        ran.output
    };
    run("i2ctransfer -y 1 w3@0x51 0x7f 0xff 0x11");
    run("i2ctransfer -y 1 w3@0x53 0x00 0x10 0x33");
    run("i2cset -y 1 0x6b 0x11 0x42");
    assert_eq!(run("i2ctransfer -y 1 w2@0x51 0x7f 0xff r1"), "0x11\n");
    assert_eq!(run("i2ctransfer -y 1 w2@0x53 0x00 0x10 r1"), "0x33\n");
    assert_eq!(folder.read("memories")[0x7FFF], 0x11);
    assert_eq!(folder.read("memories")[0x8010], 0x33);
    assert_eq!(folder.read("images")[64 + 8], 0x42);
    assert_eq!(folder.read("images.plan"), b"fm31256@1\nfm3164@3\n");
}

#[test]
fn python_runs_as_it_is() {
    let folder = Folder::new("bus-python");
    let program = "\
import os, smbus, smbus2
assert os.path.exists('/dev/i2c-3') and not os.path.exists('/dev/i2c-4')
old = smbus.SMBus(3)
old.write_i2c_block_data(0x50, 0x01, [0x23, 0x5A, 0xA5])
with smbus2.SMBus(3) as bus:
    read = smbus2.i2c_msg.read(0x50, 2)
    bus.i2c_rdwr(smbus2.i2c_msg.write(0x50, [0x01, 0x23]), read)
    assert list(read) == [0x5A, 0xA5], list(read)
    assert bus.read_word_data(0x68, 0x00) == 0x8090
    assert bus.read_i2c_block_data(0x68, 0x05, 3) == [1, 1, 1]
    for wrong in (lambda: bus.write_quick(0x33), lambda: bus.read_byte(0x20)):
        try:
            wrong()
        except OSError as error:
            assert error.errno == 6
        else:
            raise SystemExit('nobody answers there')
    try:
        bus.read_block_data(0x68, 0x00)
    except OSError as error:
        assert error.errno == 95
assert old.read_byte_data(0x68, 0x07) == 1
";
    folder.write("program.py", program);
    let words = ["/usr/bin/python3", "program.py"];
    let ran = bus(&folder, &["--number", "3"], &words);
    assert_eq!(ran.code, 0, "{}{}", ran.output, ran.errors);
    // Programs that a program starts are on the same bus.
    let line = "/usr/sbin/i2cset -y 1 0x50 0x00 0x10 0x77 i && /usr/sbin/i2ctransfer -y 1 w2@0x50 0x00 0x10 r1";
    let ran = bus(&folder, &[], &["sh", "-c", line]);
    assert_eq!(
        (ran.code, ran.output.as_str()),
        (0, "0x77\n"),
        "{}",
        ran.errors
    );
}

#[test]
fn seconds_pass_if_that_is_asked_for() {
    let folder = Folder::new("bus-clock");
    tool(&folder, "i2cset -y 1 0x68 0x01 0x00");
    let kept = ["--quiet", "--image", "image", "--memory", "memory"];
    let line = "sleep 2.2; /usr/sbin/i2cget -y 1 0x68 0x02";
    let ran = bus(&folder, &kept, &["sh", "-c", line]);
    assert_eq!((ran.code, ran.output.as_str()), (0, "0x00\n"));
    let ran = bus(
        &folder,
        &[&kept[..], &["--clock"]].concat(),
        &["sh", "-c", line],
    );
    assert_eq!(ran.code, 0, "{}", ran.errors);
    let seconds = u64::from_str_radix(ran.output.trim().trim_start_matches("0x"), 16).unwrap();
    assert!((2..30).contains(&seconds), "{seconds}");
    let words = folder.succeed(&["view", "--registers", "--image", "image"]);
    assert!(!words.contains("Calendar   00:00:00"), "{words}");
}

#[test]
fn exit_codes_and_errors_are_handed_on() {
    let folder = Folder::new("bus-codes");
    let code = |options: &[&str], program: &[&str]| bus(&folder, options, program).code;
    assert_eq!(code(&[], &["sh", "-c", "exit 7"]), 7);
    assert_eq!(code(&[], &["sh", "-c", "kill -TERM $$"]), 128 + 15);
    assert_eq!(code(&[], &["no-such-program"]), 1);
    assert_eq!(folder.run(&["bus"]).code, 2);
    assert_eq!(code(&["--number", "many"], &["true"]), 2);
    folder.write("image", [0; 64]);
    assert_eq!(code(&["--image", "image"], &["true"]), 4);
    // What the device did is kept, whatever became of the program.
    let line = "/usr/sbin/i2cset -y 1 0x50 0x00 0x10 0x77 i; exit 3";
    let kept = ["--quiet", "--memory", "memory"];
    assert_eq!(code(&kept, &["sh", "-c", line]), 3);
    assert_eq!(folder.read("memory")[0x10], 0x77);
}
