// SPDX-License-Identifier: Apache-2.0
//! What docs/CAPTURE.md says of a bus with other parts on it.

mod support;

use fm3130::capture::Capture;
use fm3130::{event, Device};
use support::{Folder, Ran};

/// Start, D2h, its ninth clock and Stop: a slave byte of another part, acknowledged by somebody.
const ANOTHERS: [u8; 11] = [0, 3, 3, 2, 3, 2, 2, 3, 2, 3, 1];
const NINTH: usize = 9;

/// The verdict on these events, with a low line at the ninth clock.
fn judged(folder: &Folder, events: &[u8]) -> Ran {
    let device = Device::fresh();
    let mut answers = device.clone().run(events).unwrap();
    answers[NINTH] &= !1;
    let capture = Capture {
        image: device.image(),
        memory: device.memory(),
        events,
        answers: &answers,
    };
    folder.write("c.capture", capture.to_file().unwrap());
    folder.run(&["judge", "c.capture"])
}

#[test]
fn another_parts_acknowledge_in_a_capture_is_the_masters_or_differs() {
    let folder = Folder::new("other-parts-capture");
    let released = judged(&folder, &ANOTHERS);
    assert_eq!(released.code, 5);
    assert!(released.output.contains("clock 9, the acknowledge\n"));
    assert!(released.output.contains("recorded low, right high\n"));
    let mut pulled = ANOTHERS;
    pulled[NINTH] = event::CLOCK_LOW;
    let agreed = judged(&folder, &pulled);
    assert_eq!(agreed.output, "all agree: 11 answers\n");
}

/// The last low clock of each script stands for an acknowledge: its waveform is the same.
#[test]
fn an_acknowledge_in_a_waveform_is_judged_in_the_devices_own_transactions() {
    let folder = Folder::new("other-parts-waveform");
    for (text, is_found) in [
        ("[ {11010010} {0} ]", false),
        ("[ {10100010} {0} {00000000} {0} ]", false),
        ("[ D0 {00001111} {0} ]", true),
        ("[ D0 0E 08 ] [ A0 07 FF {00000001} {0} ]", true),
    ] {
        folder.write("w.bus", text);
        folder.succeed(&["run", "w.bus", "--quiet", "--vcd", "w.vcd"]);
        let ran = folder.run(&["judge", "--from-vcd", "w.vcd"]);
        assert_eq!(ran.code == 5, is_found, "{text}: {}", ran.output);
        assert_eq!(ran.output.contains("clock 9, the acknowledge\n"), is_found);
    }
}
