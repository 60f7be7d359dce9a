// SPDX-License-Identifier: Apache-2.0
//! The programs that are timed beside one another, behind one face.

use crate::plain;
use compare::archive;
use second::{Device, MEMORY_BYTES};

const IMAGE_BYTES: usize = 64;

/// A program with a device of its own.
pub trait Side {
    fn name(&self) -> &'static str;
    /// A fresh device whose memory holds these bytes.
    fn reset(&mut self, memory: &[u8]);
    /// All events, one by one; one answer an event.
    fn run(&mut self, events: &[u8], answers: &mut [u8]);
    fn memory(&self) -> &[u8];
}

/// All sides, the proved one first.
pub fn all() -> Vec<Box<dyn Side>> {
    vec![
        Box::new(Proved::new()),
        Box::new(PlainC::new()),
        Box::new(PlainRust::new()),
        Box::new(Second::new()),
    ]
}

fn fresh_image() -> [u8; IMAGE_BYTES] {
    let mut image = [0; IMAGE_BYTES];
    assert_eq!(archive::fresh(&mut image), 0);
    image
}

/// The proved list run, called as C calls it: with all its tests, from an image to an image.
pub struct Proved {
    image: [u8; IMAGE_BYTES],
    memory: Vec<u8>,
}

impl Proved {
    pub fn new() -> Proved {
        Proved {
            image: fresh_image(),
            memory: vec![0; MEMORY_BYTES],
        }
    }
}

impl Side for Proved {
    fn name(&self) -> &'static str {
        "proved"
    }

    fn reset(&mut self, memory: &[u8]) {
        self.image = fresh_image();
        self.memory.copy_from_slice(memory);
    }

    fn run(&mut self, events: &[u8], answers: &mut [u8]) {
        let ran = archive::run(&mut self.image, &mut self.memory, events, answers);
        assert_eq!((ran.number, ran.count), (0, events.len() as u64));
    }

    fn memory(&self) -> &[u8] {
        &self.memory
    }
}

mod foreign {
    unsafe extern "C" {
        pub fn plain_run(
            image: *mut u8,
            memory: *mut u8,
            events: *const u8,
            count: usize,
            answers: *mut u8,
        );

        pub fn plain_run_tested(
            image: *mut u8,
            image_length: usize,
            memory: *mut u8,
            memory_length: usize,
            events: *const u8,
            count: usize,
            answers: *mut u8,
            room: usize,
        ) -> u32;
    }
}

/// plain.c, from an image to an image; nothing is tested.
pub struct PlainC {
    image: [u8; IMAGE_BYTES],
    memory: Vec<u8>,
}

impl PlainC {
    pub fn new() -> PlainC {
        PlainC {
            image: fresh_image(),
            memory: vec![0; MEMORY_BYTES],
        }
    }
}

impl Side for PlainC {
    fn name(&self) -> &'static str {
        "plain-c"
    }

    fn reset(&mut self, memory: &[u8]) {
        self.image = fresh_image();
        self.memory.copy_from_slice(memory);
    }

    fn run(&mut self, events: &[u8], answers: &mut [u8]) {
        assert!(events.len() <= answers.len());
        // SAFETY: the image has 64 bytes and is one that the proved program wrote or plain.c itself; the memory has
        // 8,192; there is room for an answer an event.
        unsafe {
            foreign::plain_run(
                self.image.as_mut_ptr(),
                self.memory.as_mut_ptr(),
                events.as_ptr(),
                events.len(),
                answers.as_mut_ptr(),
            );
        }
    }

    fn memory(&self) -> &[u8] {
        &self.memory
    }
}

/// plain.c with the tests that the proved program makes of its buffers, its image and all events.
pub struct TestedC(PlainC);

impl TestedC {
    pub fn new() -> TestedC {
        TestedC(PlainC::new())
    }

    /// The number of 01's table.
    pub fn call(image: &mut [u8], memory: &mut [u8], events: &[u8], answers: &mut [u8]) -> u32 {
        // SAFETY: each buffer is handed over with its length, and plain.c reads and writes inside them.
        unsafe {
            foreign::plain_run_tested(
                image.as_mut_ptr(),
                image.len(),
                memory.as_mut_ptr(),
                memory.len(),
                events.as_ptr(),
                events.len(),
                answers.as_mut_ptr(),
                answers.len(),
            )
        }
    }
}

impl Side for TestedC {
    fn name(&self) -> &'static str {
        "tested-c"
    }

    fn reset(&mut self, memory: &[u8]) {
        self.0.reset(memory);
    }

    fn run(&mut self, events: &[u8], answers: &mut [u8]) {
        let number = TestedC::call(&mut self.0.image, &mut self.0.memory, events, answers);
        assert_eq!(number, 0);
    }

    fn memory(&self) -> &[u8] {
        self.0.memory()
    }
}

/// plain.rs.
struct PlainRust {
    device: plain::Device,
    memory: Box<plain::Memory>,
}

impl PlainRust {
    fn new() -> PlainRust {
        PlainRust {
            device: plain::Device::fresh(),
            memory: Box::new([0; MEMORY_BYTES]),
        }
    }
}

impl Side for PlainRust {
    fn name(&self) -> &'static str {
        "plain-rust"
    }

    fn reset(&mut self, memory: &[u8]) {
        self.device = plain::Device::fresh();
        self.memory.copy_from_slice(memory);
    }

    fn run(&mut self, events: &[u8], answers: &mut [u8]) {
        self.device.run(&mut self.memory, events, answers);
    }

    fn memory(&self) -> &[u8] {
        self.memory.as_slice()
    }
}

/// The second program, event by event. It is written to be read, not for speed.
struct Second {
    device: Device,
}

impl Second {
    fn new() -> Second {
        Second {
            device: Device::fresh(),
        }
    }
}

impl Side for Second {
    fn name(&self) -> &'static str {
        "second"
    }

    fn reset(&mut self, memory: &[u8]) {
        self.device = Device::fresh();
        self.device.memory.copy_from_slice(memory);
    }

    fn run(&mut self, events: &[u8], answers: &mut [u8]) {
        for (event, answer) in events.iter().zip(answers) {
            *answer = self.device.event(*event);
        }
    }

    fn memory(&self) -> &[u8] {
        &self.device.memory
    }
}
