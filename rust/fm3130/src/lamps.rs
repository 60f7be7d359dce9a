// SPDX-License-Identifier: Apache-2.0
//! The proving record: which of eight lamps may be shown lit.

use crate::device::Device;
use crate::refusal::Refusal;
use crate::report::Report;
use crate::{RECORD_BYTES, UNANSWERED};

/// The proving record beside a device. It sees the events that are run through it, and no others.
///
/// A lamp is lit exactly if the last whole read of its byte, all of it after the last bus failure,
/// gave 1 and fewer than three ticks have passed since the Stop that ended it. That is proved of the
/// archive, for a record that begins with a device between transfers.
///
/// Lit is what was read, not what was to be written: a write that hangs leaves the old bit, and the
/// next whole read lights the lamp by it. After a failure write again and read back.
///
/// ```
/// use fm3130::{event, master, Device, Lamps};
///
/// let mut device = Device::fresh();
/// device.memory_mut()[0x1000] = 1;
///
/// // The proving read, by the master's side: one byte at 1000h, with its address and its Stop.
/// let mut read = [0; 48];
/// assert_eq!(master::read_events(0x1000, 1, &mut read), Ok(48));
///
/// let mut lamps = Lamps::begun();
/// assert_eq!(lamps.run(&mut device, &read)?.len(), 48);
/// assert!(lamps.report().is_lit(0));
///
/// // Silence: the third tick darkens the lamp, though the memory still holds 1.
/// lamps.run(&mut device, &[event::TICK; 2])?;
/// assert!(lamps.report().is_lit(0));
/// lamps.run(&mut device, &[event::TICK])?;
/// assert!(!lamps.report().is_lit(0));
/// # Ok::<(), fm3130::Refusal>(())
/// ```
#[derive(Clone, Debug, Default, PartialEq, Eq)]
pub struct Lamps {
    record: [u8; RECORD_BYTES],
    report: Report,
}

impl Lamps {
    /// The record before any event: all lamps are dark.
    ///
    /// ```
    /// assert_eq!(fm3130::Lamps::begun().report().0, 0);
    /// ```
    pub fn begun() -> Lamps {
        Lamps::default()
    }

    /// The record that some bytes hold, as [`Lamps::bytes`] or a C host left them; nothing where they
    /// hold none.
    ///
    /// ```
    /// use fm3130::Lamps;
    ///
    /// let lamps = Lamps::begun();
    /// assert_eq!(Lamps::from_bytes(lamps.bytes()), Some(lamps));
    /// assert_eq!(Lamps::from_bytes(&[0; 19]), None);
    /// assert_eq!(Lamps::from_bytes(&[4; 20]), None);
    /// ```
    pub fn from_bytes(bytes: &[u8]) -> Option<Lamps> {
        let mut lamps = Lamps {
            record: bytes.try_into().ok()?,
            report: Report::default(),
        };
        // An empty list changes nothing, is refused for bytes that hold no record, and reports.
        lamps.run(&mut Device::fresh(), &[]).ok()?;
        Some(lamps)
    }

    /// The record's bytes.
    ///
    /// ```
    /// assert_eq!(fm3130::Lamps::begun().bytes(), &[0; 20]);
    /// ```
    pub fn bytes(&self) -> &[u8; RECORD_BYTES] {
        &self.record
    }

    /// The lamps after the last event; all dark after a call that was refused.
    ///
    /// ```
    /// assert_eq!(fm3130::Lamps::begun().report().to_string(), "........");
    /// ```
    pub fn report(&self) -> Report {
        self.report
    }

    /// Runs a list of events on a device and steps the record along; returns an answer for each.
    ///
    /// # Errors
    ///
    /// [`Refusal::UnknownEvent`]; then no event was done, the record is as it was, and no lamp may be shown
    /// lit until a call is answered.
    ///
    /// ```
    /// use fm3130::{event, Device, Lamps};
    ///
    /// let (mut lamps, mut device) = (Lamps::begun(), Device::fresh());
    /// assert_eq!(lamps.run(&mut device, &[event::START, event::STOP])?, [5, 5]);
    /// assert!(lamps.run(&mut device, &[8]).is_err());
    /// # Ok::<(), fm3130::Refusal>(())
    /// ```
    pub fn run(&mut self, device: &mut Device, events: &[u8]) -> Result<Vec<u8>, Refusal> {
        let mut answers = vec![UNANSWERED; events.len()];
        self.run_into(device, events, &mut answers)?;
        Ok(answers)
    }

    /// The same; the answers go to the first bytes of `answers`, the others stay.
    ///
    /// # Errors
    ///
    /// [`Refusal::UnknownEvent`] or [`Refusal::ShortAnswers`], as in [`Lamps::run`].
    ///
    /// ```
    /// use fm3130::{event, Device, Lamps, Refusal};
    ///
    /// let (mut lamps, mut device) = (Lamps::begun(), Device::fresh());
    /// let refused = lamps.run_into(&mut device, &[event::TICK; 2], &mut [0]);
    /// assert_eq!(refused, Err(Refusal::ShortAnswers));
    /// ```
    pub fn run_into(
        &mut self,
        device: &mut Device,
        events: &[u8],
        answers: &mut [u8],
    ) -> Result<(), Refusal> {
        self.report = Report::default();
        self.report = device.run_with(&mut self.record, events, answers)?;
        Ok(())
    }
}
