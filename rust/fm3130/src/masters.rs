// SPDX-License-Identifier: Apache-2.0
//! Two masters on one device: the rig's own controller and a maintainer's handheld.
//!
//! [`share`] makes two handles on one device, a [`Handle`] for each [`Master`]. A master asks for
//! the bus and calls; the bus is freed when a call ends whose last Stop, event 5 or event 6 has no
//! Start after it, whoever made that call.
//!
//! A read may rely on this. From a device between transfers whose bus nobody holds, a transaction that
//! sets its address and reads in the same transaction is answered the same, whatever the other master
//! did before, if
//!
//! * the other wrote none of the bytes that are read and no register, and did not read 00h;
//! * this master got no number 7, and the address of each of its register reads was set, acknowledged,
//!   earlier in the same transaction;
//! * the ticks and power events are the same.
//!
//! **A read from the current address has no such assurance**: both addresses are as the last transfer
//! left them, whoever made it. Set the address, then read, in one transaction.
//!
//! ```
//! use fm3130::masters::{share, Master};
//! use fm3130::{event, Device, Refusal};
//!
//! let (rig, handheld) = share(Device::fresh());
//! rig.ask()?;
//! assert_eq!(handheld.ask(), Err(Refusal::NotHeld));
//!
//! // The rig begins a transaction and keeps the bus; a tick belongs to neither.
//! rig.call(&[event::START])?;
//! assert_eq!(handheld.call(&[event::STOP]), Err(Refusal::NotHeld));
//! handheld.call(&[event::TICK])?;
//! assert_eq!(handheld.holder(), Some(Master::Rig));
//!
//! // Its Stop frees the bus.
//! rig.call(&[event::STOP])?;
//! assert_eq!(rig.holder(), None);
//! assert_eq!(handheld.ask(), Ok(()));
//! # Ok::<(), Refusal>(())
//! ```

use std::fmt;
use std::sync::{Arc, Mutex, MutexGuard, PoisonError};

use crate::device::Device;
use crate::refusal::Refusal;
use crate::UNANSWERED;

/// The length of what says who holds the bus.
pub const BUS_BYTES: usize = 1;

/// The bus byte that says that nobody holds the bus.
pub const NOBODY: u8 = 0;

/// One of the two masters.
#[derive(Clone, Copy, Debug, PartialEq, Eq, Hash)]
pub enum Master {
    /// The rig's own controller.
    Rig,
    /// The maintainer's handheld.
    Handheld,
}

impl Master {
    /// Both.
    pub const ALL: [Master; 2] = [Master::Rig, Master::Handheld];

    /// The archive's number, and the bus byte while this master holds the bus.
    ///
    /// ```
    /// use fm3130::masters::Master;
    /// assert_eq!(Master::ALL.map(Master::number), [1, 2]);
    /// ```
    pub fn number(self) -> u8 {
        match self {
            Master::Rig => 1,
            Master::Handheld => 2,
        }
    }

    /// The other one.
    ///
    /// ```
    /// use fm3130::masters::Master;
    /// assert_eq!(Master::Rig.other(), Master::Handheld);
    /// ```
    pub fn other(self) -> Master {
        match self {
            Master::Rig => Master::Handheld,
            Master::Handheld => Master::Rig,
        }
    }

    /// Who holds the bus, by a bus byte; none for 0 and for a byte that says nothing.
    fn holding(byte: u8) -> Option<Master> {
        Master::ALL.into_iter().find(|one| one.number() == byte)
    }
}

impl fmt::Display for Master {
    fn fmt(&self, formatter: &mut fmt::Formatter<'_>) -> fmt::Result {
        formatter.write_str(match self {
            Master::Rig => "rig",
            Master::Handheld => "handheld",
        })
    }
}

/// A device and the byte that says who holds its bus.
struct Shared {
    device: Device,
    bus: [u8; BUS_BYTES],
}

/// A master's hand on a shared device. It may go to a thread of its own.
#[derive(Clone)]
pub struct Handle {
    master: Master,
    shared: Arc<Mutex<Shared>>,
}

/// Two handles on one device, the rig's first. Nobody holds the bus.
///
/// ```
/// use fm3130::{masters, Device};
///
/// let (rig, handheld) = masters::share(Device::fresh());
/// assert_eq!((rig.holder(), handheld.holder()), (None, None));
/// ```
pub fn share(device: Device) -> (Handle, Handle) {
    let bus = [NOBODY; BUS_BYTES];
    let shared = Arc::new(Mutex::new(Shared { device, bus }));
    let handle = |master| Handle {
        master,
        shared: Arc::clone(&shared),
    };
    (handle(Master::Rig), handle(Master::Handheld))
}

impl Handle {
    /// Whose handle it is.
    ///
    /// ```
    /// use fm3130::masters::{share, Master};
    /// assert_eq!(share(fm3130::Device::fresh()).1.master(), Master::Handheld);
    /// ```
    pub fn master(&self) -> Master {
        self.master
    }

    /// Asks for the bus. One that holds it already is answered too.
    ///
    /// # Errors
    ///
    /// [`Refusal::NotHeld`] while the other holds it; then nothing has changed.
    ///
    /// ```
    /// let (rig, handheld) = fm3130::masters::share(fm3130::Device::fresh());
    /// assert_eq!((rig.ask(), rig.ask()), (Ok(()), Ok(())));
    /// assert_eq!(handheld.ask(), Err(fm3130::Refusal::NotHeld));
    /// ```
    pub fn ask(&self) -> Result<(), Refusal> {
        let shared = &mut *self.lock();
        crate::ask(&mut shared.bus, u64::from(self.master.number()))
    }

    /// Runs a list of events; returns an answer for each. Ticks and power events belong to neither
    /// master: a list of them needs no bus.
    ///
    /// # Errors
    ///
    /// [`Refusal::UnknownEvent`], or [`Refusal::NotHeld`] where some event is a Start, a Stop or a
    /// Clock and this master does not hold the bus; then nothing has changed.
    ///
    /// ```
    /// use fm3130::{event, masters, Device, Refusal};
    ///
    /// let (rig, _) = masters::share(Device::fresh());
    /// assert_eq!(rig.call(&[event::START, event::STOP]), Err(Refusal::NotHeld));
    /// rig.ask()?;
    /// assert_eq!(rig.call(&[event::START, event::STOP])?, [5, 5]);
    /// # Ok::<(), Refusal>(())
    /// ```
    pub fn call(&self, events: &[u8]) -> Result<Vec<u8>, Refusal> {
        let mut answers = vec![UNANSWERED; events.len()];
        let shared = &mut *self.lock();
        let (image, memory) = shared.device.parts_mut();
        let master = u64::from(self.master.number());
        crate::call(&mut shared.bus, master, image, memory, events, &mut answers)?;
        Ok(answers)
    }

    /// Who holds the bus.
    ///
    /// ```
    /// use fm3130::masters::{share, Master};
    ///
    /// let (rig, handheld) = share(fm3130::Device::fresh());
    /// rig.ask()?;
    /// assert_eq!(handheld.holder(), Some(Master::Rig));
    /// # Ok::<(), fm3130::Refusal>(())
    /// ```
    pub fn holder(&self) -> Option<Master> {
        Master::holding(self.lock().bus[0])
    }

    /// The device as it is now, a copy.
    ///
    /// ```
    /// use fm3130::{masters, Device};
    ///
    /// let (rig, _) = masters::share(Device::fresh());
    /// assert_eq!(rig.device(), Device::fresh());
    /// ```
    pub fn device(&self) -> Device {
        self.lock().device.clone()
    }

    /// No function here panics while it holds the lock; if one did all the same, the archive has
    /// left a whole outcome behind, so there is nothing to fear from it.
    fn lock(&self) -> MutexGuard<'_, Shared> {
        self.shared.lock().unwrap_or_else(PoisonError::into_inner)
    }
}

impl fmt::Debug for Handle {
    fn fmt(&self, formatter: &mut fmt::Formatter<'_>) -> fmt::Result {
        formatter
            .debug_struct("Handle")
            .field("master", &self.master)
            .field("holder", &self.holder())
            .finish_non_exhaustive()
    }
}
