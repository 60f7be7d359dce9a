// SPDX-License-Identifier: Apache-2.0
//! The sizes of a memory: its bytes, its last address, its protected parts.

/// 02, number 5: "Add it in its 64Kb and 256Kb sizes". The FM3130 has 64Kb.
#[derive(Clone, Copy, Debug, PartialEq, Eq)]
pub enum Size {
    Kilobits64,
    Kilobits256,
}

/// Both sizes.
pub const SIZES: [Size; 2] = [Size::Kilobits64, Size::Kilobits256];

impl Size {
    /// "8,192 bytes of FRAM"; 003: "the 256Kb memory is 32,768 x 8".
    pub fn bytes(self) -> usize {
        match self {
            Size::Kilobits64 => 8192,
            Size::Kilobits256 => 32_768,
        }
    }

    /// 1FFFh or 7FFFh. Its bits are the bits of an address that count.
    pub fn last_address(self) -> u16 {
        match self {
            Size::Kilobits64 => 0x1FFF,
            Size::Kilobits256 => 0x7FFF,
        }
    }

    /// By WP1 WP0: "00 none; 01 0000h to 07FFh; 10 0000h to 0FFFh; 11 all"; 003:
    /// "Bottom 1/4", "Bottom 1/2", "Full array".
    pub fn is_protected(self, protection: u8, address: u16) -> bool {
        let address = usize::from(address);
        match protection {
            0 => false,
            1 => address < self.bytes() / 4,
            2 => address < self.bytes() / 2,
            3 => true,
            _ => panic!("WP1 WP0 are two bits"),
        }
    }
}
