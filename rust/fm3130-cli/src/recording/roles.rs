// SPDX-License-Identifier: Apache-2.0
//! Who gives the data line its level at a Clock, by the protocol.

use fm3130::{event, Phase, State};

use super::seen::Giver;

/// The clocks of a byte.
const CLOCKS_OF_A_BYTE: u8 = 9;

/// The slave bytes of the part; the last bit asks for reading.
const SLAVE_BYTES: [u8; 4] = [0xA0, 0xA1, 0xD0, 0xD1];

/// Who sends the byte under way.
#[derive(Clone, Copy, PartialEq, Eq)]
enum Sender {
    /// Nobody that matters to the part.
    Nobody,
    /// The master sends a slave byte.
    MasterSlaveByte,
    /// The master sends to the part.
    Master,
    /// The part sends.
    Part,
}

/// What the protocol says of the byte under way.
pub struct Roles {
    sender: Sender,
    /// A Start came, and no Stop since.
    is_in_transfer: bool,
    /// The clocks of the byte done.
    clocks: u8,
    byte: u8,
}

impl Roles {
    /// Where a state stands.
    pub fn of(state: &State) -> Roles {
        let sender = match state.phase {
            Phase::Idle => Sender::Nobody,
            Phase::SlaveByte => Sender::MasterSlaveByte,
            Phase::Read(_) => Sender::Part,
            _ => Sender::Master,
        };
        Roles {
            sender,
            is_in_transfer: state.phase != Phase::Idle,
            clocks: state.clocks,
            byte: state.byte,
        }
    }

    /// A Start or a Stop.
    pub fn condition(&mut self, event: u8) {
        self.is_in_transfer = event == event::START;
        self.sender = match event {
            event::START => Sender::MasterSlaveByte,
            _ => Sender::Nobody,
        };
        self.clocks = 0;
    }

    /// Main power is lost: the part leaves the transfer, which goes on without it.
    pub fn lose_power(&mut self) {
        self.sender = Sender::Nobody;
        self.clocks = 0;
    }

    /// Whether a byte is under way in which the part has a share.
    pub fn is_for_the_part(&self) -> bool {
        self.sender != Sender::Nobody
    }

    /// Whether the next Clock is the acknowledge of a slave byte that names the part.
    pub fn names_the_part(&self) -> bool {
        self.sender == Sender::MasterSlaveByte
            && self.next_is_ninth()
            && SLAVE_BYTES.contains(&self.byte)
    }

    fn next_is_ninth(&self) -> bool {
        self.clocks == CLOCKS_OF_A_BYTE - 1
    }

    /// Who gives the line its level at the next Clock.
    pub fn giver(&self) -> Giver {
        let names_the_part = SLAVE_BYTES.contains(&self.byte);
        match (self.sender, self.next_is_ninth()) {
            (Sender::Nobody, _) if !self.is_in_transfer => Giver::Anybody,
            (Sender::Nobody, _) => Giver::Others,
            (Sender::MasterSlaveByte, true) if !names_the_part => Giver::Others,
            (Sender::MasterSlaveByte | Sender::Master, true) => Giver::Part,
            (Sender::Part, false) => Giver::Part,
            _ => Giver::Master,
        }
    }

    /// A Clock is done, at which the wire has a level.
    pub fn take_clock(&mut self, line_is_high: bool) {
        if self.next_is_ninth() {
            self.byte_is_over(line_is_high);
        } else {
            self.clocks += 1;
            self.byte = self.byte << 1 | u8::from(line_is_high);
        }
    }

    /// A byte that is not acknowledged, or a read that is not to go on, ends the part's interest.
    fn byte_is_over(&mut self, line_is_high: bool) {
        self.sender = match (self.sender, line_is_high) {
            (_, true) => Sender::Nobody,
            (Sender::MasterSlaveByte, false) if !SLAVE_BYTES.contains(&self.byte) => Sender::Nobody,
            (Sender::MasterSlaveByte, false) if self.byte & 1 == 1 => Sender::Part,
            (Sender::MasterSlaveByte, false) => Sender::Master,
            (sender, false) => sender,
        };
        self.clocks = 0;
        self.byte = 0;
    }
}

#[cfg(test)]
mod tests {
    use super::*;
    use fm3130::Device;

    #[test]
    fn the_master_lets_go_where_the_part_answers() {
        let state = Device::fresh().state();
        let mut roles = Roles::of(&state);
        roles.condition(event::START);
        let mut giver = |high| {
            let giver = roles.giver();
            roles.take_clock(high);
            giver
        };
        // A1h, acknowledged; then a byte of zeros, to be continued; then one that is not.
        let slave = [1, 0, 1, 0, 0, 0, 0, 1].map(|bit| giver(bit == 1));
        assert_eq!(slave, [Giver::Master; 8]);
        assert_eq!(giver(false), Giver::Part, "the part acknowledges");
        for ninth in [false, true] {
            assert_eq!([(); 8].map(|()| giver(false)), [Giver::Part; 8]);
            assert_eq!(giver(ninth), Giver::Master);
        }
        assert_eq!(giver(true), Giver::Others, "nobody goes on");
        roles.condition(event::STOP);
        assert_eq!(roles.giver(), Giver::Anybody);
    }
}
