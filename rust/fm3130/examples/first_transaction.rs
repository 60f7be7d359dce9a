// SPDX-License-Identifier: Apache-2.0
//! Stores a byte in the memory and reads it back, over the bus.

use fm3130::master::TransactionRefusal;
use fm3130::Device;

fn main() -> Result<(), TransactionRefusal> {
    let mut device = Device::fresh();

    let acknowledged = device.write(0x0123, &[0x5A])?;
    println!("acknowledged: {acknowledged:?}");
    println!("memory at 0123h: {:02X}h", device.memory()[0x0123]);

    let bytes = device.read(0x0123, 1)?;
    println!("read over the bus: {bytes:02X?}");
    Ok(())
}
