# SPDX-License-Identifier: Apache-2.0
"""A master of the bus over anything that does lists of events: one device, a part of the larger family, a set.

A list may be cut into pieces at any place, each piece a call, and the outcome is the same. So the master plays byte by byte,
looks at each acknowledge, and gives up at the first that is missing, as a master on real wires does.
"""

from typing import Iterable, List, Tuple, Union

from . import event
from ._refused import NotAcknowledged, invalid

MEMORY_ADDRESS = 0x50
COMPANION_ADDRESS = 0x68

# One message of a transfer: where to, and what to write or how many bytes to read.
Message = Tuple[int, Union[bytes, int]]


class OnTheBus:
    """What a device can be asked over the bus; `run` is the one thing that it needs."""

    def run(self, events: Iterable[int]) -> bytes:
        """Does events; the answer to each."""
        raise NotImplementedError

    def transfer(self, address: int, write: bytes = b"", read: int = 0) -> bytes:
        """One whole transfer with a 7-bit address: writes bytes, then, after a repeated Start, reads some.

        Raises `NotAcknowledged` at the first byte that is not acknowledged; the Stop is done all the same.

        >>> import fm3130
        >>> device = fm3130.Device()
        >>> device.transfer(0x50, write=bytes([0x01, 0x23, 0x5A]))
        b''
        >>> device.transfer(0x50, write=bytes([0x01, 0x23]), read=1).hex()
        '5a'
        """
        messages: List[Message] = []
        if write or not read:
            messages.append((address, bytes(write)))
        if read:
            messages.append((address, read))
        return b"".join(self.messages(messages))

    def messages(self, messages: Iterable[Message]) -> List[bytes]:
        """Messages in one transfer, each behind a Start, and a Stop at the end; what each of them read."""
        checked = [_checked(address, what) for address, what in messages]
        try:
            return [self._message(address, what) for address, what in checked]
        finally:
            self.run([event.STOP])

    def read_registers(self, first: int, count: int = 1) -> bytes:
        """Registers over the bus, from an address on.

        >>> import fm3130
        >>> fm3130.Device().read_registers(0x05, 3).hex(" ")
        '01 01 01'
        """
        return self.transfer(COMPANION_ADDRESS, bytes([first]), count)

    def write_registers(self, first: int, data: Iterable[int]) -> None:
        """Writes registers over the bus, from an address on; raises `NotAcknowledged` where one is not acknowledged."""
        self.transfer(COMPANION_ADDRESS, bytes([first, *data]))

    def lose_power(self, backup: bool = True) -> None:
        """Main power is lost; without backup the registers are lost too.

        >>> import fm3130
        >>> device = fm3130.Device()
        >>> device.lose_power()
        >>> device.power
        'backup'
        """
        self.run([event.POWER_LOST_WITH_BACKUP if backup else event.POWER_LOST_WITHOUT_BACKUP])

    def return_power(self) -> None:
        """Main power returns."""
        self.run([event.POWER_RETURNED])

    def _message(self, address: int, what: Union[bytes, int]) -> bytes:
        self.run([event.START])
        if not self._send(address << 1 | isinstance(what, int)):
            raise NotAcknowledged.address(address)
        if isinstance(what, int):
            return bytes(self._receive(goes_on=left > 1) for left in range(what, 0, -1))
        for place, byte in enumerate(what):
            if not self._send(byte):
                raise NotAcknowledged.byte(address, byte, place)
        return b""

    def _send(self, byte: int) -> bool:
        """Writes a byte; whether it was acknowledged, as the answers to these nine clocks say."""
        return event.is_acknowledged(self.run(event.written_byte(byte)))

    def _receive(self, goes_on: bool) -> int:
        return event.value_of(self.run(event.read_byte(goes_on)))


def _checked(address: int, what: Union[bytes, int]) -> Message:
    """A message that can be sent: nothing is on the wires before all are looked at."""
    if not 0 <= address <= 0x7F:
        raise invalid(f"{address:#x} is no 7-bit address")
    if isinstance(what, int):
        if what < 0:
            raise invalid(f"{what} bytes cannot be read")
        return address, what
    return address, bytes(what)
