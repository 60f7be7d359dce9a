# SPDX-License-Identifier: Apache-2.0
"""A bus with the methods and errors of smbus2, on a device in place of /dev/i2c-1.

The memory is at 50h, with two address bytes; the companion, which has the registers, is at 68h, with one. As on Linux, OSError
says what went wrong: ENXIO where nothing acknowledges at an address, EREMOTEIO where a later byte is not acknowledged, EINVAL
for what the kernel refuses, EOPNOTSUPP for what such an adapter cannot do, EBADF on a bus that is closed.
"""

import errno
import os
from typing import Any, Iterable, Iterator, List, Optional, Sequence, Union

from ._bus import Message, OnTheBus
from ._refused import invalid

BLOCK_MAX = 32
READ_FLAG = 0x0001
# I2C_FUNC_I2C and I2C_FUNC_SMBUS_EMUL but its PEC: what an adapter that only plays messages can do.
FUNCTIONS = 0x00000001 | (0x0EFF0008 & ~0x00000008)


class i2c_msg:  # the name is that of smbus2
    """One message of a combined transfer, made by `read` or `write`.

    >>> from fm3130 import i2c_msg
    >>> list(i2c_msg.write(0x50, [0x01, 0x23]))
    [1, 35]
    >>> len(i2c_msg.read(0x50, 4))
    4
    """

    def __init__(self, addr: int = 0, flags: int = 0, len: int = 0, buf: Optional[bytearray] = None) -> None:
        self.addr = addr
        self.flags = flags
        self.len = len
        self.buf = bytearray(len) if buf is None else buf

    @staticmethod
    def read(address: int, length: int) -> "i2c_msg":
        """A message that reads so many bytes."""
        return i2c_msg(address, READ_FLAG, length, bytearray(length))

    @staticmethod
    def write(address: int, buf: Union[str, Iterable[int]]) -> "i2c_msg":
        """A message that writes bytes: a list of numbers, bytes, or a text of such characters."""
        data = bytearray(map(ord, buf)) if isinstance(buf, str) else bytearray(buf)
        return i2c_msg(address, 0, len(data), data)

    def __iter__(self) -> Iterator[int]:
        return iter(bytes(self))

    def __len__(self) -> int:
        return self.len

    def __bytes__(self) -> bytes:
        return bytes(self.buf[: self.len])

    def __repr__(self) -> str:
        return f"i2c_msg({self.addr},{self.flags},{bytes(self)!r})"

    def __str__(self) -> str:
        return bytes(self).decode(errors="ignore")


class SMBus:
    """An SMBus of smbus2 whose one adapter is a device: `SMBus(1)` becomes `fm3130.SMBus(device)`.

    >>> import fm3130
    >>> bus = fm3130.SMBus(fm3130.Device())
    >>> bus.write_byte_data(0x68, 0x01, 0x00)  # the oscillator runs
    >>> bus.read_i2c_block_data(0x68, 0x05, 3)
    [1, 1, 1]
    >>> bus.read_byte(0x51)
    Traceback (most recent call last):
    fm3130.NotAcknowledged: [Errno 6] nothing acknowledges at 51h
    """

    def __init__(self, bus: Optional[OnTheBus] = None, force: bool = False) -> None:
        self._device: Optional[OnTheBus] = None
        self.funcs = 0
        if bus is not None:
            self.open(bus)
        self.address: Optional[int] = None
        self.force = force

    def __enter__(self) -> "SMBus":
        return self

    def __exit__(self, exc_type: Any, exc_val: Any, exc_tb: Any) -> None:
        self.close()

    def open(self, bus: OnTheBus) -> None:
        """Opens the bus of a device."""
        if not isinstance(bus, OnTheBus):
            raise TypeError(f"Unexpected type(bus)={type(bus)}: a device of fm3130 is wanted")
        self._device = bus
        self.funcs = FUNCTIONS

    def close(self) -> None:
        """Closes the bus; the device stays as it is."""
        self._device = None

    def _get_pec(self) -> int:
        return 0

    def enable_pec(self, enable: bool = True) -> None:
        """Raises: this bus has no packet error checking."""
        raise IOError("SMBUS_PEC is not a feature")

    pec = property(_get_pec, enable_pec)

    def write_quick(self, i2c_addr: int, force: Optional[bool] = None) -> None:
        """A slave byte and nothing more."""
        self._transfer(i2c_addr, b"")

    def read_byte(self, i2c_addr: int, force: Optional[bool] = None) -> int:
        """A byte from the current address."""
        return self._read(i2c_addr, None, 1)[0]

    def write_byte(self, i2c_addr: int, value: int, force: Optional[bool] = None) -> None:
        """One byte, which a part of this kind takes as an address."""
        self._transfer(i2c_addr, _byte(value))

    def read_byte_data(self, i2c_addr: int, register: int, force: Optional[bool] = None) -> int:
        """A byte from a register."""
        return self._read(i2c_addr, register, 1)[0]

    def write_byte_data(self, i2c_addr: int, register: int, value: int, force: Optional[bool] = None) -> None:
        """A byte to a register."""
        self._transfer(i2c_addr, _byte(register) + _byte(value))

    def read_word_data(self, i2c_addr: int, register: int, force: Optional[bool] = None) -> int:
        """Two bytes from a register on, the low byte first."""
        return int.from_bytes(self._read(i2c_addr, register, 2), "little")

    def write_word_data(self, i2c_addr: int, register: int, value: int, force: Optional[bool] = None) -> None:
        """Two bytes to a register on, the low byte first."""
        self._transfer(i2c_addr, _byte(register) + _word(value))

    def process_call(self, i2c_addr: int, register: int, value: int, force: Optional[bool] = None) -> int:
        """Two bytes to a register on, then two bytes read in the same transfer."""
        return int.from_bytes(self._transfer(i2c_addr, _byte(register) + _word(value), 2), "little")

    def read_block_data(self, i2c_addr: int, register: int, force: Optional[bool] = None) -> List[int]:
        """Raises: the part does not send the length of a block."""
        raise _unsupported("read_block_data")

    def write_block_data(self, i2c_addr: int, register: int, data: Sequence[int], force: Optional[bool] = None) -> None:
        """The number of bytes and the bytes, to a register on; to a part of this kind the number is a data byte too."""
        block = _block(data)
        self._transfer(i2c_addr, _byte(register) + bytes([len(block)]) + block)

    def block_process_call(
        self, i2c_addr: int, register: int, data: Sequence[int], force: Optional[bool] = None
    ) -> List[int]:
        """Raises: the part does not send the length of a block."""
        raise _unsupported("block_process_call")

    def read_i2c_block_data(
        self, i2c_addr: int, register: int, length: int, force: Optional[bool] = None
    ) -> List[int]:
        """Up to 32 bytes from a register on."""
        if length > BLOCK_MAX:
            raise ValueError(f"Desired block length over {BLOCK_MAX} bytes")
        if length < 1:
            raise invalid(f"a block of {length} bytes")
        return list(self._read(i2c_addr, register, length))

    def write_i2c_block_data(
        self, i2c_addr: int, register: int, data: Sequence[int], force: Optional[bool] = None
    ) -> None:
        """Up to 32 bytes to a register on."""
        self._transfer(i2c_addr, _byte(register) + _block(data))

    def i2c_rdwr(self, *i2c_msgs: Any) -> None:
        """Messages in one transfer, with a repeated Start between them; what is read stands in them afterwards.

        smbus2's own i2c_msg is taken too.

        >>> import fm3130
        >>> bus = fm3130.SMBus(fm3130.Device())
        >>> bus.i2c_rdwr(fm3130.i2c_msg.write(0x50, [0x01, 0x23, 0x5A]))
        >>> read = fm3130.i2c_msg.read(0x50, 1)
        >>> bus.i2c_rdwr(fm3130.i2c_msg.write(0x50, [0x01, 0x23]), read)
        >>> list(read)
        [90]
        """
        if not i2c_msgs:
            raise invalid("no messages")
        messages = [_message(one) for one in i2c_msgs]
        for one, data in zip(i2c_msgs, self._opened().messages(messages)):
            for place, byte in enumerate(data):
                one.buf[place] = byte

    def _opened(self) -> OnTheBus:
        if self._device is None:
            raise OSError(errno.EBADF, os.strerror(errno.EBADF))
        return self._device

    def _transfer(self, address: int, write: bytes, read: int = 0) -> bytes:
        self.address = address
        return self._opened().transfer(address, write, read)

    def _read(self, address: int, register: Optional[int], count: int) -> bytes:
        return self._transfer(address, b"" if register is None else _byte(register), count)


def _message(message: Any) -> Message:
    """A message as a device takes it; what other flags ask for is not done here, and so it is said."""
    if message.flags & ~READ_FLAG:
        raise _unsupported(f"flags {message.flags:#06x} of a message")
    return message.addr, message.len if message.flags & READ_FLAG else bytes(message)


def _byte(value: int) -> bytes:
    """A byte; ctypes would cut a greater number, and nobody would see it."""
    return value.to_bytes(1, "little")


def _word(value: int) -> bytes:
    return value.to_bytes(2, "little")


def _block(data: Sequence[int]) -> bytes:
    if len(data) > BLOCK_MAX:
        raise ValueError(f"Data length cannot exceed {BLOCK_MAX} bytes")
    if not data:
        raise invalid("a block of no bytes")
    return bytes(data)


def _unsupported(method: str) -> OSError:
    return OSError(errno.EOPNOTSUPP, f"{os.strerror(errno.EOPNOTSUPP)}: {method}")
