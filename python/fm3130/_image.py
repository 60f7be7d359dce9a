# SPDX-License-Identifier: Apache-2.0
"""Places in a state image, by docs/IMAGE.md and docs/FAMILY.md: those after byte 21 are the same in all parts."""

from typing import Tuple

IMAGE_BYTES = 64
CORE = slice(15, 22)
COMPANION_ADDRESS = 22
MEMORY_ADDRESS = slice(23, 25)
SUPPLIES = 25
PHASE = 26
CLOCKS_DONE = 27

SUPPLY_NAMES: Tuple[str, ...] = ("on", "backup", "none")

IDLE = 0
SLAVE_BYTE = 1
FIRST_ADDRESS_BYTE = 2
SECOND_ADDRESS_BYTE = 3
COMPANION_ADDRESS_BYTE = 4
WRITE_MEMORY = 5
WRITE_COMPANION = 6
READ_MEMORY = 7
READ_COMPANION = 8


def memory_address(image: bytes) -> int:
    """The memory's current address."""
    return int.from_bytes(image[MEMORY_ADDRESS], "big")
