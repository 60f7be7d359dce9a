# SPDX-License-Identifier: Apache-2.0
"""Fixtures for pytest. Where the package is installed pytest finds them; elsewhere say in conftest.py::

    pytest_plugins = ["fm3130.pytest_plugin"]
"""

import sys
import types
from typing import Any, Iterator

import pytest

from .device import Device
from .smbus import SMBus, i2c_msg


@pytest.fixture
def fm3130_device() -> Device:
    """A fresh device, of this test alone."""
    return Device()


@pytest.fixture
def fm3130_bus(fm3130_device: Device) -> Iterator[SMBus]:
    """A bus with smbus2's methods on that device."""
    with SMBus(fm3130_device) as bus:
        yield bus


@pytest.fixture
def fm3130_as_smbus2(fm3130_device: Device, monkeypatch: pytest.MonkeyPatch) -> Device:
    """During the test `import smbus2` gives a module whose every SMBus is on that device, whatever its number.

    So code that opens SMBus(1) by itself runs unchanged. What was imported by name before the test, as by
    `from smbus2 import SMBus` at the top of a module, stays what it was: such a name is to be replaced in that module.
    """

    class StandIn(SMBus):
        """SMBus of smbus2, on the device of this test."""

        def __init__(self, bus: Any = None, force: bool = False) -> None:
            super().__init__(None, force)
            if bus is not None:
                self.open(bus)

        def open(self, bus: Any) -> None:
            super().open(fm3130_device)

    module = types.ModuleType("smbus2", "smbus2, on a device of fm3130")
    module.__dict__.update(SMBus=StandIn, i2c_msg=i2c_msg)
    monkeypatch.setitem(sys.modules, "smbus2", module)
    return fm3130_device
