# SPDX-License-Identifier: Apache-2.0
'''
This decoder stacks on top of the 'i2c' PD and decodes the FM3130, a
clock-and-memory chip: registers, calendar, memory and refusals in words.

With libfm3130.so at hand the proved device is run beside the wires, and the
first bit that its rules do not give is marked. The library is the one that the
option names, or the environment's FM3130_LIBRARY, or the system's.
'''

from .pd import Decoder
