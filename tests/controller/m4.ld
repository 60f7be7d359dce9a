/* SPDX-License-Identifier: Apache-2.0 */
MEMORY { CODE : ORIGIN = 0x00000000, LENGTH = 4M DATA : ORIGIN = 0x20000000, LENGTH = 4M }
INCLUDE sections.ld
