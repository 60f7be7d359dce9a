/* SPDX-License-Identifier: Apache-2.0 */
MEMORY { CODE : ORIGIN = 0x80000000, LENGTH = 4M DATA : ORIGIN = 0x80400000, LENGTH = 4M }
INCLUDE sections.ld
