# SPDX-License-Identifier: Apache-2.0
"""What is done with parts, sets, masters, lamps and recordings, done again on a phone; nothing needs scrolling sideways there."""

import browser_judge
import browser_parts

PHONE = (360, 800)


class Narrow:
    """A page as wide as a phone; after each test it is seen that it stayed so."""

    SIZE = PHONE

    def tearDown(self):
        width = self.browser.execute_script("return document.documentElement.scrollWidth")
        self.assertLessEqual(width, PHONE[0])
        super().tearDown()


class PartsOnAPhone(Narrow, browser_parts.Parts):
    """Parts with counters, alone and in sets."""


class MastersOnAPhone(Narrow, browser_parts.Masters):
    """Two masters on one FM3130."""


class LampsOnAPhone(Narrow, browser_parts.Lamps):
    """The lamps beside the lines."""


class JudgeOnAPhone(Narrow, browser_judge.Judge):
    """Captures and waveforms."""
