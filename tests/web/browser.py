#!/usr/bin/python3
# SPDX-License-Identifier: Apache-2.0
"""The page in a real browser: headless Chromium through its driver, without a network.

usage: browser.py PAGE COMMAND FOLDER

PAGE is fm3130.html, COMMAND the program fm3130, to compare files with, and FOLDER a place for files. At the end the pictures of
docs/WEB.md are there: FOLDER/page.png and others. Nothing may be said in the browser's console.
"""

import base64
import re
import sys
import unittest

from selenium.webdriver.common.by import By
from selenium.webdriver.common.keys import Keys

sys.dont_write_bytecode = True  # nothing is left beside the tests

import browser_judge
import browser_looks
import browser_parts
import browser_phone
import browser_pictures
from browsing import FOLDER, SCRIPTS, Browsing


class PageTest(Browsing):
    """The page with an FM3130."""

    def test_the_page_is_one_file(self):
        entries = self.browser.execute_script("return performance.getEntriesByType('resource').map((one) => one.name)")
        self.assertEqual([name for name in entries if not name.startswith("data:")], [])

    def test_a_script_is_typed_and_played(self):
        self.write("[ A0 01 23 5A ]")
        self.run_script()
        self.assertEqual(self.lines()[4], "  write 5Ah  ACK   memory 0123h: stored")
        self.assertEqual(len(self.browser.find_elements(By.CSS_SELECTOR, "#happened .given")), 4)
        self.assertEqual([mark.text for mark in self.browser.find_elements(By.CSS_SELECTOR, "#memory mark")], ["5A"])
        self.assertEqual(self.text("changes"), "1 changed")
        self.assertEqual(self.text("count"), "38 events")
        for word in ("S", "5Ah", "ACK", "to 0123h", "P", "SCL", "SDA", "ACS"):
            self.assertIn(word, self.drawn())

    def test_every_example_says_what_the_command_says(self):
        paths = [path for path in sorted(SCRIPTS.iterdir()) if path.suffix in (".bus", ".set", ".masters")]
        self.assertGreater(len(paths), 9)
        for path in paths:
            self.choose(path.name)
            self.run_script()
            verb = "share" if path.suffix == ".masters" else "run"
            chosen = re.findall(r"--part \S+", path.read_text())
            words = [word for option in chosen for word in option.split()]
            printed = self.command(verb, str(path), *words).split("\n\n")[0].split("\n")
            self.assertEqual(self.lines(), printed, path.name)

    def test_a_refused_byte_is_seen(self):
        self.choose("write-protect.bus")
        self.run_script()
        self.assertTrue(self.seek("happened", ".rows > div:has(.refused)", "protected, not stored", "NACK"))
        self.assertTrue(self.seek("wires", "text", "NACK"))

    def test_a_refused_byte_is_seen_at_once(self):
        self.write("[ D0 0E 08 ] [ A0 07 FF 11 ]")
        self.run_script()
        refused = self.browser.find_elements(By.CSS_SELECTOR, "#happened div:has(.refused)")
        self.assertTrue(any("protected, not stored" in line.text and "NACK" in line.text for line in refused))
        self.assertIn("NACK", self.drawn())

    def test_a_wrong_script_is_marked(self):
        self.write("[ ]")
        self.run_script()
        script = "[ A0\n  01 lots ]"
        self.write(script)
        shown = self.command("run", "-", given=script).replace("fm3130: standard input:", "script:")
        self.assertEqual(self.text("problem") + "\n", shown)
        self.assertIn("^^^^", self.text("problem"))
        mark = self.browser.find_element(By.CSS_SELECTOR, "#backdrop mark.wrong")
        self.assertEqual(mark.get_property("textContent"), "lots")
        before = self.lines()
        self.click("run", "step-byte", "step-event")
        self.assertEqual(self.lines(), before)
        self.write("[ ] t")
        self.assertFalse(self.at("problem").is_displayed())
        self.run_script()
        self.assertEqual(len(self.lines()), 3)

    def test_power_and_seconds_by_hand(self):
        self.write("[ D0 01 00 ]")
        self.run_script()
        self.click("tick", "tick")
        self.assertEqual(self.fact("Calendar"), "00:00:02, 01/01/00, day 1")
        self.click("lost")
        self.assertEqual(self.fact("Power"), "lost, on backup")
        self.click("gone")
        self.assertEqual(self.fact("Power"), "lost, no backup")
        self.assertEqual(self.fact("ACS pin"), "released")
        self.click("power")
        self.assertEqual(self.fact("Power"), "on")
        self.assertEqual(self.lines()[-1], "power   main power returned")
        self.assertIn("no supply", self.drawn())

    def test_steps_by_event_and_by_byte(self):
        self.write("[ A0 01 ] t")
        self.click("step-event", "step-event", "step-event")
        self.assertEqual(self.text("count"), "3 events")
        self.assertEqual(self.fact("Bus"), "slave byte, 2 clocks done")
        self.assertEqual(self.browser.find_element(By.CSS_SELECTOR, "#backdrop mark").get_property("textContent"), "A0")
        self.click("step-byte")
        self.assertEqual(self.lines()[-1], "  write A0h  ACK   slave byte: memory, write")
        self.click("step-byte", "step-byte", "step-byte")
        self.assertEqual(self.text("count"), "21 events")
        self.click("start-over")
        self.assertEqual(self.text("count"), "0 events")

    def test_the_master_by_two_switches(self):
        self.click("sda")  # SDA falls while SCL is high: a Start
        self.click("scl")
        self.assertEqual(self.lines(), ["[       Start"])
        is_pulled = True
        for bit in "10100000":
            if (bit == "0") != is_pulled:
                self.click("sda")
                is_pulled = not is_pulled
            self.click("scl", "scl")
        self.click("sda")
        self.assertEqual(self.text("wire"), "SCL is low. SDA is low: pulled by the device.")
        self.click("scl", "scl")
        self.assertEqual(self.lines()[-1], "  write A0h  ACK   slave byte: memory, write")
        self.click("sda", "scl", "sda")  # SDA rises while SCL is high: a Stop
        self.assertEqual(self.lines()[-1], "]       Stop")
        self.assertEqual(self.fact("Bus"), "between transfers")

    def test_an_image_and_a_memory_are_saved_and_loaded(self):
        script = "[ D0 01 00 ] t*3 [ A0 01 23 5A ]"
        self.write(script)
        self.run_script()
        paths = [FOLDER / name for name in ("expected.image", "expected.memory")]
        for path in paths:
            path.unlink(missing_ok=True)
        words = ["--image", str(paths[0]), "--memory", str(paths[1])]
        self.command("run", "-", *words, "--quiet", given=script)
        self.assertEqual(self.saved("image.bin"), paths[0].read_bytes())
        self.assertEqual(self.saved("memory.bin"), paths[1].read_bytes())
        calendar = self.fact("Calendar")
        self.click("fresh")
        self.assertNotEqual(self.fact("Calendar"), calendar)
        self.at("load-image").send_keys(str(FOLDER / "image.bin"))
        self.wait(lambda: self.text("message") == "image.bin is loaded.")
        self.at("load-memory").send_keys(str(FOLDER / "memory.bin"))
        self.wait(lambda: self.text("message") == "memory.bin is loaded.")
        self.assertEqual(self.fact("Calendar"), calendar)
        self.assertEqual(self.saved("memory.bin"), paths[1].read_bytes())

    def test_wrong_files_are_refused_by_number(self):
        wrong = FOLDER / "wrong.bin"
        wrong.write_bytes(bytes(64))
        self.at("load-image").send_keys(str(wrong))
        refusal = "wrong.bin: image is not 64 bytes, or no well-formed state writes it (number 2)"
        self.wait(lambda: self.text("message") == refusal)
        self.at("load-memory").send_keys(str(wrong))
        self.wait(lambda: self.text("message") == "wrong.bin: memory is not 8,192 bytes (number 1)")
        self.assertEqual(self.fact("Power"), "on")

    def test_an_impossible_date_is_mended(self):
        image = bytearray(self.saved("image.bin"))
        image[6:8] = b"\x31\x04"
        (FOLDER / "old.bin").write_bytes(image)
        self.at("load-image").send_keys(str(FOLDER / "old.bin"))
        self.wait(lambda: self.text("message") == "old.bin is loaded.")
        self.click("mend")
        self.assertEqual(self.text("message"), "Mended: RTC Date 31h to 30h.")
        self.click("mend")
        self.assertEqual(self.text("message"), "Nothing to mend.")

    def test_a_lamp_is_lit_and_goes_dark(self):
        def lit():
            return [lamp.text for lamp in self.browser.find_elements(By.CSS_SELECTOR, "#lamps .lit")]

        self.write("[ A0 10 02 01 ] [ A0 10 02 [ A1 r ]")
        self.run_script()
        self.assertEqual(lit(), ["2"])
        self.assertIn("lamps", self.drawn())
        self.click("tick", "tick")
        self.assertEqual(lit(), ["2"])
        self.click("tick")
        self.assertEqual(lit(), [])

    def test_a_capture_is_judged(self):
        (FOLDER / "capture.bin").write_bytes(bytes(48))
        self.at("judge").send_keys(str(FOLDER / "capture.bin"))
        self.wait(lambda: self.text("verdict").startswith("capture.bin: entry 1 is faulty"))

    def test_the_keyboard_is_enough(self):
        self.write("[ A0 ] t*2")
        self.press(Keys.ESCAPE)
        self.press("b")
        self.assertEqual(self.lines(), ["[       Start"])
        self.press("e", "t", "d", "0")
        self.assertEqual(self.text("count"), "0 events")
        self.at("script").send_keys(Keys.CONTROL, Keys.ENTER)
        self.wait(lambda: self.text("count") == "13 events")

    def test_a_link_holds_the_script(self):
        self.write("[ A0 ] # 50% & more")
        self.click("link")
        link = self.browser.execute_script("return location.hash")
        self.open(link)
        self.assertEqual(self.at("script").get_property("value"), "[ A0 ] # 50% & more")

    def test_a_long_run_can_be_stopped(self):
        self.write("[ A0 00 00 FF*4000000 ]")
        self.click("run")
        self.wait(lambda: self.at("run").text == "Stop" and self.at("progress").text.startswith("stands at"))
        self.click("run")
        self.wait(lambda: self.at("run").text == "Run")
        self.assertTrue(self.last_line().startswith("  "))
        self.write("[ D0 01 00 ] t*3155760000")
        self.run_script()
        self.assertEqual(self.fact("Calendar"), "00:00:00, 01/01/00, day 7")

    def test_a_narrow_window_needs_no_scrolling_sideways(self):
        self.shape(360, 800)
        self.run_script()
        width = self.browser.execute_script("return document.documentElement.scrollWidth")
        self.assertLessEqual(width, 360)

    def test_a_dark_window_is_dark(self):
        def brightness(name):
            of = f"getComputedStyle(document.querySelector('{name}'))"
            color = self.browser.execute_script(f"return {of}.fill !== 'rgb(0, 0, 0)' ? {of}.fill : {of}.backgroundColor")
            return sum(int(part) for part in color[4:-1].split(","))

        places = ("body", "section", "#wires")
        self.assertTrue(all(brightness(name) > 600 for name in places))
        self.shape(1360, 1200, "dark")
        self.assertTrue(all(brightness(name) < 200 for name in places))
        self.run_script()

    def test_a_picture_is_taken(self):
        self.write("# A protected byte is refused: 0000h to 07FFh.\n[ D0 0E 08 ]\n[ A0 07 FF 11 ]\n\n"
                   "# A lamp is lit by a whole read.\n[ A0 10 00 01 ]\n[ A0 10 00 [ A1 r ]\n")
        self.run_script()
        self.browser.execute_script("document.activeElement.blur()")
        self.shape(1200, 800)
        height = self.browser.execute_script("return document.documentElement.scrollHeight")
        self.shape(1200, height)
        page = {"x": 0, "y": 0, "width": 1200, "height": height, "scale": 0.75}
        shot = self.browser.execute_cdp_cmd("Page.captureScreenshot", {"format": "png", "clip": page})
        (FOLDER / "whole-page.png").write_bytes(base64.b64decode(shot["data"]))
        self.assertGreater((FOLDER / "whole-page.png").stat().st_size, 20_000)


def load_tests(loader, tests, _):
    """All classes of tests, those of the other files too."""
    others = (browser_parts, browser_judge, browser_phone, browser_looks, browser_pictures)
    return unittest.TestSuite([tests, *(loader.loadTestsFromModule(one) for one in others)])


if __name__ == "__main__":
    unittest.main(argv=sys.argv[:1])
