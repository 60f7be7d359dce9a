# SPDX-License-Identifier: Apache-2.0
"""Recordings that the page judges, in words and drawn, beside `fm3130 judge`."""

from selenium.webdriver.common.by import By

from browsing import FOLDER, SCRIPTS, Browsing


# The table, the image and the memory of a capture; then come the events, and as many answers.
BEFORE_EVENTS = 48 + 64 + 8192


class Judge(Browsing):
    """Captures and waveforms."""

    def judge(self, path):
        self.at("judge").send_keys(str(path))
        self.wait(lambda: self.text("verdict").startswith(f"{path.name}: "))
        return self.text("verdict")[len(path.name) + 2:]

    def compare(self, path, *words):
        """Sees that the page says and draws what the command does."""
        verdict = self.judge(path)
        drawing = FOLDER / "judged.svg"
        drawing.unlink(missing_ok=True)
        done = self.command("judge", *words, str(path), "--words", "--svg", str(drawing))
        told, _, _ = done.partition("fm3130: ")
        self.assertEqual(self.lines("judgement"), told.split("\n")[:-1])
        self.assertIn(verdict, done)
        self.assertEqual(self.at("judged-wires").is_displayed(), drawing.exists())
        if drawing.exists():
            shown = [text.get_property("textContent") for text in self.browser.find_elements(By.CSS_SELECTOR, "#judged-wires text")]
            self.assertIn("differs", shown)
            self.assertTrue(all(f">{word}</text>" in drawing.read_text() for word in shown if "&" not in word))
        return verdict

    def capture(self):
        path = FOLDER / "run.capture"
        self.command("run", str(SCRIPTS / "alarm.bus"), "--quiet", "--capture", str(path))
        return path

    def waveform(self):
        path = FOLDER / "run.vcd"
        self.command("run", str(SCRIPTS / "proving-bit.bus"), "--quiet", "--vcd", str(path))
        return path

    def test_a_capture_that_agrees(self):
        self.assertRegex(self.compare(self.capture()), r"^all agree: \d+ answers$")
        self.assertNotIn("bad", self.at("verdict").get_dom_attribute("class") or "")

    def test_an_answer_that_differs_is_drawn_at_its_place(self):
        path = self.capture()
        spoilt = bytearray(path.read_bytes())
        count = (len(spoilt) - BEFORE_EVENTS) // 2
        clocks = [place for place in range(count) if spoilt[BEFORE_EVENTS + place] in (2, 3)]
        spoilt[BEFORE_EVENTS + count + clocks[-30]] ^= 1
        path.write_bytes(spoilt)
        self.assertRegex(self.compare(path), r"^answer \d+ differs: recorded 0[0-9A-F]h, right 0[0-9A-F]h$")
        self.assertEqual(self.at("verdict").get_dom_attribute("class"), "bad")

    def test_a_file_that_is_no_capture(self):
        path = FOLDER / "capture.bin"
        path.write_bytes(bytes(48))
        self.assertEqual(self.judge(path), "entry 1 is faulty: its kind, 0, is none of 1 to 4")
        self.assertFalse(self.at("judgement").is_displayed())
        self.assertNotIn("agree", self.text("verdict"))

    def test_a_waveform_that_agrees_and_one_that_does_not(self):
        path = self.waveform()
        self.assertIn("answers of the part", self.compare(path, "--from-vcd"))
        marks = [line.split()[3] for line in path.read_text().split("\n") if line.startswith("$var") and " SDA " in line]
        text = path.read_text()
        at = text.rindex(f"0{marks[0]}\n", 0, len(text) // 2)
        path.write_text(text[:at] + f"1{marks[0]}\n" + text[at + 3:])
        self.assertIn("differs", self.compare(path, "--from-vcd"))

    def test_wires_by_other_names(self):
        path = self.waveform()
        path.write_text(path.read_text().replace(" SCL $end", " D5 $end").replace(" SDA $end", " D6 $end"))
        self.assertIn("it has no wire SCL; its wires:", self.judge(path))
        self.assertNotIn("agree", self.text("verdict"))
        for name, wire in (("scl-name", "D5"), ("sda-name", "D6")):
            self.at(name).clear()
            self.at(name).send_keys(wire)
        self.assertIn("all agree", self.judge_again(path))

    def test_a_waveform_that_begins_with_the_device_above(self):
        path = FOLDER / "read.vcd"
        images = [FOLDER / name for name in ("begin.image", "begin.memory")]
        for one in images:
            one.unlink(missing_ok=True)
        words = ("--image", str(images[0]), "--memory", str(images[1]), "--quiet")
        self.command("run", "-", *words, given="[ A0 01 23 5A ]")
        self.command("run", "-", *words, "--vcd", str(path), given="[ A0 01 23 [ A1 r ]")
        self.write("[ A0 01 23 5A ]")
        self.run_script()
        self.assertIn("differs", self.judge(path))
        self.browser.find_element(By.CSS_SELECTOR, "#judge-begin option[value='shown']").click()
        self.assertIn("all agree", self.judge_again(path))
        self.switch_to("fm3164")
        self.assertEqual(self.judge_again(path), "not judged: the device above is no FM3130")

    def judge_again(self, path):
        self.browser.execute_script("document.getElementById('verdict').textContent = ''")
        return self.judge(path)
