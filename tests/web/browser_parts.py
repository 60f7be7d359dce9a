# SPDX-License-Identifier: Apache-2.0
"""The page with other parts, with sets, with two masters, and the lamps in its lines."""

from selenium.webdriver.common.by import By

from browsing import FOLDER, SCRIPTS, Browsing

NO_MASTERS = "this begins a turn of two masters"


class Parts(Browsing):
    """Parts with counters, alone and in sets."""

    def members(self):
        return [button.text for button in self.browser.find_elements(By.CSS_SELECTOR, "#members button")]

    def compare(self, script, *words):
        """Sees that the page says what the command says of a script, of the wires and of each device."""
        self.write(script)
        self.run_script()
        printed = self.command("run", "-", *words, given=script).split("\n\n")
        self.assertEqual(self.lines(), printed[0].split("\n"))
        return printed[1:]

    def test_a_part_with_counters_counts(self):
        for part in ("fm3164", "fm31256"):
            self.switch_to(part)
            [ends] = self.compare("c1*7 c2 [ D0 0C 08 ] c1 [ A0 7F FF 5A ]", "--part", part)
            for name in ("Counters", "Reads give", "Serial", "Addresses", "Power", "Bus"):
                self.assertIn(f"{name:<11}{self.fact(name)}", ends.split("\n"))
            self.assertNotIn("ACS", self.drawn())
            self.assertFalse(self.at("lamps").is_displayed())
            self.click("edge-1", "edge-2", "edge-2")
            self.assertEqual(self.lines()[-1], "c2*2    2 edges on CNT2: counter 2 1 -> 3 (0003h)")
            self.press("1")
            self.assertEqual(self.fact("Counters"), "1: 10 (000Ah), 2: 3 (0003h)")
            self.click("tick")
            self.assertEqual(self.lines()[-1], "t       1 tick: this part has no clock")

    def test_the_image_of_another_part_is_refused(self):
        image = self.saved("image.bin")
        (FOLDER / "fm3130.image").write_bytes(image)
        self.switch_to("fm3164")
        self.at("load-image").send_keys(str(FOLDER / "fm3130.image"))
        refusal = "image is not 64 bytes, or no well-formed state of the chosen size writes it (number 2)"
        self.wait(lambda: self.text("message") == f"fm3130.image: {refusal}")
        self.assertEqual(self.fact("Counters"), "1: 0 (0000h), 2: 0 (0000h)")

    def test_a_set_is_chosen_and_each_device_is_shown(self):
        self.switch_to("set")
        self.assertEqual(self.members(), ["FM31256@0", "FM3164@1"])
        self.choose_in_set(1, "nobody")
        self.choose_in_set(2, "FM3164")
        words = ("--part", "fm31256@0", "--part", "fm3164@2")
        ends = self.compare("[ A4 00 10 5A ] [ A2 ] c1@2*3 c2@0", *words)
        for place, name in enumerate(("FM31256@0", "FM3164@2")):
            self.browser.find_elements(By.CSS_SELECTOR, "#members button")[place].click()
            self.assertEqual(ends[place].split("\n")[0], name)
            self.assertIn(f"{'Counters':<11}{self.fact('Counters')}", ends[place].split("\n"))
        self.assertEqual([mark.text for mark in self.browser.find_elements(By.CSS_SELECTOR, "#memory mark")], ["5A"])
        self.click("edge-1")
        self.assertEqual(self.lines()[-1], "c1@2    1 edge on CNT1: counter 1 3 -> 4 (0004h)")
        self.assertIn("@2 to 0010h", self.drawn())

    def choose_in_set(self, select, name):
        options = self.browser.find_elements(By.CSS_SELECTOR, f"#set-{select} option")
        next(option for option in options if option.text == name).click()

    def test_a_set_without_devices_is_refused(self):
        self.switch_to("set")
        self.choose_in_set(0, "nobody")
        self.choose_in_set(1, "nobody")
        self.assertEqual(self.text("cast-message"), "No such set: a set has one to four devices (number 9)")
        self.assertEqual(self.text("device-head"), "The device, FM3164@1")
        self.choose_in_set(2, "FM31256")
        self.assertEqual(self.text("cast-message"), "")

    def test_the_files_of_a_set_are_the_command_s(self):
        script = "[ A0 00 10 50 ] [ A2 00 10 51 ] c1@1*3"
        self.switch_to("set")
        self.compare(script, "--part", "fm31256@0", "--part", "fm3164@1")
        paths = [FOLDER / name for name in ("set.image", "set.memory")]
        for path in paths:
            path.unlink(missing_ok=True)
        chosen = ("--part", "fm31256@0", "--part", "fm3164@1", "--image", str(paths[0]), "--memory", str(paths[1]))
        self.command("run", "-", *chosen, "--quiet", given=script)
        self.assertEqual(self.saved("image.bin"), paths[0].read_bytes())
        self.assertEqual(self.saved("memory.bin"), paths[1].read_bytes())
        self.click("fresh")
        self.at("load-image").send_keys(str(paths[0]))
        self.wait(lambda: self.text("message") == "set.image is loaded.")
        self.at("load-memory").send_keys(str(paths[0]))
        wrong = "a memory has the wrong length for the size of its device (number 1)"
        self.wait(lambda: self.text("message") == f"set.image: {wrong}")
        self.assertEqual(self.saved("image.bin"), paths[0].read_bytes())

    def test_a_word_of_another_part_is_a_problem(self):
        self.write("c1 [ A0 ]")
        self.assertIn("c1 is an edge on CNT1, and the FM3130 has no counters", self.text("problem"))
        self.switch_to("fm3164")
        self.assertFalse(self.at("problem").is_displayed())
        self.switch_to("set")
        self.assertIn("c1 does not say which device of the set", self.text("problem"))

    def test_a_link_holds_what_the_script_is_played_on(self):
        self.switch_to("set")
        self.write("c1@1")
        self.click("link")
        link = self.browser.execute_script("return location.hash")
        self.open(link)
        self.assertEqual(self.members(), ["FM31256@0", "FM3164@1"])
        self.assertEqual(self.at("script").get_property("value"), "c1@1")
        self.assertFalse(self.at("problem").is_displayed())


class Masters(Browsing):
    """Two masters on one FM3130."""

    def test_a_refused_turn_is_told_drawn_and_changes_nothing(self):
        self.switch_to("two-masters")
        self.write("a: [ A0 01 23\nb: [ A0 01 23 FF ]\na: 5A ]\nb: [ A0 01 23 [ A1 r=5A ]")
        self.click("step-byte", "step-byte")
        self.assertEqual(self.fact("Held by"), "a (rig)")
        refused = self.browser.find_element(By.CSS_SELECTOR, "#happened .refused").text
        self.assertEqual(refused, "b: handheld, refused: this master does not hold the bus (number 7); held by a (rig)")
        self.assertIn("refused, number 7", self.drawn())
        self.assertEqual(self.text("changes"), "as it began")
        self.run_script()
        self.assertEqual(self.fact("Held by"), "nobody")
        self.assertEqual(self.text("changes"), "1 changed")
        self.assertEqual(self.drawn().count("answered"), 3)
        self.assertFalse(self.at("problem").is_displayed())

    def test_words_are_those_of_the_command(self):
        path = SCRIPTS / "handheld.masters"
        self.choose(path.name)
        self.assertEqual(self.at("cast").get_property("value"), "two-masters")
        self.run_script()
        printed = self.command("share", str(path)).split("\n\n")
        self.assertEqual(self.lines(), printed[0].split("\n"))
        self.assertIn(f"Held by    {self.fact('Held by')}", printed[1])

    def test_a_script_of_masters_needs_masters(self):
        self.write("a: [ A0 ]")
        self.assertIn(NO_MASTERS, self.text("problem"))
        self.switch_to("two-masters")
        self.assertFalse(self.at("problem").is_displayed())
        self.assertFalse(self.at("tick").is_displayed())
        self.press("t", "d", "c", "1")
        self.assertEqual(self.text("count"), "0 events")
        self.write("[ A0 ]")
        self.assertIn("no master plays this", self.text("problem"))


class Lamps(Browsing):
    """The lamps beside the lines, as `fm3130 lamps` prints them."""

    def test_the_lines_have_the_lamps_in_front(self):
        path = SCRIPTS / "proving-session.bus"
        self.choose(path.name)
        self.run_script()
        self.click("panel")
        printed = self.command("lamps", str(path)).split("\n")
        self.assertEqual(self.lines(), printed[1:-1])
        lines = FOLDER / "lines.txt"
        lines.unlink(missing_ok=True)
        self.click("save-lines")
        self.wait(lines.exists)
        self.assertEqual(lines.read_text(), self.command("lamps", str(path)))
        self.click("panel")
        self.assertEqual(self.lines()[0], printed[1][10:])
