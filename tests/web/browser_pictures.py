# SPDX-License-Identifier: Apache-2.0
"""The pictures of docs/WEB.md, taken of the page as it is."""

import base64

from browsing import FOLDER, Browsing

SESSION = ("# A protected byte is refused: 0000h to 07FFh.\n[ D0 0E 08 ]\n[ A0 07 FF 11 ]\n\n"
           "# A lamp is lit by a whole read.\n[ A0 10 00 01 ]\n[ A0 10 00 [ A1 r ]\n")
SET = ("# Each device keeps its own.\n[ A0 00 10 50 ]\n[ A2 00 10 51 ]\n[ A2 00 10 [ A3 r ]\n\n"
       "# Nobody has select bits 3.\nc1@1*3 [ A6 ]\n")
MASTERS = ("a: [ A0 01 23\nb: [ A0 01 23 [ A1 r ]  # refused: the rig holds the bus\n"
           "b: t*2\na: 5A ]\nb: [ A0 01 23 [ A1 r=5A ]\n")


class Pictures(Browsing):
    """Each is a whole page, or a section of one, and small."""

    def picture(self, name, width, section="html", scale=0.6, scheme="light"):
        self.browser.execute_script("document.activeElement.blur()")
        self.shape(width, 800, scheme)
        height = self.browser.execute_script("return document.documentElement.scrollHeight")
        self.shape(width, height, scheme)
        self.browser.execute_script("document.querySelectorAll('.drawing').forEach((one) => { one.scrollTop = 0; })")
        self.browser.execute_async_script("const done = arguments[0]; requestAnimationFrame(() => requestAnimationFrame(done))")
        box = self.browser.execute_script(
            "const { x, y, width, height } = document.querySelector(arguments[0]).getBoundingClientRect();"
            "return { x, y, width, height }", section)
        shot = self.browser.execute_cdp_cmd("Page.captureScreenshot", {"format": "png", "clip": {**box, "scale": scale}})
        (FOLDER / name).write_bytes(base64.b64decode(shot["data"]))
        self.assertGreater((FOLDER / name).stat().st_size, 8_000)
        self.assertLess((FOLDER / name).stat().st_size, 300_000)

    def play(self, cast, script):
        self.switch_to(cast)
        self.write(script)
        self.run_script()

    def test_the_page(self):
        self.play("fm3130", SESSION)
        self.picture("page.png", 1200)

    def test_a_set(self):
        self.play("set", SET)
        self.picture("page-set.png", 1200)

    def test_two_masters_in_the_dark(self):
        self.play("two-masters", MASTERS)
        self.picture("page-masters.png", 1200, scheme="dark")

    def test_a_phone(self):
        self.shape(390, 844)
        self.open("")
        self.play("fm3130", SESSION)
        self.picture("page-phone.png", 390, scale=0.7)

    def test_a_judged_waveform(self):
        path, memory = FOLDER / "scope.vcd", FOLDER / "worn.memory"
        memory.write_bytes(bytes(0x0123) + b"\x5A" + bytes(8192 - 0x0124))
        script = "[ A0 01 22 11 ] [ A0 01 22 [ A1 r:2 ]"
        self.command("run", "-", "--quiet", "--memory", str(memory), "--vcd", str(path), given=script)
        self.at("judge").send_keys(str(path))
        self.wait(lambda: "differs" in self.text("verdict"))
        self.picture("page-judged.png", 1200, ".judged", scale=0.75)
