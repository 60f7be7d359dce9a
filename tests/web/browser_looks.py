# SPDX-License-Identifier: Apache-2.0
"""How the page looks: contrast, switches, words for a stranger, a phone, and that a long run does not make it slow."""

from selenium.webdriver.common.by import By

from browsing import Browsing

# The texts that are seen and have too little contrast with what is behind them (WCAG 2.1, AA: 4.5, or 3 for large letters).
CONTRAST = """
const light = ([r, g, b]) => {
  const part = (value) => (value / 255 <= 0.04045 ? value / 255 / 12.92 : ((value / 255 + 0.055) / 1.055) ** 2.4);
  return 0.2126 * part(r) + 0.7152 * part(g) + 0.0722 * part(b);
};
const numbers = (color) => (/rgba?\\(([^)]*)\\)/.exec(color)?.[1] ?? '0,0,0,0').split(',').map(Number);
const isClear = (color) => color === 'none' || numbers(color)[3] === 0;
const behind = (element, x, y) => {
  const isDrawn = (one) => one.namespaceURI.endsWith('svg');
  for (const one of document.elementsFromPoint(x, y)) {
    const style = getComputedStyle(one);
    const color = isDrawn(one) ? (one.tagName === 'rect' ? style.fill : 'none') : style.backgroundColor;
    if ((one === element || one.contains(element) || one.tagName === 'rect') && !isClear(color)) return numbers(color);
  }
  return [255, 255, 255];
};
const texts = [];
const walker = document.createTreeWalker(document.body, NodeFilter.SHOW_TEXT);
while (walker.nextNode()) texts.push(walker.currentNode);
const found = [];
let seen = 0;
for (const text of texts) {
  const element = text.parentElement;
  if (text.textContent.trim() === '' || element.closest('script, style, option, #backdrop')) continue;
  element.scrollIntoView({ block: 'center', inline: 'center' });
  const range = document.createRange();
  range.selectNodeContents(text);
  const { left, right, top, bottom, width } = range.getBoundingClientRect();
  const [x, y] = [Math.min((left + right) / 2, left + 20), (top + bottom) / 2];
  if (width === 0 || !element.checkVisibility()) continue;
  if (!document.elementsFromPoint(x, y).some((one) => one === element || element.contains(one))) continue;
  const style = getComputedStyle(element);
  const color = numbers(element.namespaceURI.endsWith('svg') ? style.fill : style.color);
  const back = behind(element, x, y);
  const [most, least] = [light(color), light(back)].sort((one, other) => other - one);
  const ratio = (most + 0.05) / (least + 0.05);
  const isLarge = parseFloat(style.fontSize) >= 24 || (parseFloat(style.fontSize) >= 18.66 && Number(style.fontWeight) >= 700);
  seen += 1;
  if (ratio < (isLarge ? 3 : 4.5)) found.push(`${text.textContent.trim().slice(0, 40)}: ${ratio.toFixed(2)} ${color} on ${back}`);
}
return [seen, found];
"""

# Where the knob of a switch stands in its track, from 0 to 1, the colours of both, and the edge's contrast with what is around.
KNOB = """
const light = (color) => color.match(/\\d+/g).slice(0, 3).map((part) => part / 255)
  .map((part) => (part <= 0.04045 ? part / 12.92 : ((part + 0.055) / 1.055) ** 2.4))
  .reduce((sum, part, place) => sum + part * [0.2126, 0.7152, 0.0722][place], 0.05);
const track = arguments[0].querySelector('.track');
const [look, knob] = [getComputedStyle(track), getComputedStyle(track, '::after')];
const middle = parseFloat(knob.left) + parseFloat(knob.width) / 2;
const [edge, around] = [light(look.borderTopColor), light(getComputedStyle(arguments[0]).backgroundColor)];
return [middle / track.clientWidth, look.backgroundColor, knob.backgroundColor, Math.max(edge / around, around / edge)];
"""

# How long a click keeps the page busy until it is drawn again, in milliseconds.
CLICK = """
const [id, done] = arguments;
const begun = performance.now();
document.getElementById(id).click();
requestAnimationFrame(() => { const port = new MessageChannel(); port.port1.onmessage = () => done(performance.now() - begun);
  port.port2.postMessage(null); });
"""

SCHEMES = ("light", "dark")
MOST_MILLISECONDS = 100


class Looks(Browsing):
    """Contrast, switches and words."""

    def test_contrast_is_enough(self):
        scripts = [("fm3130", "[ D0 0E 08 ] [ A0 07 FF 11 ] [ A0 10 00 01 ] [ A0 10 00 [ A1 r ] t lost power [ A0"),
                   ("set", "[ A0 00 10 50 ] [ A2 00 10 51 ] [ A6 ] c1@1*3 [ A3 r"),
                   ("two-masters", "a: [ A0 01\nb: [ A1 r ]\na: 5A ]"), ("fm3130", "[ lots")]
        for scheme in SCHEMES:
            self.shape(1360, 1200, scheme)
            for cast, script in scripts:
                self.switch_to(cast)
                self.write(script)
                self.click("run")
                seen, found = self.browser.execute_script(CONTRAST)
                self.assertGreater(seen, 100, script)
                self.assertEqual(found, [], f"{scheme}: {script}")

    def test_a_switch_looks_as_it_is(self):
        for scheme in SCHEMES:
            self.shape(1360, 1200, scheme)
            for name in ("sda", "scl", "panel"):
                looks = {}
                for _ in range(2):
                    is_on = self.at(name).get_dom_attribute("aria-checked") == "true"
                    place, track, knob, contrast = self.browser.execute_script(KNOB, self.at(name))
                    self.assertGreaterEqual(contrast, 3, name)
                    self.assertEqual(place > 0.5, is_on, name)
                    self.assertGreater(abs(place - 0.5), 0.1, name)
                    if name != "panel":
                        self.assertIn("pulled low" if is_on else "released", self.at(name).text)
                    looks[is_on] = (track, knob)
                    self.click(name)
                self.assertNotEqual(looks[True][0], looks[False][0], name)
                self.assertNotEqual(looks[True][1], looks[False][1], name)

    def test_the_power_buttons_show_the_supply(self):
        for name in ("lost", "gone", "power"):
            self.click(name)
            pressed = [one for one in ("power", "lost", "gone") if self.at(one).get_dom_attribute("aria-pressed") == "true"]
            self.assertEqual(pressed, [name])
            looks = {one: self.at(one).value_of_css_property("background-color") for one in ("power", "lost", "gone")}
            others = [look for one, look in looks.items() if one != name]
            self.assertNotIn(looks[name], others)

    def test_a_stranger_finds_the_words(self):
        def words():
            names = self.browser.find_elements(By.CSS_SELECTOR, "#words dt")
            return {name.text: name.find_element(By.XPATH, "following-sibling::dd[1]").text for name in names}

        self.assertTrue(self.at("words").is_displayed())
        for name in ("A0, A1", "D0, D1", "companion", "ACS", "SCL, SDA", "ACK, NACK", "lamps"):
            self.assertGreater(len(words()[name]), 30, name)
        self.assertIn("Alarm, Calibration, Square wave", self.text("facts"))
        self.switch_to("fm3164")
        self.assertIn("two event counters", words()["companion"])
        self.assertNotIn("ACS", words())
        self.switch_to("set")
        self.assertIn("A0 A2 A4 A6", words())
        self.switch_to("two-masters")
        self.assertIn("a: and b:", words())

    def test_the_words_are_folded_on_a_phone(self):
        self.shape(360, 800)
        self.open("")
        self.assertFalse(self.at("words").is_displayed())
        self.click("words-head")
        self.assertTrue(self.at("words").is_displayed())
        self.assertIn("ACS", self.text("words"))


class Phone(Browsing):
    """Every kind of play in a narrow window."""

    def test_no_scrolling_sideways(self):
        for cast, script in (("fm3130", "[ A0 01 23 5A ]"), ("fm3164", "c1*7"), ("set", "c1@1 [ A2 00 00 11 ]"),
                             ("two-masters", "a: [ A0\nb: [ ]")):
            self.shape(360, 800)
            self.switch_to(cast)
            self.write(script)
            self.run_script()
            width = self.browser.execute_script("return document.documentElement.scrollWidth")
            self.assertLessEqual(width, 360, cast)

    def test_buttons_are_large_enough_for_a_finger(self):
        self.shape(360, 800)
        for button in self.browser.find_elements(By.CSS_SELECTOR, "button, .file, select"):
            if button.is_displayed():
                self.assertGreaterEqual(button.size["height"], 24, button.text)
                self.assertGreaterEqual(button.size["width"], 24, button.text)


class LongScripts(Browsing):
    """After 20,000 bytes the page answers as soon as after one."""

    def clicks(self, names):
        """The clicks that took too long; each is tried six times, and its shortest time counts: a machine may be busy."""
        times = {name: min(self.browser.execute_async_script(CLICK, name) for _ in range(6)) for name in names}
        return {name: time for name, time in times.items() if time > MOST_MILLISECONDS}

    def play(self, script):
        self.browser.execute_script(
            "const at = document.getElementById('script'); at.value = arguments[0]; at.dispatchEvent(new Event('input'))", script)
        self.run_script()

    def test_a_long_run_of_one_word(self):
        self.play("[ A0 00 00 FF*20000 ]")
        self.assertEqual(self.clicks(["tick", "sda", "scl", "lost", "gone", "power", "panel", "link"]), {})
        self.assertLess(len(self.browser.find_elements(By.CSS_SELECTOR, "#happened .rows > *")), 100)
        self.assertLess(len(self.browser.find_elements(By.CSS_SELECTOR, "#wires .rows > *")), 30)

    def test_a_long_text(self):
        words = " ".join(f"{number % 256:02X}" for number in range(20_000))
        self.play(f"[ A0 00 00 {words} ]\n" + "t\n" * 40 + "[ A1 r ] " * 40)
        self.assertEqual(self.clicks(["tick", "sda", "scl", "power"]), {})
        self.play(f"[ A0 00 00 {words} ]\nt t t [ A0 01 02 ]" + " [ A0 03 04 05 ]" * 9)
        self.click("start-over")
        self.assertEqual(self.clicks(["step-byte", "step-event", "start-over"]), {})

    def test_a_large_memory_that_is_all_changed(self):
        self.switch_to("fm31256")
        self.play("[ A0 00 00 " + " ".join(f"{(7 * number + number // 251) % 256:02X}" for number in range(32_768)) + " ]")
        self.assertEqual(self.clicks(["tick", "edge-1", "edge-2", "sda", "scl", "power"]), {})
        self.assertEqual(self.text("changes").split()[1], "changed")

    def test_steps_in_the_middle_of_a_long_text(self):
        self.play("[ A0 00 00 " + "5A " * 20_000 + "]" + " [ A0 00 00 11 ]" * 30)
        script = "[ A0 00 00 " + "5A " * 20_000
        self.browser.execute_script(
            "const at = document.getElementById('script'); at.value = arguments[0]; at.dispatchEvent(new Event('input'))", script)
        self.assertEqual(self.clicks(["step-byte", "step-event", "tick"]), {})

    def test_more_lines_than_a_window_can_be_high(self):
        self.play("[*800000")
        self.assertEqual(self.last_line(), "[       repeated Start")
        self.browser.execute_script("document.getElementById('happened').scrollTop = 0")
        said = self.browser.execute_script(
            "return getComputedStyle(document.querySelector('#happened .rows'), '::before').content")
        self.assertIn("earlier lines are not shown", said)
        places = [int(row.get_dom_attribute("data-index"))
                  for row in self.browser.find_elements(By.CSS_SELECTOR, "#happened .rows > *")]
        skipped = int(self.browser.execute_script(
            "return document.querySelector('#happened .rows').dataset.skipped").replace(",", ""))
        self.assertEqual(min(places), skipped)
        self.assertEqual(self.clicks(["tick", "sda", "scl"]), {})

    def test_long_turns_of_two_masters(self):
        self.switch_to("two-masters")
        self.play("a: [ A0 00 00 FF*10000\nb: t\na: FF*10000 ]\n" + "b: [ A0 00 00 11 ]\n" * 40)
        self.assertEqual(self.clicks(["link", "save-lines"]), {})
        self.click("start-over")
        self.assertEqual(self.clicks(["start-over", "link"]), {})

    def test_another_part_is_chosen_while_it_runs(self):
        self.write("[ A0 00 00 FF*2000000 ]")
        self.click("run")
        self.wait(lambda: self.at("run").text == "Stop")
        self.switch_to("fm3164")
        self.wait(lambda: self.at("run").text == "Run")
        self.assertEqual(self.text("count"), "0 events")

    def test_the_page_answers_while_it_runs(self):
        self.write("[ A0 00 00 FF*400000 ]")
        self.click("run")
        self.wait(lambda: self.at("run").text == "Stop")
        self.assertEqual(self.clicks(["link"]), {})
        self.click("run")
        self.wait(lambda: self.at("run").text == "Run")
        self.assertEqual(self.clicks(["tick", "sda", "scl"]), {})
