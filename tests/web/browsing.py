# SPDX-License-Identifier: Apache-2.0
"""A page in headless Chromium, without a network, and what a user does there. The command line is that of browser.py."""

import pathlib
import subprocess
import sys
import time
import unittest

from selenium import webdriver
from selenium.webdriver.chrome.options import Options
from selenium.webdriver.chrome.service import Service
from selenium.webdriver.common.action_chains import ActionChains
from selenium.webdriver.common.by import By
from selenium.webdriver.common.keys import Keys

PAGE, COMMAND, FOLDER = (pathlib.Path(word).resolve() for word in sys.argv[1:4])
SCRIPTS = PAGE.parent.parent.parent / "scripts"
PATIENCE = 30  # seconds

# Collects the lines of a list by their places, from its begin on, and leaves it where it was.
SCROLL = """
const [list, done] = arguments;
(async () => {
const [found, place] = [new Map(), list.scrollTop];
const next = () => new Promise((resolve) => setTimeout(resolve, 30));
for (list.scrollTop = 0; ; list.scrollTop += list.clientHeight) {
  await next();
  list.querySelectorAll('.rows > *').forEach((row) => found.set(Number(row.dataset.index), row.textContent));
  if (list.scrollTop + list.clientHeight >= list.scrollHeight - 1) break;
}
list.scrollTop = place;
done([...found].sort(([one], [other]) => one - other).map(([, text]) => text));
})();
"""

# Scrolls a list from its begin on until it shows what is looked for, or to its end.
SEEK = """
const [list, chosen, words, done] = arguments;
(async () => {
const next = () => new Promise((resolve) => setTimeout(resolve, 30));
const isShown = () => [...list.querySelectorAll(chosen)].some((one) => words.every((word) => one.textContent.includes(word)));
for (list.scrollTop = 0; ; list.scrollTop += list.clientHeight) {
  await next();
  if (isShown() || list.scrollTop + list.clientHeight >= list.scrollHeight - 1) break;
}
done(isShown());
})();
"""


def begin_browser():
    """A browser that knows no other machine, and saves files in FOLDER."""
    options = Options()
    options.binary_location = "/usr/bin/chromium"
    for word in (
        "--headless=new",
        "--no-sandbox",
        "--disable-gpu",
        "--host-resolver-rules=MAP * ~NOTFOUND",
        "--force-color-profile=srgb",
    ):
        options.add_argument(word)
    options.add_experimental_option("prefs", {"download.default_directory": str(FOLDER)})
    options.set_capability("goog:loggingPrefs", {"browser": "ALL"})
    return webdriver.Chrome(service=Service("/usr/bin/chromedriver"), options=options)


class Browsing(unittest.TestCase):
    """Each test begins with the page just opened, in a window of a size."""

    SIZE = (1360, 1200)

    @classmethod
    def setUpClass(cls):
        FOLDER.mkdir(parents=True, exist_ok=True)
        cls.browser = begin_browser()

    @classmethod
    def tearDownClass(cls):
        cls.browser.quit()

    def setUp(self):
        self.shape(*self.SIZE)
        self.open("")

    def tearDown(self):
        self.assertEqual(self.browser.get_log("browser"), [], "the console")

    # ---- what the tests do

    def open(self, link):
        self.browser.get("about:blank")
        self.browser.get(PAGE.as_uri() + link)
        self.wait(lambda: self.browser.find_element(By.TAG_NAME, "body").get_dom_attribute("data-ready") == "yes")

    def shape(self, width, height, scheme="light"):
        """The window's inner size, and whether it is a dark one."""
        metrics = {"width": width, "height": height, "deviceScaleFactor": 1, "mobile": False}
        self.browser.execute_cdp_cmd("Emulation.setDeviceMetricsOverride", metrics)
        features = [{"name": "prefers-color-scheme", "value": scheme}]
        self.browser.execute_cdp_cmd("Emulation.setEmulatedMedia", {"features": features})

    def wait(self, holds):
        end = time.monotonic() + PATIENCE
        while not holds():
            self.assertLess(time.monotonic(), end, "waited too long")
            time.sleep(0.05)

    def at(self, name):
        return self.browser.find_element(By.ID, name)

    def click(self, *names):
        for name in names:
            self.at(name).click()

    def press(self, *keys):
        ActionChains(self.browser).send_keys(*keys).perform()

    def write(self, text):
        """Types a script as a user does."""
        script = self.at("script")
        script.send_keys(Keys.CONTROL, "a")
        script.send_keys(Keys.DELETE)
        script.send_keys(text)

    def choose(self, name):
        self.browser.find_element(By.CSS_SELECTOR, f"#examples option[value='{name}']").click()

    def run_script(self):
        self.click("run")
        self.wait(lambda: self.at("progress").text == "played to its end")

    def text(self, name):
        """The text of an element, with all its blanks."""
        return self.at(name).get_property("textContent")

    def lines(self, name="happened"):
        """All lines of a list, of which only those are there that are seen: it is scrolled from its begin to its end."""
        return self.browser.execute_async_script(SCROLL, self.at(name))

    def seek(self, name, chosen, *words):
        """Whether a list has such an element with these words; it is scrolled to it."""
        return self.browser.execute_async_script(SEEK, self.at(name), chosen, list(words))

    def last_line(self):
        """The last line of what happened, which is in view."""
        rows = self.browser.find_elements(By.CSS_SELECTOR, "#happened .rows > *")
        return max(rows, key=lambda row: int(row.get_dom_attribute("data-index"))).get_property("textContent")

    def fact(self, name):
        path = f"//dl[@id='facts']/dt[text()='{name}']/following-sibling::dd[1]"
        return self.browser.find_element(By.XPATH, path).text

    def switch_to(self, cast):
        """Chooses what a script is played on."""
        self.browser.find_element(By.CSS_SELECTOR, f"#cast option[value='{cast}']").click()

    def drawn(self):
        return [text.get_property("textContent") for text in self.browser.find_elements(By.CSS_SELECTOR, "#wires text")]

    def saved(self, name):
        """The file that a button saves."""
        path = FOLDER / name
        path.unlink(missing_ok=True)
        self.click("save-" + name.split(".")[0])
        self.wait(path.exists)
        return path.read_bytes()

    def command(self, *words, given=""):
        done = subprocess.run([COMMAND, *words], input=given, capture_output=True, text=True, check=False)
        return done.stdout + done.stderr
