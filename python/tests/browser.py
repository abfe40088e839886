"""A headless Chromium with pages of the editor, for tests and measurements."""

from __future__ import annotations

import shutil
import time
from importlib.util import find_spec

CHROMEDRIVER = shutil.which("chromedriver")
IS_MISSING = CHROMEDRIVER is None or find_spec("selenium") is None
MISSING = "chromium-driver or python3-selenium is missing"

WORDS = (
    "--headless=new",
    "--no-sandbox",
    "--disable-gpu",
    "--disable-dev-shm-usage",
    "--force-device-scale-factor=1",
    "--window-size=1300,900",
)

LOG = """
return [...document.querySelectorAll("#log li")].map(e => ["code", "pre"].map(name => e.querySelector(name).textContent));
"""

# Where a point of the plane is drawn, told by the first vertex of a feature that is drawn.
PLACE = """
const path = document.getElementById(arguments[0]), first = path.getPointAtLength(0), matrix = path.getScreenCTM();
const at = first.matrixTransform(matrix);
return [at.x + (arguments[2][0] - arguments[1][0]) * matrix.a, at.y - (arguments[2][1] - arguments[1][1]) * matrix.a];
"""


def start():
    """A browser. Its errors can be read from its log."""
    from selenium import webdriver
    from selenium.webdriver.chrome.service import Service

    options = webdriver.ChromeOptions()
    for word in WORDS:
        options.add_argument(word)
    options.set_capability("goog:loggingPrefs", {"browser": "ALL"})
    return webdriver.Chrome(service=Service(CHROMEDRIVER), options=options)


class Page:
    """A page of a server, in a tab of its own."""

    def __init__(self, driver, serving, name, known=("parcels-2", (180, 0)), is_there=None, address=None):
        """A page that has come: it draws something, or what `is_there` says of it is so.

        Its address is one for the person, if no other one is given.
        """
        from selenium.webdriver.common.by import By
        from selenium.webdriver.common.keys import Keys

        self.by, self.keys = By, Keys
        self.driver, self.known = driver, known
        driver.switch_to.new_window("tab")
        self.tab = driver.current_window_handle
        driver.get(address or serving.address(name))
        if name:
            self.come_in(name)
        self.until(lambda: is_there(self) if is_there else self.drawn(), 60)

    def come_in(self, name):
        """Logs in, under a name that the page asks for or knows by its link."""
        self.until(lambda: self.one("#login").get_property("open"))
        field = self.one("#login-name")
        field.send_keys("" if field.get_property("readOnly") else name, self.keys.ENTER)
        self.until(lambda: self.text("#person") == name)

    def sure(self):
        """Says yes to a question."""
        self.until(lambda: self.one("#sure").get_property("open"))
        self.use("#sure-yes")

    def here(self):
        """Goes to the tab of this page."""
        self.driver.switch_to.window(self.tab)
        return self

    def one(self, selector):
        return self.driver.find_element(self.by.CSS_SELECTOR, selector)

    def all(self, selector):
        return self.driver.find_elements(self.by.CSS_SELECTOR, selector)

    def text(self, selector):
        return self.one(selector).get_property("textContent")

    def script(self, text, *words):
        return self.driver.execute_script(text, *words)

    def until(self, is_so, seconds=20):
        """Waits until something is so, and gives it. `AssertionError` where it does not come."""
        from selenium.common.exceptions import StaleElementReferenceException

        end = time.monotonic() + seconds
        while True:
            try:
                if found := is_so():
                    return found
            except StaleElementReferenceException:
                pass
            if time.monotonic() > end:
                seen = f"the status is {self.text('#status')!r}, the log {self.log()[-3:]}"
                raise AssertionError(f"it did not come; {seen}")
            time.sleep(0.02)

    def log(self):
        """The lines of the console with their answers."""
        return list(map(tuple, self.script(LOG)))

    def last(self):
        """The last line of the console, an empty text where there is none."""
        found = self.log()
        return found[-1][0] if found else ""

    def logged(self, line, answer=None, seconds=20):
        """Waits for a line to be logged last, and compares its answer."""
        last = self.until(lambda: (found := self.log()) and found[-1][0] == line and found[-1], seconds)
        if answer is not None and last[1] != answer:
            raise AssertionError(f"{line}: {last[1]!r}, not {answer!r}")

    def type(self, line, answer=None):
        """Types a line at the console, and waits for its answer."""
        count = len(self.log())
        self.one("#line-text").send_keys(line, self.keys.ENTER)
        self.until(lambda: len(self.log()) > count)
        self.logged(line, answer)

    def press(self, *keys, at="#map"):
        self.one(at).send_keys(*keys)

    def send(self, *keys):
        """Presses keys where the focus is, whichever element that is just now."""
        from selenium.webdriver.common.action_chains import ActionChains

        ActionChains(self.driver, duration=0).send_keys(*keys).perform()

    def use(self, selector):
        """Clicks a button."""
        self.one(selector).click()

    def tool(self, name):
        self.use(f"[data-tool={name}]")

    def place(self, point):
        """The pixel of a point of the plane."""
        return [round(side) for side in self.script(PLACE, *self.known, point)]

    def mouse(self):
        """What the mouse is to do, until it is performed."""
        from selenium.webdriver.common.actions.action_builder import ActionBuilder

        return ActionBuilder(self.driver, duration=0)

    def click(self, point):
        """Clicks a point of the plane."""
        mouse = self.mouse()
        mouse.pointer_action.move_to_location(*self.place(point)).click()
        mouse.perform()

    def drag(self, start, end):
        """Drags from a point of the plane to another one."""
        mouse = self.mouse()
        pointer = mouse.pointer_action
        pointer.move_to_location(*self.place(start)).pointer_down()
        middle = [(a + b) // 2 for a, b in zip(self.place(start), self.place(end))]
        pointer.move_to_location(*middle)
        pointer.move_to_location(*self.place(end)).pointer_up()
        mouse.perform()

    def choose(self, point, title):
        """Selects what is at a point of the plane."""
        self.click(point)
        self.until(lambda: self.text("#chosen-title") == title)

    def pick(self, selector, value):
        """Chooses an option of a list."""
        text = "arguments[0].value = arguments[1]; arguments[0].dispatchEvent(new Event('change'))"
        self.script(text, self.one(selector), value)

    def hits(self):
        """What is highlighted."""
        return sorted(self.script("return [...document.querySelectorAll('.hit')].map(e => e.id)"))

    def drawn(self, prefix=""):
        """How many features are drawn."""
        text = "return [...document.querySelectorAll('.feature')].filter(e => e.id.startsWith(arguments[0])).length"
        return self.script(text, prefix)
