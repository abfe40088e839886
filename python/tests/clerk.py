"""A clerk's day on the page, by mouse and keyboard, in whichever browser. Of its views pictures can be taken."""

from __future__ import annotations

import browser
import firefox

METRES = 'PROJCS["x",GEOGCS["y",UNIT["degree",0.0174532925199433]],UNIT["metre",1]]'
GRID = ("500000", "5600000", "0.1")
ENTER, CONTROL = "\ue007", "\ue009"
WIDE, HIGH = 1280, 720
# What the office has agreed on, typed at the console of the page.
LINES = (
    "column add parcels use text",
    "rule add uses one-of parcels use 'field', 'garden', 'house'",
    "rule add apart never parcels T******** parcels",
)
# Parcel 5 begins here, in steps: by that is known where a place of the plane is drawn.
KNOWN = ("parcels-5", (720, 0))
LAST = "(li => li && [...li.querySelectorAll('code, pre')].map(e => e.textContent))(document.querySelector('#log li:last-child'))"
# The further parcel that a split makes.
FURTHER = "document.getElementById('parcels-201')"
SIZE = "return [innerWidth, innerHeight]"


class Chromium:
    """A Chromium with one window, driven as Firefox is."""

    def __init__(self):
        self.driver = browser.start()
        self.driver.set_window_size(WIDE, HIGH)
        width, height = self.script(SIZE)
        self.driver.set_window_size(2 * WIDE - width, 2 * HIGH - height)

    def open(self, address):
        self.driver.get(address)

    def script(self, text, *words):
        return self.driver.execute_script(text, *words)

    def until(self, text, *words, seconds=20):
        return firefox.awaited(lambda: self.script(f"return {text}", *words), text, seconds)

    def _element(self, selector):
        return self.driver.find_element("css selector", selector)

    def click(self, selector):
        self._element(selector).click()

    def type(self, selector, text):
        self._element(selector).send_keys(text)

    def keys(self, *keys):
        """Presses keys at once, where the focus is."""
        from selenium.webdriver.common.action_chains import ActionChains

        chain = ActionChains(self.driver, duration=0)
        for key in keys:
            chain.key_down(key)
        for key in reversed(keys):
            chain.key_up(key)
        chain.perform()

    def point(self, x, y):
        """Clicks a pixel of the page."""
        from selenium.webdriver.common.actions.action_builder import ActionBuilder

        mouse = ActionBuilder(self.driver, duration=0)
        mouse.pointer_action.move_to_location(x, y).click()
        mouse.perform()

    def picture(self):
        return self.driver.get_screenshot_as_png()

    def pdf(self):
        """What the browser prints, in base 64."""
        words = {"printBackground": True, "preferCSSPageSize": True}
        return self.driver.execute_cdp_cmd("Page.printToPDF", words)["data"]

    def close(self):
        self.driver.quit()


class Day:
    """The steps of the day. What should be seen and is not ends it by an `AssertionError`."""

    def __init__(self, driven, show=lambda name, picture: None):
        """``show`` gets a picture of each view, with its name."""
        self.page = driven
        self.show = show

    def come_in(self, address):
        """Logs in by a link, as Ann."""
        self.page.open(address)
        self.page.until("document.getElementById('login').open")
        self.page.type("#login-name", f"Ann{ENTER}")
        self.page.until("document.getElementById('person').textContent === 'Ann' && document.querySelectorAll('.feature').length === 211")

    def type_lines(self):
        for line in LINES:
            self.page.type("#line-text", line + ENTER)
            self.answered(line, "ok")

    def go_to_a_place(self):
        """By its coordinates in metres, as they stand in a letter."""
        self.page.type("#goto-text", f"500081 5600015{ENTER}")
        self.page.until("document.getElementById('pointer').textContent === '500081.0 5600015.0'")

    def search(self):
        """The parcels of an owner, by a part of the name; the first one is selected, and looked at closely."""
        self.page.click("#tab-table")
        self.page.until("document.querySelectorAll('#table-rows tr').length === 50")
        self.page.type("#table-part", "fan")
        self.page.until("document.getElementById('table-count').textContent === '1 to 13 of 13 found, of 200'")
        self.page.click("#table-rows tr td")
        self.page.until("document.getElementById('chosen-title').textContent === 'parcels 5, a polygon'")
        self.page.click("#go")
        self.page.until("document.getElementById('scale').textContent.length < 8")
        self.picture("search")

    def choose_a_value(self):
        """One of those that the rule allows."""
        offered = "[...document.querySelectorAll('#value-use option')].map(e => e.textContent).join()"
        self.page.until(f"{offered} === 'no value,field,garden,house'")
        self.page.type("#value-use", f"house{ENTER}")
        self.answered("set parcels 5 use 'house'", "ok")

    def split(self):
        self.page.click("#tab-console")
        self.page.click("#zoom-out")
        self.page.click("[data-tool=split]")
        self.draw((810, -40), (810, 340))
        self.page.until(f"({LAST})[0].startsWith('split parcels 5 LINESTRING (') && ({LAST})[1].startsWith('ok')")
        self.page.until(FURTHER)
        self.picture("split")

    def be_refused(self):
        """A house is drawn over the new border: the page says which parcels would overlap, and shows them."""
        self.page.click("[data-tool=polygon]")
        self.draw((770, 60), (850, 60), (850, 130), (770, 130))
        self.page.until("!document.getElementById('refusal').hidden")
        said = self.page.script("return document.querySelector('#refusal').innerText.split('\\n').filter(Boolean)")
        wanted = ["Refused: parcels 5 and parcels 202 would overlap; parcels 202 is the new one.", "Draw one of them elsewhere."]
        wanted += ["The rule is apart never parcels T******** parcels (37 RuleBroken).", "Close"]
        assert said == wanted, said
        # What was drawn, and the parcel that is there already.
        for shown in ("#overlay > .refused", "#overlay .breaks .refused"):
            self.page.until("document.querySelector(arguments[0])?.getAttribute('d')", shown)
        self.picture("refused")

    def undo(self):
        """The split is taken back, by keys: nothing else was done since."""
        self.page.script("document.getElementById('map').focus()")
        self.page.keys(CONTROL, "z")
        self.answered("undo", "ok")
        self.page.until(f"!{FURTHER} && document.getElementById('refusal').hidden")

    def measure(self):
        self.page.click("[data-tool=measure]")
        self.draw((720, 0), (720, 300))
        self.page.until("document.getElementById('status').textContent === 'Length 30 m'")
        self.page.click("[data-tool=select]")

    def print(self):
        """A sheet, as a PDF in base 64."""
        self.page.script("window.print = () => { window.isPrinted = true; dispatchEvent(new Event('afterprint')); }")
        self.page.click("#print")
        self.page.type("#sheet-name", ", parcel 1005")
        self.page.click("#printing-form [type=submit]")
        self.page.until("window.isPrinted")
        return self.page.pdf()

    def draw(self, *points):
        """Clicks places of the plane one after another, and ends by Enter."""
        for point in points:
            self.page.point(*map(round, self.page.script(browser.PLACE, *KNOWN, point)))
        self.page.keys(ENTER)

    def answered(self, line, answer):
        """Waits for a line to be the last one of the console, with its answer."""
        self.page.until(f"JSON.stringify({LAST}) === JSON.stringify(arguments[0])", [line, answer])

    def picture(self, name):
        # A picture is taken once all that the window has is drawn.
        self.page.script("return new Promise(done => requestAnimationFrame(() => requestAnimationFrame(done)))")
        self.show(name, self.page.picture())
