"""Trials of the page in a browser: what a user does by mouse, keys and telephone, and what then stands there."""

import contextlib
import pathlib
import tempfile
import urllib.parse

from selenium import webdriver
from selenium.common.exceptions import TimeoutException
from selenium.webdriver.common.action_chains import ActionChains
from selenium.webdriver.common.by import By
from selenium.webdriver.common.keys import Keys
from selenium.webdriver.support.ui import Select, WebDriverWait

from .bench import EXAMPLES, Served, demand, expected
from .limits import stand_in

WIDE, TELEPHONE = (1400, 900), (390, 844)
PATIENCE = 120  # seconds until an answer stands there
RIDE = "n21000792 n21000463 20240701 07:45:00 foot? (transit foot?){0,2}"
NASTY = "<img/src=x/onerror=document.title='broken'>"
UNKIND = f"""modeplan region 1
days 20240304 1
node foot 1 480000000 110000000
node foot 2 480000000 110010000
stop {NASTY} 480000000 110000100
stop zoo 480000000 110009900
arc 0 1 53262
arc 1 0 53262
link 0 2 1000
link 1 3 1000
link 2 0 1000
link 3 1 1000
trip bus 80 2 {NASTY}
call 0 28800 28800 1
call 1 28830 28830 2
end
"""


class Browser:
    """chromium without a window."""

    def __init__(self, shots: pathlib.Path | None) -> None:
        options = webdriver.ChromeOptions()
        for word in ("--headless=new", "--no-sandbox", "--disable-gpu", "--hide-scrollbars", "--disable-dev-shm-usage"):
            options.add_argument(word)
        options.set_capability("goog:loggingPrefs", {"browser": "ALL"})
        self.driver = webdriver.Chrome(options=options)
        self._shots, self._count = shots, 0

    def size(self, width: int, height: int) -> None:
        self.driver.execute_cdp_cmd("Emulation.setDeviceMetricsOverride",
                                    {"width": width, "height": height, "deviceScaleFactor": 1, "mobile": width < 600})

    def dark(self, is_dark: bool) -> None:
        self.driver.execute_cdp_cmd("Emulation.setEmulatedMedia", {"features": [
            {"name": "prefers-color-scheme", "value": "dark" if is_dark else "light"}]})

    def open(self, port: int, line: str | None = None, by: str = "answer") -> None:
        """Opens the page, by the link of a query line if one is given, and waits for what it says."""
        fields = dict(zip(("from", "to", "date", "time", "expr"), line.split(" ", 4))) if line else {}
        self.driver.get("about:blank")
        self.driver.get(f"http://127.0.0.1:{port}/" + ("#" + urllib.parse.urlencode({**fields, "by": by}) if line else ""))
        self.wait(lambda: "stops" in self.text("about") or "node" in self.text("about"), "the region is shown")
        if line:
            self.answered()

    def one(self, name: str):
        return self.driver.find_element(By.ID, name)

    def all(self, selector: str) -> list:
        return self.driver.find_elements(By.CSS_SELECTOR, selector)

    def text(self, name: str) -> str:
        return self.one(name).text

    def run(self, script: str):
        return self.driver.execute_script(script)

    def wait(self, holds, what: str) -> None:
        try:
            WebDriverWait(self.driver, PATIENCE, poll_frequency=0.05).until(lambda _: holds())
        except TimeoutException:
            self.shot("failed")
            demand(False, f"it never came that {what}: the page says “{self.text('said')}”, the console {self.complaints()}")

    def answered(self) -> None:
        self.wait(self.is_answered, "an answer stands there")

    def is_answered(self) -> bool:
        """Whether nothing is being asked, and something was said."""
        return not self.one("results").get_attribute("aria-busy") and not self.text("said").startswith(("Searching", "Where from"))

    def complaints(self) -> list[str]:
        """What the console says; that a resource has a status of 4xx is no fault of the page."""
        return [entry["message"] for entry in self.driver.get_log("browser") if "status of 4" not in entry["message"]]

    def shot(self, name: str) -> None:
        """Keeps a picture of the page."""
        if self._shots is not None:
            self._count += 1
            self._shots.mkdir(parents=True, exist_ok=True)
            self.driver.save_screenshot(str(self._shots / f"{self._count:02}-{name}.png"))

    def keys(self, *keys: str) -> None:
        ActionChains(self.driver).send_keys(*keys).perform()


def arrival(name: str, line: str) -> str:
    """When the example says that one arrives, in whole seconds."""
    return expected(name)[line].split("\n")[1].split(" ")[2].partition(".")[0]


def try_links(browser: Browser, port: int) -> None:
    """A link brings an answer back, as a list, on the map, and as a table."""
    browser.open(port, RIDE)
    demand(arrival("town", RIDE) in browser.all(".choice b")[0].text, "the list has the arrival")
    rows = browser.all("#journey tbody tr")
    demand(rows[-1].find_elements(By.CSS_SELECTOR, "td.time")[1].text == arrival("town", RIDE), "the last row has the arrival")
    demand("foot bus tram foot" in browser.all(".choice span")[0].text, "the list has the word")
    demand(browser.one("certificate").get_attribute("href").endswith("kind=answer"), "a link to the certificate")
    browser.shot("journey")
    browser.all("#journey .show")[3].click()
    browser.shot("part")
    browser.one("proof").find_element(By.TAG_NAME, "summary").click()
    demand("modeplan verify region certificate" in browser.text("check"), "how a certificate is checked")
    demand(expected("town")[RIDE].strip() == browser.one("block").get_attribute("textContent").strip(), "the planner's reply")


def try_turns(browser: Browser, port: int) -> None:
    """Later and earlier departures, and the way with few rides."""
    browser.open(port, RIDE)
    first = browser.all(".choice b")[0].text
    browser.one("later").click()
    browser.answered()
    times = [choice.text for choice in browser.all(".choice b")]
    demand(len(times) == 2 and times[0] == first and times[0] < times[1], f"the next departure: {times}")
    browser.one("earlier").click()
    demand(browser.all(".choice")[0].get_attribute("aria-current") == "true", "back to the first")
    browser.one("earlier").click()
    browser.answered()
    demand(len(browser.all(".choice")) == 3, "the departure before")
    check = browser.one("check").get_attribute("textContent")
    demand("modeplan verify-latest" in check, "each journey has its own certificate")
    browser.shot("turns")
    browser.one("few").click()
    browser.answered()
    counts = [choice.text[:6] for choice in browser.all(".choice span")]
    demand(counts[0] == "no rid" and len(counts) > 1, f"few rides: {counts}")


def try_names_and_keys(browser: Browser, port: int) -> None:
    """A search by names, by keys alone."""
    browser.open(port)
    browser.one("from").send_keys("127:0:1")
    browser.wait(lambda: browser.all("#from-list [role=option]"), "names are offered")
    browser.shot("names")
    browser.keys(Keys.ARROW_DOWN, Keys.ENTER)
    demand(browser.one("from").get_attribute("value") == "de:09999:127:0:1", "a name is chosen by keys")
    browser.keys(Keys.TAB, Keys.TAB, "139:0:1")
    browser.wait(lambda: browser.all("#to-list [role=option]"), "names are offered")
    browser.keys(Keys.ARROW_DOWN, Keys.ENTER)
    browser.run("document.getElementById('time').value = '07:20:00'")
    browser.one("expr").clear()
    browser.one("expr").send_keys("bus")
    demand(Select(browser.one("example")).first_selected_option.text == "as written below", "the expression is no example")
    browser.one("find").click()
    browser.answered()
    demand("07:36:00" in browser.all(".choice b")[0].text, f"the bus of the example: {browser.text('said')}")
    hash_ = browser.run("return location.hash")
    demand("sde%3A09999%3A127%3A0%3A1" in hash_ and "expr=bus" in hash_, f"the link: {hash_}")


def try_faults(browser: Browser, port: int) -> None:
    """What is wrong is told at its place."""
    browser.open(port, RIDE.replace("foot? (transit", "fööt? (transit"))
    demand(browser.one("expr").get_attribute("aria-invalid") == "true", "the field with the fault")
    demand("goes on like this" in browser.text("expr-fault"), f"a fault of an expression: {browser.text('expr-fault')}")
    demand(browser.all("#expr-fault mark")[0].text == "f", f"where it is: {browser.text('expr-fault')}")
    browser.shot("fault")
    browser.open(port, RIDE.replace("transit foot?", "transit foot? )"))
    demand(browser.all("#expr-fault mark")[0].text == ")", f"where it is: {browser.text('expr-fault')}")
    browser.open(port, RIDE.replace("n21000463", "n1"))
    demand("no such TO" in browser.text("to-fault"), "a node that is not there")
    browser.open(port, RIDE.replace("n21000463", "sFernhausen").replace("foot? (transit foot?){0,2}", "foot"))
    demand("No journey" in browser.text("said") and not browser.all("#journeys li"), "no journey")


def try_map(browser: Browser, port: int) -> None:
    """Two clicks on the map ask; the map moves by mouse and keys."""
    browser.open(port)
    canvas = browser.one("map")
    for x, y in ((-120, -80), (110, 90)):
        ActionChains(browser.driver).move_to_element_with_offset(canvas, x, y).click().perform()
    browser.answered()
    demand(len(browser.all(".choice")) == 1, f"a journey between two clicks: {browser.text('said')}")
    browser.shot("clicks")
    shown = "return document.getElementById('map').toDataURL()"
    before = browser.run(shown)
    for keys in (Keys.ARROW_LEFT, "+", Keys.ARROW_DOWN, "-", "0"):
        canvas.send_keys(keys)
        browser.wait(lambda: browser.run(shown) != before, f"the map moves by {keys!r}")
        before = browser.run(shown)
    ActionChains(browser.driver).drag_and_drop_by_offset(canvas, 60, 30).perform()
    browser.wait(lambda: browser.run(shown) != before, "the map moves by the mouse")
    chosen = browser.one("from").get_attribute("value")
    canvas.send_keys("f")
    browser.wait(lambda: browser.one("from").get_attribute("value") != chosen, "a key sets from")


def try_forms(browser: Browser, port: int) -> None:
    """A telephone and the dark."""
    browser.size(*TELEPHONE)
    browser.dark(True)
    browser.open(port, RIDE)
    demand(browser.run("return document.documentElement.scrollWidth <= innerWidth"), "the page fits a telephone")
    browser.shot("telephone")
    browser.run("document.getElementById('results').scrollIntoView()")
    browser.shot("telephone-journey")
    browser.size(*WIDE)
    browser.shot("dark")
    browser.dark(False)


def try_labels(browser: Browser) -> int:
    """Each field and button has a name for screen readers."""
    nodes = browser.driver.execute_cdp_cmd("Accessibility.getFullAXTree", {})["nodes"]
    count = 0
    for node in nodes:
        role = node.get("role", {}).get("value")
        if role in ("button", "textbox", "combobox", "radio", "link", "table", "image", "listbox", "img") and not node.get("ignored"):
            demand(bool(node.get("name", {}).get("value")), f"a {role} has no name")
            count += 1
    return count


def try_unkind_names(browser: Browser, program: str) -> None:
    """Names that look like elements are names."""
    with tempfile.TemporaryDirectory() as folder:
        region = pathlib.Path(folder, "region")
        region.write_text(UNKIND)
        with Served(program, region, "--workers", "1") as service:
            browser.open(service.port, f"s{NASTY} szoo 20240304 08:00:00 bus")
            demand("08:00:30" in browser.all(".choice b")[0].text, "a ride from a stop with an unkind name")
            browser.one("from").clear()
            browser.one("from").send_keys("<img")
            browser.wait(lambda: browser.all("#from-list [role=option]"), "names are offered")
            demand(NASTY in browser.all("#from-list [role=option]")[0].text, "the name as it is")
            browser.shot("unkind")
            demand("Journeys in" in browser.driver.title and not browser.all("#journey img, #from-list img"), "a name became an element")


def try_limits(browser: Browser) -> None:
    """A search that is stopped, and an expression that is too large, are told in words, by the limits of the service."""
    line = "n1 n3 20240304 08:00:00 foot"
    with tempfile.TemporaryDirectory() as folder:
        program = str(stand_in(folder))
        with Served(program, EXAMPLES / "foot-town/region", "--workers", "1", "--labels", "1000000", "--places", "20") as service:
            browser.open(service.port, line)
            demand("more than 1,000,000 labels" in browser.text("said"), f"a search that was stopped: {browser.text('said')}")
            demand(not browser.one("proof").is_displayed() and not browser.all("#journeys li"), "nothing else is shown of it")
            browser.shot("stopped")
            browser.open(service.port, line.replace("foot", "large"))
            demand("at most 20 here" in browser.text("expr-fault"), f"an expression that is too large: {browser.text('expr-fault')}")


def run(program: str, shots: pathlib.Path | None) -> str:
    browser = Browser(shots)
    with contextlib.ExitStack() as stack:
        stack.callback(browser.driver.quit)
        browser.size(*WIDE)
        browser.dark(False)
        with Served(program, EXAMPLES / "town/region") as service:
            for trial in (try_links, try_turns, try_names_and_keys, try_faults, try_map, try_forms):
                trial(browser, service.port)
            count = try_labels(browser)
        try_unkind_names(browser, program)
        try_limits(browser)
        demand(not (said := browser.complaints()), f"the console says {said}")
    return f"pages: journeys by links, names, clicks and keys are those of the examples; {count} elements have names"
