"""What page/test and page/hostile use: a real Chromium, driven over WebDriver, the page in it, and a count of the checks that passed."""
import contextlib
import functools
import http.server
import json
import os
import shutil
import sys
import tempfile
import threading
import time
import urllib.parse

sys.path.insert(0, os.path.join(os.path.dirname(os.path.abspath(__file__)), "..", "..", "tests"))
sys.path.append("/usr/lib/python3/dist-packages")  # for a python3 other than Debian's, which lacks Debian's packages
try:
    from selenium import webdriver
    from selenium.common.exceptions import WebDriverException
    from selenium.webdriver.chrome.service import Service as ChromeService
    from selenium.webdriver.common.actions.action_builder import ActionBuilder
except ImportError:
    sys.exit("selenium missing: on Debian, apt-get install python3-selenium")
from counting import Counting

PAGE = os.path.dirname(os.path.dirname(os.path.abspath(__file__)))
TOP = os.path.dirname(PAGE)
EXAMPLES = os.path.join(TOP, "examples")
TITLE = "Histories of safe bits"  # until the page has read its first text
KEYS = {
    "left": "\ue012",
    "right": "\ue014",
    "up": "\ue013",
    "down": "\ue015",
    "escape": "\ue00c",
    "enter": "\ue007",
    "home": "\ue011",
    "end": "\ue010",
    "tab": "\ue004",
    "shift": "\ue008",
    "ctrl": "\ue009",
    "pageup": "\ue00e",
    "pagedown": "\ue00f",
}
counts = Counting(most=400)
same = counts.same


def slack():
    """The factor by which a time limit is stretched: 3 on a busy machine, else 1."""
    return 3 if os.getloadavg()[0] > os.cpu_count() * 0.75 else 1


def text_of(path):
    with open(path, encoding="utf-8", newline="") as file:
        return file.read()


def example(name):
    return text_of(os.path.join(EXAMPLES, name))


def stop(words):
    print(f"{os.path.relpath(sys.argv[0], TOP)}: {words}", file=sys.stderr)
    sys.exit(125)


class Files(http.server.SimpleHTTPRequestHandler):
    """Serves the page's files. A browser asks for each of them once, as they do not change during the tests."""

    protocol_version = "HTTP/1.1"  # more than one answer a connection
    extensions_map = {**http.server.SimpleHTTPRequestHandler.extensions_map, ".js": "text/javascript", ".wasm": "application/wasm"}

    def end_headers(self):
        self.send_header("Cache-Control", "max-age=86400")
        super().end_headers()

    def log_message(self, *_):
        pass


class Browser:
    """A browser, driven by Selenium (Debian's python3-selenium)."""

    def __init__(self, driver):
        self.driver = driver
        driver.set_script_timeout(120)
        print(driver.capabilities["browserName"], driver.capabilities["browserVersion"])

    def run(self, script, *args):
        return self.driver.execute_script(script, *args)

    def wait(self, script, *args):
        """The result of a script that returns a promise."""
        call = "const done = arguments[arguments.length - 1]; (async (...args) => {" + script + "})(...arguments).then(done, it => done(String(it)))"
        return self.driver.execute_async_script(call, *args)

    def until(self, what, script, *args):
        for _ in range(200):
            if self.run(script, *args):
                return
            time.sleep(0.02)
        same(what, "not within 4 seconds", True)

    def press(self, *keys):
        """Presses keys in order; `shift+p` is P with Shift."""
        actions = ActionBuilder(self.driver)
        for key in keys:
            held = [KEYS.get(it, it) for it in (key.split("+") if len(key) > 1 else [key])]
            for it in held:
                actions.key_action.key_down(it)
            for it in held[::-1]:
                actions.key_action.key_up(it)
        actions.perform()

    def go(self, url):
        self.driver.get(url)

    def back(self):
        self.driver.back()

    def forward(self):
        self.driver.forward()

    def refresh(self):
        self.driver.refresh()

    def click(self, selector):
        self.driver.find_element("css selector", selector).click()

    def upload(self, id_, path):
        self.driver.find_element("id", id_).send_keys(path)

    def drag(self, points):
        """Presses the mouse button at the first of these points and releases it at the last."""
        actions = ActionBuilder(self.driver, duration=20)
        for at, (x, y) in enumerate(points):
            actions.pointer_action.move_to_location(x, y)
            if at == 0:
                actions.pointer_action.pointer_down()
        actions.pointer_action.pointer_up()
        actions.perform()

    def name_of_focus(self):
        """The accessible name of the focused element, as a screen reader reads it."""
        return self.driver.switch_to.active_element.accessible_name

    def shot(self, path):
        self.driver.save_screenshot(path)

    def window(self):
        return self.driver.current_window_handle

    def windows(self):
        return self.driver.window_handles

    def open_tab(self):
        self.driver.switch_to.new_window("tab")

    def use(self, window):
        self.driver.switch_to.window(window)

    def shut(self):
        """Closes the current window."""
        self.driver.close()

    def pid(self):
        """The driver's process id; the browser's processes are its children."""
        return self.driver.service.process.pid

    def log(self, kind):
        return self.driver.get_log(kind)

    def resize(self, wide, high, scale):
        if wide is None:
            return self.devtools("Emulation.clearDeviceMetricsOverride", {})
        return self.devtools("Emulation.setDeviceMetricsOverride", {"width": wide, "height": high, "deviceScaleFactor": scale, "mobile": False})

    def devtools(self, command, params):
        return self.driver.execute_cdp_cmd(command, params)

    def close(self):
        self.driver.quit()


def chromium(folder):
    """A Chromium that saves files into this folder."""
    found = {
        name: next(filter(None, map(shutil.which, names)), None)
        for name, names in {"chromium": ("chromium", "chromium-browser", "google-chrome"), "chromium-driver": ("chromedriver",)}.items()
    }
    if not all(found.values()):
        stop(f"{' and '.join(name for name, path in found.items() if not path)} missing: on Debian, apt-get install chromium chromium-driver")
    options = webdriver.ChromeOptions()
    options.binary_location = found["chromium"]
    for it in ("--headless=new", "--disable-gpu", "--window-size=1366,768", "--hide-scrollbars", *(["--no-sandbox"] if os.geteuid() == 0 else [])):
        options.add_argument(it)
    options.add_experimental_option("prefs", {"download.default_directory": folder})
    options.set_capability("goog:loggingPrefs", {"browser": "ALL", "performance": "ALL"})
    return Browser(webdriver.Chrome(options=options, service=ChromeService(found["chromium-driver"])))


class Page:
    """The page at an address, as a reader sees and uses it."""

    def __init__(self, browser, address):
        self.browser, self.address, self.is_other = browser, address, False

    def open(self, asked="", emptied=False):
        """Loads the page again, with this in its link: at one of two addresses in turn, as a change of the link alone loads nothing. With
        `emptied` in a new tab, which holds nothing of the pages before."""
        if emptied:
            before = self.browser.window()
            self.browser.open_tab()
            after = self.browser.window()
            self.browser.use(before)
            self.browser.shut()
            self.browser.use(after)
        self.is_other = not self.is_other
        self.browser.go(f"{self.address}{'?' * self.is_other}#{asked}")
        self.browser.until(f"{asked} is shown", f"return document.title !== '{TITLE}'")
        self.settle()

    def settle(self):
        """Waits until the worker has read what was put into the page."""
        for _ in range(3000):
            if self.browser.run("return document.getElementById('stop')?.hidden !== false"):
                return
            time.sleep(0.02)
        same("the text is read", "not within a minute", True)

    def title(self):
        """The first of the two verdicts, or what is reported of a script."""
        return self.browser.run("return document.title").removeprefix("bits: ").split(", ring:")[0]

    def words(self):
        return self.browser.run("return document.getElementById('bits').textContent").removeprefix("bits: ")

    def verdicts(self):
        return self.browser.run("return ['bits', 'ring'].map(id => document.getElementById(id).textContent)")

    def hash(self):
        time.sleep(0.15)  # the page writes it a little later
        return self.browser.run("return location.hash")

    def linked(self, name):
        """The text that the link contains."""
        return urllib.parse.parse_qs(self.hash()[1:], keep_blank_values=True).get(name, [None])[0]

    def write(self, text):
        self.browser.run("const it = document.getElementById('text'); it.value = arguments[0]; it.dispatchEvent(new Event('input'))", text)
        self.settle()

    def text(self):
        return self.browser.run("return document.getElementById('text').value")

    def click(self, id_):
        self.settle()
        self.browser.click(f"#{id_}")

    def count(self, selector):
        return self.browser.run("return document.querySelectorAll(arguments[0]).length", selector)

    def report(self):
        """The report beside the picture, in the format and order of a .report file."""
        got = self.browser.run(
            "return Object.fromEntries([...document.querySelectorAll('#summary dt')].map(it => [it.textContent, it.nextSibling.textContent]))"
        )
        return "".join(f"{name} {got[name]}".rstrip() + "\n" for name in ("events", "put", "taken", "told", "full", "empty", "flicker"))


@contextlib.contextmanager
def opened():
    """The page, served from its folder to a Chromium, and a folder for the files that it saves; stops with a message if something is missing."""
    server = http.server.ThreadingHTTPServer(("127.0.0.1", 0), functools.partial(Files, directory=os.path.join(PAGE, "src")))
    threading.Thread(target=server.serve_forever, daemon=True).start()
    with tempfile.TemporaryDirectory() as downloads:
        browser = chromium(downloads)
        try:
            yield Page(browser, f"http://127.0.0.1:{server.server_port}/index.html"), downloads
        finally:
            browser.close()
            server.shutdown()


def outside(page):
    """The addresses that were requested, except those of the page itself."""
    allowed = (page.address.removesuffix("index.html"), "file://" + TOP, "data:", "blob:", "about:")
    events = (json.loads(it["message"])["message"] for it in page.browser.log("performance"))
    asked = {it["params"]["request"]["url"] for it in events if it["method"] == "Network.requestWillBeSent"}
    return sorted(it for it in asked if not it.startswith(allowed))


def ended():
    """Prints the last line; returns the exit status."""
    return counts.end()
