"""A real browser, and the page in it."""
import shutil
import time
from pathlib import Path
from typing import Any, Callable, Iterable, List, Tuple

import pytest

BROWSER, DRIVER = shutil.which("chromium"), shutil.which("chromedriver")


def open_browser(files: Path) -> Any:
    """Chromium without a window, which saves to that folder. Where it can't be had, the tests are skipped."""
    webdriver = pytest.importorskip("selenium.webdriver", reason="python3-selenium isn't installed")
    if not BROWSER or not DRIVER:
        pytest.skip("chromium and chromium-driver aren't installed")
    options = webdriver.ChromeOptions()
    for word in ("--headless=new", "--no-sandbox", "--disable-gpu", "--window-size=1180,900", "--hide-scrollbars"):
        options.add_argument(word)
    options.binary_location = BROWSER
    options.add_experimental_option("prefs", {"download.default_directory": str(files)})
    options.set_capability("goog:loggingPrefs", {"browser": "ALL"})
    from selenium.webdriver.chrome.service import Service

    found = webdriver.Chrome(options=options, service=Service(DRIVER))
    found.set_page_load_timeout(240)
    found.set_script_timeout(240)
    return found


class Page:
    """What a person does with the page, and what it then says."""

    def __init__(self, browser: Any, address: str) -> None:
        self.browser = browser
        browser.get("about:blank")
        browser.get(address)

    def part(self, name: str) -> Any:
        return self.browser.find_element("id", name)

    def text(self, name: str) -> str:
        return str(self.part(name).text)

    def press(self, name: str) -> None:
        """Clicks a button, and waits until nothing is asked any more."""
        self.part(name).click()
        self.wait()

    def point(self, letters: str) -> None:
        self.press(f"p-{letters}")

    def put(self, tool: str, letters: str) -> None:
        self.press(f"tool-{tool}")
        for point in letters.split():
            self.point(point)

    def paste(self, text: str) -> None:
        """Loads a text as a person does who pastes it."""
        self.browser.execute_script("document.getElementById('opening').open = true; document.getElementById('text').value = arguments[0]", text)
        self.press("load")

    def wait(self, holds: Callable[[], bool] = lambda: True) -> None:
        end = time.monotonic() + 240
        while self.text("ask") == "Stop" or not holds():
            assert time.monotonic() < end, f"waited in vain: {self.text('say')} {self.text('error')}"
            time.sleep(0.01)

    def chips(self, name: str) -> List[str]:
        return [each.text for each in self.part(name).find_elements("tag name", "button")]

    def stones(self) -> List[Tuple[str, str]]:
        """The stones that the link of the page holds: B and W with their points."""
        script = "return import('./sgf.js').then((sgf) => sgf.problemsOf(decodeURIComponent(location.hash.slice(1)))[0].nodes)"
        nodes = self.browser.execute_script(script)
        return sorted((name[1], point) for node in nodes for name in ("AB", "AW") for point in node.get(name, []))

    def faults(self) -> Iterable[str]:
        """What the browser complains about: what a policy forbids, too."""
        return [line["message"] for line in self.browser.get_log("browser") if line["level"] == "SEVERE" and "ERR_CONNECTION_REFUSED" not in line["message"]]
