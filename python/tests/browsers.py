"""A headless browser for the tests of pages."""

import shutil
from collections.abc import Iterator
from contextlib import contextmanager
from pathlib import Path
from typing import Any

import pytest

pytest.importorskip("selenium", reason="no selenium")
from selenium.webdriver import ActionChains, Chrome, ChromeOptions
from selenium.webdriver.chrome.service import Service

__all__ = ["ActionChains", "Chrome", "browser"]

SECONDS = 60  # for a page, and for each step of a script


@contextmanager
def browser(folder: Path, width: int = 1200, height: int = 900) -> Iterator[Any]:
    """Opens a browser with a profile in a folder. At the end, what its log has is an error of the test."""
    chromium, driver = shutil.which("chromium"), shutil.which("chromedriver")
    if chromium is None or driver is None:
        pytest.skip("no chromium with chromedriver")
    options: Any = ChromeOptions()
    options.binary_location = chromium
    options.set_capability("goog:loggingPrefs", {"browser": "ALL"})
    profile = f"--user-data-dir={folder / 'profile'}"
    for argument in ("--headless=new", "--no-sandbox", "--disable-gpu", f"--window-size={width},{height}", profile):
        options.add_argument(argument)
    if width < 500:  # the smallest window
        phone = {"deviceMetrics": {"width": width, "height": height, "pixelRatio": 2.0}}
        options.add_experimental_option("mobileEmulation", phone)
    opened: Any = Chrome(service=Service(driver), options=options)
    try:
        opened.set_page_load_timeout(SECONDS)
        opened.set_script_timeout(SECONDS)
        yield opened
        assert [entry["message"] for entry in opened.get_log("browser")] == []
    finally:
        opened.quit()
