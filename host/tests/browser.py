"""./classroom and a real browser without a screen: for classroom.test, for host/classroom/picture and for host/bench."""

import contextlib
import pathlib
import shutil
import subprocess
import time

from rig import ROOT

try:
    from selenium import webdriver
    from selenium.webdriver.chrome.service import Service
except ImportError:
    webdriver = None

DRIVER = "/usr/bin/chromedriver"
OPTIONS = ("--headless=new", "--no-sandbox", "--disable-gpu", "--disable-dev-shm-usage")
MISSING = "chromium, chromium-driver or python3-selenium is missing (Debian)"


def is_there() -> bool:
    return webdriver is not None and pathlib.Path(DRIVER).exists() and shutil.which("chromium") is not None


@contextlib.contextmanager
def classroom(*words, **more):
    """./classroom, and the address that it prints."""
    process = subprocess.Popen([ROOT / "classroom", "--no-open", *words], stdout=subprocess.PIPE, stderr=subprocess.DEVNULL, text=True, **more)
    try:
        yield process.stdout.readline().strip()
    finally:
        process.terminate()
        process.wait(10)
        process.stdout.close()


@contextlib.contextmanager
def browser(width: int = 1280, height: int = 720, downloads: pathlib.Path = None, dark: bool = False):
    options = webdriver.ChromeOptions()
    for word in OPTIONS:
        options.add_argument(word)
    options.set_capability("goog:loggingPrefs", {"browser": "ALL"})
    if downloads:
        options.add_experimental_option("prefs", {"download.default_directory": str(downloads)})
    driver = webdriver.Chrome(options=options, service=Service(DRIVER))
    try:
        sized(driver, width, height)
        if dark:
            driver.execute_cdp_cmd("Emulation.setEmulatedMedia", {"features": [{"name": "prefers-color-scheme", "value": "dark"}]})
        yield driver
    finally:
        driver.quit()


def sized(driver, width: int, height: int):
    """The page's own size, whatever the browser's frame takes."""
    driver.execute_cdp_cmd("Emulation.setDeviceMetricsOverride", {"width": width, "height": height, "deviceScaleFactor": 1, "mobile": False})


def until(holds, seconds: float = 10):
    """What `holds` gives, as soon as it gives something."""
    end = time.monotonic() + seconds
    while not (got := holds()):
        if time.monotonic() > end:
            raise TimeoutError("the page has not come to what was waited for")
        time.sleep(0.02)
    return got
