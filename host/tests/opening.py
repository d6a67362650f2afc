"""How long a recording takes to open and to step in the page of ./classroom, in milliseconds as the page itself measures them: for
classroom.test and for host/bench."""

import statistics

from browser import browser, classroom, until

STEPS = 9
# From the choice of the file to the frame that has the first view.
WATCH = """
const view = document.getElementById("view"), open = document.getElementById("open-lesson");
window.seen = null;
open.addEventListener("change", () => {
  const start = performance.now();
  new MutationObserver((_, watch) => {
    if (!document.getElementById("lesson")) return;
    watch.disconnect();
    requestAnimationFrame(() => setTimeout(() => (window.seen = performance.now() - start)));
  }).observe(view, { childList: true });
}, true);"""
# From the press of a button to the frame that has what it shows.
STEP = """
const [button, done] = arguments, start = performance.now();
document.getElementById(button).click();
requestAnimationFrame(() => setTimeout(() => done(performance.now() - start)));"""


def opened(page, address: str, recording) -> float:
    """The time to the first view. All taps have come when this returns."""
    page.get("about:blank")
    page.get(address)
    until(lambda: page.execute_script("return document.getElementById('open-lesson')"))
    page.execute_script(WATCH)
    page.find_element("id", "open-lesson").send_keys(str(recording))
    until(lambda: page.execute_script("return window.seen && !document.getElementById('place').textContent.includes('…')"), 60)
    return page.execute_script("return window.seen")


def stepped(page, button: str) -> float:
    return statistics.median(page.execute_async_script(STEP, button) for _ in range(STEPS))


def measured(recordings: list) -> list:
    """Of each recording the first view, a step forwards at its beginning, and a step back from its end; the last two as medians."""
    with classroom() as address, browser() as page:
        found = []
        for recording in recordings:
            first = opened(page, address, recording)
            forward = stepped(page, "forward")
            page.execute_async_script(STEP, "last")
            found.append((first, forward, stepped(page, "back")))
        return found
