"""The longest recording that there is, in the page: how long it takes, as the page itself measures it, and that all of it is there."""

from rig import SHEETS, check, folder, same, tap

from browser import browser
from classroom_page import quiet, state, whole
from opening import opened, stepped

TAPS = 10_000
FIRST, STEP = 2000, 200  # milliseconds, and generous


def recorded(place):
    """A wallet, and as many SIGNs as there is room for."""
    sheet, recording = place / "long.sheet", place / "long.rec"
    sheet.write_text(SHEETS["ed25519"].read_text().replace("max\t1000\n", f"max\t{TAPS}\n"))
    done = tap("record", "--hex", sheet, recording, input=b"create-wallet\n" + b"sign-text one\n" * (TAPS - 1))
    if done.returncode:
        raise RuntimeError(done.stderr.decode())
    return recording


def long(address: str) -> None:
    recording = recorded(folder())
    with browser() as page:
        first = opened(page, address, recording)
        check(f"10,000 taps: the first view after {first:.0f} ms", first < FIRST)
        same("10,000 taps: all of them are there", whole(page)["of"], TAPS)
        forward = stepped(page, "forward")
        check(f"10,000 taps: a step forward in {forward:.0f} ms", forward < STEP)
        page.find_element("id", "last").click()
        now = state(page)
        numbers = [plot[1] for plot in now["plots"]]
        same("10,000 taps: at the end 1 is left of 10,000, and 9,999 hashes are signed", (now["at"], numbers), (TAPS, [0, 1, TAPS - 1]))
        back = stepped(page, "back")
        check(f"10,000 taps: a step back from the end in {back:.0f} ms", back < STEP)
        quiet("10,000 taps", page)
