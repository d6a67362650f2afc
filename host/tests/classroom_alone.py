"""A lesson as a page of one file: opened without a network it shows what the served page shows, and fetches nothing."""

import html.parser
import re
import subprocess
import textwrap

from rig import ROOT, SHEETS, check, folder, same, tap

from browser import until
from classroom_expected import Words
from classroom_lessons import LESSONS, of_words, unplaced, walked
from classroom_page import each, quiet, state

HOSTILE = "</script><script>document.title='hacked'</script><img src=x onerror=document.title='hacked'>"
WHO = """# Who

> Who?

## Tap by tap

1. **The yard.** Tablet 1 reads, and the engineer does not.
2. **Tablet 12, and not the engineer.** So it is.
"""


class Addresses(html.parser.HTMLParser):
    """What a page would fetch."""

    def __init__(self, text: str):
        super().__init__()
        self.found = []
        self.feed(text)

    def handle_starttag(self, tag, attrs):
        self.found += [value for name, value in attrs if name in ("src", "href", "srcset", "action", "data")]


def page_of(*words) -> subprocess.CompletedProcess:
    return subprocess.run([ROOT / "classroom", "--page", *words], capture_output=True, timeout=60)


def opened(page, name: str, recording, file) -> bool:
    """The page of this recording in the browser."""
    done = page_of(recording)
    same(f"{name} as one file: status 0, nothing else said", (done.returncode, done.stderr), (0, b""))
    file.write_bytes(done.stdout)
    same(f"{name} as one file: it would fetch nothing", Addresses(done.stdout.decode()).found, [])
    check(f"{name} as one file: no style fetches anything", b"url(" not in done.stdout and b"@import" not in done.stdout)
    page.get(file.as_uri())
    return check(f"{name} as one file: it opens", until(lambda: state(page), 5))


def one_lesson(page, path, place, shown: list) -> None:
    name = path.stem
    opened(page, name, path, place / f"{name}.html")
    there, back = walked(page)
    each(f"{name} as one file: the same as served", list(map(unplaced, there)), list(map(unplaced, shown)), 0)
    each(f"{name} as one file: and back", [one["text"] for one in back], [one["text"] for one in there[::-1]], 0)
    same(f"{name} as one file: nothing was fetched", page.execute_script("return performance.getEntriesByType('resource').length"), 0)


def of_readme(page, place) -> None:
    """The lesson of lessons/README.md, and a page in which others are named than those who send."""
    text = (ROOT / "lessons" / "README.md").read_text()
    block = re.search(r"^    # .*?(?=^\S)", text, re.S | re.M)[0]
    recording = place / "service-note.rec"
    done = tap("record", SHEETS["secp256k1"], recording, "write-note", "next service at 1300", ",", "read-note")
    check("the lesson of lessons/README.md is recorded", done.returncode == 0, str(done))
    recording.with_suffix(".md").write_text(textwrap.dedent(block))
    opened(page, "lessons/README.md", recording, place / "service-note.html")
    there, _ = walked(page)
    of_words("lessons/README.md", there, Words(recording))
    same("lessons/README.md: the engineer sends the second", [one["sender"] for one in there], [None, None, "The engineer sends"])
    recording.with_suffix(".md").write_text(WHO)
    opened(page, "who sends", recording, place / "service-note.html")
    there, _ = walked(page)
    same("who sends: by the title alone, and of several the first", [one["sender"] for one in there], [None, None, "Tablet 12 sends"])


def hostile(page, place) -> None:
    """A note, a title and a text that would end the script which they stand in."""
    recording = place / "hostile.rec"
    done = tap("record", SHEETS["ed25519"], recording, "write-note", HOSTILE, ",", "read-note")
    check("a hostile note is recorded", done.returncode == 0, str(done))
    recording.with_suffix(".md").write_text(f"# {HOSTILE}\n\n> {HOSTILE}\n\n## Tap by tap\n\n1. **{HOSTILE}** {HOSTILE}\n")
    opened(page, "hostile", recording, place / "hostile.html")
    title = page.title
    there, _ = walked(page)
    same("hostile: its title and its words are text", (title, there[0]["title"], there[1]["told"]), (HOSTILE, HOSTILE, [HOSTILE, HOSTILE]))
    read = [one["value"] for one in there[2]["response"] if one["tag"] == "32"]
    same("hostile: the note is text", read, [f"{len(HOSTILE)} bytes  {HOSTILE}"])
    same("hostile: no element of it, and the title is the same", (page.find_elements("css selector", "img"), page.title), ([], HOSTILE))


def pages(page, shown: dict) -> None:
    place = folder()
    page.get("about:blank")
    page.execute_cdp_cmd("Network.enable", {})
    page.execute_cdp_cmd("Network.emulateNetworkConditions", {"offline": True, "latency": 0, "downloadThroughput": 0, "uploadThroughput": 0})
    for path in LESSONS:
        one_lesson(page, path, place, shown[path.stem])
    of_readme(page, place)
    hostile(page, place)
    quiet("pages of one file", page)
