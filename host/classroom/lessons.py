"""The lessons of the folder lessons/: recordings, and what their pages say to each tap (lessons/README.md has the form)."""

import pathlib
import re

LESSONS = pathlib.Path(__file__).resolve().parent.parent.parent / "lessons"
TAPS = "## Tap by tap"
FENCE = "```"
ITEM = re.compile(r"(\d+)\. (?:\*\*(.+?)\*\* *)?(.*)")  # the number of a tap, its title, its text
SENDER = re.compile(r"\b(tablet \d+|the engineer)\b", re.IGNORECASE)
MARKUP = re.compile(r"`([^`]+)`|\*\*(.+?)\*\*|\[([^\]]+)\]\([^)]*\)")


def runs(text: str) -> list:
    """A text as runs of [kind, words], the kind being code, strong or none. Of a link the words stay."""
    found, at = [], 0
    for mark in MARKUP.finditer(text):
        code, strong, words = mark.groups()
        found += [["", text[at : mark.start()]], ["code" if code else "strong" if strong else "", code or strong or words]]
        at = mark.end()
    return [run for run in (*found, ["", text[at:]]) if run[1]]


def blocks(text: str) -> list:
    """Paragraphs and numbered lines, each on one line, without tables."""
    found = (" ".join(block.split()) for block in re.split(r"\n\s*\n|\n(?=\d+\. )", text))
    return [block for block in found if block and not block.startswith("|")]


def unfenced(text: str) -> str:
    """Without the blocks of commands, each with the line that announces it."""
    return re.sub(rf"(?:^[^\n]+:\n\n)?^{FENCE}.*?^{FENCE}$", "", text, flags=re.MULTILINE | re.DOTALL)


def sender_of(title: str) -> str:
    found = SENDER.search(title)
    return found[1][0].upper() + found[1][1:] if found else ""


def taps_of(section: str) -> dict:
    """What is said to each tap, by its number; a paragraph between two stands above the second."""
    taps, above = {}, []
    for block in blocks(unfenced(section)):
        item = ITEM.fullmatch(block)
        if item:
            number, title, said = item.groups("")
            taps[int(number)] = {"sender": sender_of(title), "title": runs(title), "said": runs(said), "above": above}
            above = []
        else:
            above.append(runs(block))
    return taps


def read_page(text: str) -> dict:
    """Title and question, the introduction before the first block of commands, and the taps."""
    head, _, rest = text.partition(f"\n{TAPS}\n")
    introduction = blocks(re.split(rf"^(?:{FENCE}|## )", head, maxsplit=1, flags=re.MULTILINE)[0])
    title = introduction.pop(0).lstrip("# ") if introduction and introduction[0].startswith("# ") else ""
    question = introduction.pop(0).lstrip("> ") if introduction and introduction[0].startswith("> ") else ""
    return {"title": title, "question": question, "introduction": [runs(block) for block in introduction],
            "taps": taps_of(re.split(r"^## ", rest, maxsplit=1, flags=re.MULTILINE)[0])}


def page_of(recording: pathlib.Path) -> dict:
    """Of a recording without a page the name alone."""
    page = recording.with_suffix(".md")
    said = read_page(page.read_text(encoding="utf-8", errors="replace") if page.is_file() else "")
    return {**said, "name": recording.stem, "title": said["title"] or recording.stem}


def recordings() -> list:
    """In the order of lessons/make, and behind them by name those that it does not have."""
    made = re.findall(r"^lesson (\S+)", (LESSONS / "make").read_text(), re.MULTILINE)
    there = sorted(LESSONS.glob("*.rec"))
    return sorted(there, key=lambda path: made.index(path.stem) if path.stem in made else len(made))


def recording_of(name: str):
    """The lesson of this name, or None: a name is looked up and never made a path."""
    return next((path for path in recordings() if path.stem == name), None)


def listed() -> list:
    return [{key: page[key] for key in ("name", "title", "question")} for page in map(page_of, recordings())]
