"""Makes crates/plays/stdin, recordings for the program `plays`, and crates/plays/stdout, what it must print; and the same for the
program `play`, which is run on one lesson as it is.

Run: python3 tests/plays.py. The recordings stand in lessons/ and in tests/twin/plays_*.py; tests/README.md tells what the lines mean.
"""

import pathlib
from collections import Counter

from twin import plays_activation, plays_chance, plays_delay, plays_lines, plays_sheets, plays_taps
from twin.recorder import Recording, recordings_of
from twin.recording import lines_of, played

ROOT = pathlib.Path(__file__).resolve().parent.parent
LESSON = ROOT / "lessons" / "morning-notes.rec"
CASES = (plays_taps, plays_activation, plays_delay, plays_sheets, plays_lines, plays_chance)
MAX_LINE = 6


def lessons() -> list:
    """The recordings of lessons/, by name."""
    found = []
    for path in sorted((ROOT / "lessons").glob("*.rec")):
        recording = Recording(f"lesson {path.stem}")
        for line in lines_of(path.read_bytes()):
            (recording.line if line.endswith(b"\n") else recording.part)(line.rstrip(b"\n"))
        found.append(recording)
    return found


def all_recordings() -> list:
    book = lessons()
    for cases in CASES:
        for group in cases.GROUPS:
            group(book)
    return book


def last_line_fits(recording: Recording, output: bytes) -> bool:
    """The play ends at the bad line, or with sums that agree: what the card counts is what its taps have made."""
    *_, last = output.splitlines()
    if recording.bad or last.startswith(b"line"):
        return last == b"line\t%d" % recording.bad
    remaining, signed_hashes, signs, hashes = map(int, last.split(b"\t"))
    most = int(lines_of(recording.text())[MAX_LINE - 1].split(b"\t")[1])
    return signed_hashes == hashes and remaining + signs in (0, most)


def summary(outputs: list) -> str:
    kinds, lines = Counter(), Counter()
    for output in outputs:
        *taps, last = output.splitlines()
        kinds["ended by a bad line" if last.startswith(b"line") else "played to the end"] += 1
        lines.update(line.split(b"\t")[1].decode() for line in taps)
    shown = ", ".join(f"{times} {name}" for name, times in sorted((kinds | lines).items()))
    return f"{len(outputs)} recordings, {sum(lines.values())} taps: {shown}"


def write(program: str, stdin: bytes, stdout: bytes) -> None:
    place = ROOT / "crates" / program
    (place / "stdin").write_bytes(stdin)
    (place / "stdout").write_bytes(stdout)


def main():
    book = all_recordings()
    stdin = b"".join(recording.input() for recording in book)
    read_back = list(recordings_of(stdin))
    assert read_back == [(recording.name, recording.text()) for recording in book]
    assert len(dict(read_back)) == len(book), "two recordings of one name"
    outputs = [played(text) for _, text in read_back]
    for recording, output in zip(book, outputs):
        assert last_line_fits(recording, output), recording.name
    stdout = b"".join(b"C\t%s\n%s" % (recording.name.encode(), output) for recording, output in zip(book, outputs))
    write("plays", stdin, stdout)
    write("play", LESSON.read_bytes(), played(LESSON.read_bytes()))
    print(summary(outputs))
    print(f"stdin {len(stdin)} bytes, stdout {len(stdout)} bytes")


if __name__ == "__main__":
    main()
