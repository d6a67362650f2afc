"""Makes crates/taps/stdin, the cases for the program `taps`, and crates/taps/stdout, what it must print.

Run: python3 tests/taps.py. The cases stand in tests/twin/cases_*.py; tests/README.md tells what the lines mean.
"""

import pathlib

from twin import (
    cases_activation, cases_checks, cases_codes, cases_count, cases_data, cases_delay, cases_drops, cases_handover, cases_numbers,
    cases_requests, cases_status, cases_tablets, cases_twice, cases_wallet,
)
from twin.bench import NAMES
from twin.replay import Replay
from twin.script import Script

PLACE = pathlib.Path(__file__).resolve().parent.parent / "crates" / "taps"
CASES = (cases_requests, cases_checks, cases_status, cases_wallet, cases_data, cases_numbers, cases_codes, cases_twice, cases_handover,
         cases_activation, cases_delay, cases_drops, cases_count, cases_tablets)


def written() -> Script:
    script = Script()
    for cases in CASES:
        for words, group in cases.GROUPS:
            script.say("== " + words)
            group(script)
    return script


def table(script: Script) -> str:
    """How often settle ended in each number, by which check each command was refused, and how often it had to wait."""
    rows = [f"{calls} x {letter}" for letter, calls in sorted(script.calls.items())]
    for ins, name in NAMES.items():
        seen = sorted((number, reason, times) for (of, number, reason), times in script.reasons.items() if of == ins)
        done = sum(times for number, reason, times in seen if (number, reason) == (0, 0))
        refused = " ".join(f"{reason}:{times}" for number, reason, times in seen if number == 0 and reason)
        numbers = " ".join(f"{number}:{times}" for number, _, times in seen if number)
        rows.append(f"{name}: done {done}; had to wait {script.waits[ins]}; refused by check {refused}; number {numbers}")
    return "\n".join(rows)


def main():
    script = written()
    stdin, stdout = script.texts()
    assert Replay().run(stdin) == stdout
    PLACE.mkdir(parents=True, exist_ok=True)
    (PLACE / "stdin").write_text(stdin, newline="\n")
    (PLACE / "stdout").write_text(stdout, newline="\n")
    print(table(script))
    print(f"stdin {len(stdin)} bytes, stdout {len(stdout)} bytes")


if __name__ == "__main__":
    main()
