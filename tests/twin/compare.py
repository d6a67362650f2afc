"""Compares the proved card with the twin, call by call and byte by byte, over cards, requests and sheets by chance.

Run: python3 tests/twin/compare.py PROGRAM, where PROGRAM serves the proved card's calls (host/serve/serve.c). The same seed makes
the same calls.
"""

import argparse
import multiprocessing
import os
import secrets
import sys
import time
from typing import NamedTuple

sys.path.insert(0, os.path.dirname(os.path.dirname(os.path.abspath(__file__))))
from twin.chance import Chance
from twin.histories import TAPS_IN_A_JOB, histories
from twin.image import IMAGE_LENGTH
from twin.pair import Differs, Pair
from twin.proved import Proved
from twin.reached import Reached, beyond, never, tables
from twin.sheet import AFTER_PAUSE, NO_ROOM
from twin.sweeps import (
    codes, confirmations, image_lengths, images, images_not_activated, images_waiting, rooms, sheet_bytes, sheets, waits,
)

DIFFERENCES_SHOWN = 3


class Job(NamedTuple):
    work: object
    number: int

    def __str__(self):
        return f"{self.work.__name__} {self.number}"


class Outcome(NamedTuple):
    job: Job
    calls: int
    times: dict
    difference: str


def start_worker(command: list, seed: str):
    global worker_command, worker_seed, worker_proved
    worker_command, worker_seed, worker_proved = command, seed, None


def run(job: Job) -> Outcome:
    """A job has its own seed and, after a difference, a new process: no job depends on what ran before it."""
    global worker_proved
    worker_proved = worker_proved or Proved(worker_command)
    pair, difference = Pair(worker_proved, Chance(f"{worker_seed} {job}")), ""
    try:
        job.work(pair)
    except Differs as differs:
        difference, worker_proved = str(differs), None
    return Outcome(job, pair.calls, pair.reached.times, difference)


def jobs(taps: int) -> list:
    kinds = ((histories, -(-taps // TAPS_IN_A_JOB)), (images, 10), (images_not_activated, 2), (images_waiting, 4), (image_lengths, 1),
             (rooms, 2), (codes, 2), (waits, 1), (confirmations, 1), (sheets, 10), (sheet_bytes, 2))
    return [Job(work, at) for work, count in kinds for at in range(count)]


def run_all(command: list, seed: str, taps: int, processes: int) -> list:
    todo, outcomes, began = jobs(taps), [], time.monotonic()
    with multiprocessing.Pool(processes, start_worker, (command, seed)) as pool:
        for outcome in pool.imap(run, todo):
            outcomes.append(outcome)
            if len(outcomes) % (len(todo) // 8) == 0:
                calls = sum(one.calls for one in outcomes)
                print(f"  {len(outcomes)} of {len(todo)} jobs, {calls} calls, {time.monotonic() - began:.0f} s", flush=True)
    return outcomes


# ---------------------------------------------------------------- the report


class Report:
    def __init__(self):
        self.passed = self.failed = 0

    def check(self, words: str, holds: bool, why: str = ""):
        self.passed += holds
        self.failed += not holds
        print(("ok " if holds else "FAIL ") + words + ("" if holds or not why else ": " + why))


TITLES = {
    histories: "taps by chance in histories",
    images: "images damaged byte by byte",
    images_not_activated: "the same, of cards that are not activated",
    images_waiting: "the same, of cards that hold a request",
    image_lengths: "images of every length up to 4,096",
    rooms: "lent buffers of every short length",
    codes: "codes right, wrong, default, of another length and absent, together",
    waits: "every wait from none to 120 seconds, to its end",
    confirmations: "confirmations with every Reset_PIN1, every length of the signature, every answer",
    sheets: "sheets by chance",
    sheet_bytes: "a sheet damaged byte by byte, and every short buffer for its image",
}


def report_jobs(report: Report, outcomes: list):
    for work, title in TITLES.items():
        mine = [outcome for outcome in outcomes if outcome.job.work is work]
        different = [f"\n  {outcome.job}, {outcome.difference}" for outcome in mine if outcome.difference]
        calls = sum(outcome.calls for outcome in mine)
        report.check(f"{title}: {calls} calls, the same to the byte", not different, "".join(different[:DIFFERENCES_SHOWN]))


def report_reached(report: Report, taps: int, tapped, others):
    """What the taps reached is counted of them alone."""
    print("\n" + tables(tapped) + "\n")
    made = tapped["call", "settle"]
    report.check(f"{made} taps", made >= taps)
    missing, surplus = never(tapped), beyond(tapped)
    report.check("every command, check, pace, number, status word and end of a range was reached", not missing, "; ".join(missing))
    report.check("nothing was reached that cannot be", not surplus, "; ".join(surplus))
    kept, refused = others["image", 0], others["image", 1]
    report.check(f"damaged images: {refused} no card, {kept} still a card", kept > 0 and refused > 0)
    answers = {answer: others["sheet", answer] for answer in [*range(AFTER_PAUSE + 1), NO_ROOM]}
    print("sheets by answer: " + ", ".join(f"{answer}: {times}" for answer, times in answers.items()))
    report.check("every answer to a sheet was reached", all(answers.values()))


def summed(outcomes: list, works: tuple):
    total = Reached()
    for outcome in outcomes:
        if outcome.job.work in works:
            total.times.update(outcome.times)
    return total.times


def arguments():
    parser = argparse.ArgumentParser(description=__doc__.split("\n")[0])
    parser.add_argument("program", nargs="+", help="the program that serves the proved card's calls, with its words")
    parser.add_argument("--seed", default=secrets.token_hex(4), help="makes the same calls again; by chance where not given")
    parser.add_argument("--taps", type=int, default=120_000)
    parser.add_argument("--processes", type=int, default=2)
    return parser.parse_args()


def main() -> int:
    given, report = arguments(), Report()
    print(f"seed {given.seed}", flush=True)
    length = Proved(given.program).image_length()
    report.check(f"an image has {length} bytes", length == IMAGE_LENGTH)
    outcomes = run_all(given.program, given.seed, given.taps, given.processes)
    others = images, images_not_activated, images_waiting, sheets, sheet_bytes
    report_reached(report, given.taps, summed(outcomes, (histories,)), summed(outcomes, others))
    report_jobs(report, outcomes)
    print(f"{report.passed} passed, {report.failed} failed")
    return 1 if report.failed else 0


if __name__ == "__main__":
    sys.exit(main())
