"""Recordings as the tests read them: their lines, and what the twin makes of them."""

import rig  # noqa: F401  puts tests/ on the path
from twin.card import personalise, settle

SHEET_LINES = 14  # and a fifteenth where it is a pause


def lines_of_sheet(recording: bytes) -> int:
    return SHEET_LINES + any(line.startswith(b"pause\t") for line in recording.splitlines()[SHEET_LINES : SHEET_LINES + 1])


def taps_of(recording: bytes) -> list:
    return recording.decode().splitlines()[lines_of_sheet(recording) :]


def responses_of(recording: bytes) -> list:
    return [line.split("\t")[3] for line in taps_of(recording)]


def images_of(recording: bytes) -> list:
    """The fresh card, and the one after each tap: where the twin settles with number 4 it is the one before."""
    _, image = personalise(b"".join(recording.splitlines(keepends=True)[: lines_of_sheet(recording)]))
    images = [image]
    for line in taps_of(recording):
        images.append(settle(images[-1], *map(bytes.fromhex, line.split("\t")[:3])).image or images[-1])
    return images


def played(recording: bytes) -> tuple:
    """What the twin answers to the recording's taps, and the card that it has at the end."""
    images = images_of(recording)
    done = [settle(image, *map(bytes.fromhex, line.split("\t")[:3])) for image, line in zip(images, taps_of(recording))]
    return [one.response.hex().upper() for one in done], images[-1]


def reasons_of(recording: bytes) -> list:
    """The twin's reason of each tap, which stands in no recording. A tap that came to nothing (4) has 0."""
    taps = zip(images_of(recording), taps_of(recording))
    return [settle(image, *map(bytes.fromhex, line.split("\t")[:3])).reason for image, line in taps]


def image_at_end(recording: bytes) -> bytes:
    return images_of(recording)[-1]
