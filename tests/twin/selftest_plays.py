"""Checks of the twin's play of recordings against lines worked out by hand. selftest.py runs them."""

from twin.bench import DEFAULT_PIN1
from twin.by_hand import ACCESS, CID_FIELD, CONFIRMED, DRAW, KEY, PIN1, PIN2, SEED, hashes, request, sheet
from twin.recording import played

READ_EMPTY = CID_FIELD + "020101" + "0509736563703235366B31" + "630400000000" + "9000"
CREATED = CID_FIELD + "020102" + "6041" + KEY + "9000"
EMPTIED, DEAD = CID_FIELD + "0201019000", CID_FIELD + "0201039000"
NO_SUMS = "0\t0\t0\t0\n"
SHORT = ("00F2", "", "6700")
SHORT_LINE = "00F2\t" + DRAW + "\t\t6700"


def signed(count: int, remaining: int, total: int) -> str:
    """What a SIGN answers: one field of all the signatures, from 255 bytes on with a long length."""
    length = f"{64 * count:02X}" if count < 4 else f"FF{64 * count:04X}"
    return CID_FIELD + "61" + length + "77" * 64 * count + f"6204{remaining:08X}6304{total:08X}9000"


def tap(ins: str, payload: str, answers: str, expected: str) -> tuple:
    return request(ins, payload).hex().upper(), answers, expected


def create(expected: str = CREATED) -> tuple:
    return tap("F8", CONFIRMED, KEY, expected)


def sign(count: int, expected: str) -> tuple:
    return tap("FB", CONFIRMED + hashes(count), "77" * 64 * count, expected)


def waiting(seconds: int) -> str:
    """What is answered while so many seconds are left, in units of 10 ms."""
    return f"1C02{100 * seconds:04X}9789"


def recording(*taps, **changed) -> bytes:
    return sheet(**changed) + "".join(f"{sent}\t{DRAW}\t{answers}\t{expected}\n" for sent, answers, expected in taps).encode()


def prints(text: bytes, *lines: str):
    assert played(text).decode() == "".join(lines), played(text)


def all_same(last: str, *taps, **changed):
    prints(recording(*taps, **changed), *(f"{n}\tsame\t{one[2]}\n" for n, one in enumerate(taps, 1)), last)


def play_reads():
    prints(sheet(), NO_SUMS)
    all_same(NO_SUMS, tap("F2", "1020" + PIN1, "", READ_EMPTY), SHORT, ("80F200000110", "AB", "6E00"))


def play_sums():
    repeat = tap("FB", CONFIRMED, "", signed(5, 6, 5))
    all_same("5\t6\t2\t6\n", create(), sign(5, signed(5, 6, 5)), repeat, sign(1, signed(1, 5, 6)))
    all_same("0\t10\t1\t10\n", create(), sign(10, signed(10, 0, 10)), sign(1, "6985"), max="1")


def play_sums_of_wallets():
    purge = tap("FC", CONFIRMED, "", EMPTIED)
    begun = create(), sign(3, signed(3, 6, 3)), purge
    all_same("0\t3\t0\t3\n", *begun)
    all_same("7\t3\t0\t3\n", *begun, create())
    all_same("6\t5\t1\t5\n", *begun, create(), sign(2, signed(2, 6, 5)), create("6985"))
    all_same("0\t3\t0\t3\n", *begun[:2], tap("FC", CONFIRMED, "", DEAD), create("6985"), reusable="0")


def play_repeats_of_wallets():
    """The repeat gives what the live wallet signed, and nothing where it has not signed or there is none."""
    none, purge = tap("FB", CONFIRMED, "", "6985"), tap("FC", CONFIRMED, "", EMPTIED)
    begun = create(), none, sign(3, signed(3, 6, 3)), tap("FB", CONFIRMED, "", signed(3, 6, 3)), purge, none, create(), none
    all_same("7\t3\t0\t3\n", *begun)
    all_same("6\t4\t1\t4\n", *begun, sign(1, signed(1, 6, 4)), tap("FB", CONFIRMED, "", signed(1, 6, 4)))
    all_same("0\t3\t0\t3\n", *begun[:4], tap("FC", CONFIRMED, "", DEAD), none, reusable="0")


def play_refused_signs():
    all_same("6\t1\t1\t1\n", create(), sign(1, signed(1, 6, 1)), sign(11, "6A86"), tap("FB", ACCESS + hashes(2), "", "6A86"))
    all_same(NO_SUMS, create("6985"), sign(1, "6985"), active="0")


def play_new_codes():
    new = tap("FA", CONFIRMED + "1220" + "AB" * 32 + "1320" + "CD" * 32, "", CID_FIELD + "9003")
    all_same("6\t1\t1\t1\n", create(), sign(1, signed(1, 6, 1)), new, sign(1, "6A86"))


def play_activation():
    """FE is no part of the sums; the taps after it are played under the PIN1 that it has set."""
    default, fields = DEFAULT_PIN1.hex().upper(), "360101" + "3440" + "11" * 64
    activate = tap("FE", ACCESS + fields, "01", READ_EMPTY)
    late = [tap(ins, payload.replace(PIN1, default), answers, expected) for ins, payload, answers, expected in (
        ("F8", CONFIRMED, KEY, CREATED), ("FB", CONFIRMED + hashes(2), "77" * 128, signed(2, 6, 2)), ("FE", ACCESS + fields, "EE", "6985"))]
    waits = late[0][0], "EE", waiting(1)
    asleep = create("6985"), tap("FE", ACCESS + fields, "00", "6286"), tap("FE", ACCESS + fields, "02", "4")
    all_same(NO_SUMS, *asleep, activate, active="0")
    all_same("6\t2\t1\t2\n", *asleep, activate, create("6A86"), waits, *late, sign(1, "6A86"), active="0")
    all_same(NO_SUMS, tap("FE", ACCESS + fields, "01", "6985"))


def play_refusal_4():
    unanswered = tap("FB", CONFIRMED + hashes(2), "", "4")
    all_same("6\t2\t1\t2\n", create(), unanswered, sign(2, signed(2, 6, 2)), unanswered)
    prints(recording(tap("F2", "1020" + PIN1, "00", "9000"), tap("F2", "1020" + PIN1, "", "4")),
           "1\tother\t4\n", f"2\tother\t{READ_EMPTY}\n", NO_SUMS)


def play_waits():
    """A pause of three seconds and a wrong code make four. What waits makes nothing, and its answers are not looked at."""
    two, other = sign(2, "")[0], tap("FB", ACCESS + "1120" + PIN1 + hashes(2), "", "6A86")
    pause = [(create()[0], "", expected) for expected in ("1C02012C9789", "1C0200C89789", "1C0200649789")] + [create()]
    all_same("7\t0\t0\t0\n", *pause, pause="3")
    longer = [(two, "EE", waiting(seconds)) for seconds in (4, 3, 2, 1)] + [(two, "", "4"), sign(2, signed(2, 6, 2))]
    all_same("6\t2\t1\t2\n", *pause, other, *longer, pause="3")
    all_same("7\t0\t0\t0\n", *pause, other, longer[0], SHORT, *longer[:3], pause="3")
    read = tap("F2", "1020" + PIN1, "", READ_EMPTY)
    all_same(NO_SUMS, pause[0], pause[1], read, pause[0], pause[1], read, pause="3")
    all_same(NO_SUMS, tap("F2", "1020" + PIN2, "", "6A86"), (read[0], "AB", waiting(1)), read, read)


def play_pause_lines():
    """A pause as line 15, to the byte, belongs to the sheet: then the first tap is line 16. Any other line 15 is the first tap."""
    for seconds in ("0", "9", "59", "60"):
        all_same(NO_SUMS, SHORT, pause=seconds)
        for end in (f"pause\t{seconds}\n", "\n", "pause", SHORT_LINE):
            prints(sheet(pause=seconds) + end.encode(), "line\t16\n")
            prints(recording(SHORT, pause=seconds) + end.encode(), "1\tsame\t6700\n", "line\t17\n")
            prints(recording(SHORT) + end.encode(), "1\tsame\t6700\n", "line\t16\n")
    for row in ("pause\t61\n", "pause\t05\n", "pause\t\n", "pause\t5\r\n", "Pause\t5\n", "pause 5\n", "pause\t5"):
        prints(sheet() + row.encode() + SHORT_LINE.encode() + b"\n", "line\t15\n")
    prints(sheet().replace(b"seed", b"pause\t5\nseed"), "line\t14\n")
    prints(recording(SHORT, max="0", pause="5"), "line\t6\n")


def play_others():
    for expected in ("67", "6701", "670000", "0067", "90", "4", "44"):
        prints(recording(("00F2", "", expected), SHORT), "1\tother\t6700\n", "2\tsame\t6700\n", NO_SUMS)


def play_bad_lines():
    draw, rows = DRAW + "\t", ("", " ", "00F2", "\t\t\t", SHORT_LINE + "\t", SHORT_LINE + " ", SHORT_LINE + "\r", "# words")
    rows += tuple(f"{one}\t{draw}\t6700" for one in ("", "4", "00f2", "00F", "00G2", "0:", "0/", "0@"))
    rows += tuple(f"00F2\t{one}\t\t6700" for one in ("", DRAW[2:], DRAW + "00", DRAW[1:], DRAW.lower()))
    rows += tuple(f"00F2\t{draw}{one}\t6700" for one in ("4", "ab", "A", "A B"))
    rows += tuple(f"00F2\t{draw}\t{one}" for one in ("", "6", "670", "6a86", "444", "4 "))
    for row in rows:
        end = (row + "\n" + SHORT_LINE + "\n").encode()
        prints(sheet() + end, "line\t15\n")
        prints(recording(SHORT, SHORT) + end, "1\tsame\t6700\n", "2\tsame\t6700\n", "line\t17\n")


def play_bad_sheets():
    prints(b"", "line\t1\n")
    prints(b"\n" * 30, "line\t1\n")
    prints(sheet()[:-1], "line\t14\n")
    prints(recording(SHORT, max="0"), "line\t6\n")
    prints(recording(SHORT).replace(b"replay\t1\n", b""), "line\t12\n")
    prints(recording(SHORT).replace(b"active\t1\n", b""), "line\t13\n")
    prints(recording(SHORT).replace(f"seed\t{SEED}\n".encode(), b""), "line\t14\n")


def play_last_line_feed():
    prints(recording(SHORT) + SHORT_LINE.encode(), "1\tsame\t6700\n", "line\t16\n")
    prints(recording(SHORT) + b"0", "1\tsame\t6700\n", "line\t16\n")


def play_long_lines():
    """Of 8,192 bytes, 67 are tabs and the draw, and one is the 4 that makes the number even."""
    prints(recording(("00" * 4062, "", "4")), "1\tother\t6700\n", NO_SUMS)
    prints(recording(("00" * 4060, "", "6700")), "1\tsame\t6700\n", NO_SUMS)
    prints(recording(("00" * 4061, "", "6700")), "line\t15\n")
    prints(recording(SHORT, ("00F2", "00" * 4060, "4")), "1\tsame\t6700\n", "2\tother\t6700\n", NO_SUMS)
    prints(recording(SHORT, ("00F2", "00" * 4061, "4")), "1\tsame\t6700\n", "line\t16\n")


def play_many_taps():
    lines = [f"{n}\tsame\t6700\n" for n in range(1, 10_001)]
    prints(recording(*[SHORT] * 10_000), *lines, NO_SUMS)
    prints(recording(*[SHORT] * 10_001), *lines, "line\t10015\n")
    prints(recording(*[SHORT] * 10_001, pause="60"), *lines, "line\t10016\n")


TESTS = (
    play_reads, play_sums, play_sums_of_wallets, play_repeats_of_wallets, play_refused_signs, play_new_codes, play_activation,
    play_refusal_4, play_waits, play_pause_lines, play_others, play_bad_lines, play_bad_sheets, play_last_line_feed, play_long_lines,
    play_many_taps,
)
