"""Cases for user data and issuer data."""

from twin.bench import (
    OWN_FIELDS, READ_ISSUER_DATA, READ_USER_DATA, STATUSES, WRITE_ISSUER_DATA, WRITE_USER_DATA, confirmed, counter,
    fresh, full, issuer_data, loaded, long_field, request, some, usual,
)
from twin.image import ED25519, EMPTY, LOADED, PURGED, TOP_32

# ---------------------------------------------------------------- user data


def user_data(script):
    a, b, c, d = OWN_FIELDS[WRITE_USER_DATA]
    every = {"2A": a, "2B": b, "2C": c, "2D": d}
    script.case("no field", fresh(), request(WRITE_USER_DATA))
    script.case("no field, PIN2 there", fresh(), confirmed(WRITE_USER_DATA))
    for chosen in range(1, 16):
        names = [name for place, name in enumerate(every) if chosen >> place & 1]
        fields = [every[name] for name in names]
        status, words = (LOADED if chosen % 2 else EMPTY), " ".join(names)
        script.case(f"{words}, {STATUSES[status]}", full(status), confirmed(WRITE_USER_DATA, *fields))
        script.case(f"{words}, without PIN2", full(status), request(WRITE_USER_DATA, *fields))
        script.case(f"{words}, wrong PIN2", full(status), request(WRITE_USER_DATA, (0x11, bytes(32)), *fields))


def user_data_fields(script):
    script.use(full(LOADED))
    for tag in (0x2A, 0x2B):
        for length in (0, 1, 512, 513):
            one = long_field(tag, some(length, tag))
            script.case(f"{tag:02X} of {length}", None, confirmed(WRITE_USER_DATA, one))
    for tag in (0x2C, 0x2D):
        for length in (0, 1, 3, 5, 8):
            script.case(f"{tag:02X} of {length}", None, confirmed(WRITE_USER_DATA, (tag, some(length, tag))))
        for value in (0, 1, TOP_32):
            script.case(f"{tag:02X} set to {value}", None, confirmed(WRITE_USER_DATA, (tag, counter(value))))
    script.case("an empty 2A beside a good 2C: nothing is stored", None,
                request(WRITE_USER_DATA, (0x2A, b""), (0x2C, counter(3))))
    script.case("a good 2A beside a 2C of 3", None, request(WRITE_USER_DATA, (0x2A, b"good"), (0x2C, b"abc")))
    script.case("an empty 2B without PIN2", None, request(WRITE_USER_DATA, (0x2B, b"")))
    script.case("a request of 1,024 bytes with both", fresh(), confirmed(
        WRITE_USER_DATA, (0x2A, some(512, 80)), (0x2B, some(419, 81))), usual(READ_USER_DATA))
    script.case("a request of 1,025 bytes with both", fresh(), confirmed(
        WRITE_USER_DATA, (0x2A, some(512, 80)), (0x2B, some(420, 81))))
    script.case("512, then 3: the rest is zero again", None, confirmed(
        WRITE_USER_DATA, (0x2A, some(512, 82))), request(WRITE_USER_DATA, (0x2A, b"abc")), usual(READ_USER_DATA))


def user_data_read(script):
    for one, two in ((0, 0), (1, 0), (0, 1), (254, 255), (255, 254), (512, 512), (512, 0), (0, 512)):
        card = fresh(user_data=some(one, 83), user_protected_data=some(two, 84), user_protected_counter=TOP_32)
        script.case(f"User_Data of {one}, User_ProtectedData of {two}", card, usual(READ_USER_DATA))
    script.case("Purged", full(PURGED), usual(READ_USER_DATA), usual(WRITE_USER_DATA))
    zeros = fresh(user_data=bytes(2), user_protected_data=bytes(1))
    script.case("data of zeros is data", zeros, usual(READ_USER_DATA))


# ---------------------------------------------------------------- issuer data


def issuer_fields(script):
    data, signature, sent = issuer_data()
    mode = (0x23, b"\0")
    rows = (
        ("Mode 0", (mode, data, signature, sent)),
        ("Mode 1", ((0x23, b"\1"), data, signature, sent)),
        ("Mode FF", ((0x23, b"\xff"), data, signature, sent)),
        ("Mode empty", ((0x23, b""), data, signature, sent)),
        ("Mode of two bytes", ((0x23, b"\0\0"), data, signature, sent)),
        ("data absent", (signature, sent)),
        ("data empty", ((0x32, b""), signature, sent)),
        ("data of 1", ((0x32, b"d"), signature, sent)),
        ("data of 512", ((0x32, some(512, 90)), signature, sent)),
        ("data of 513", ((0x32, some(513, 90)), signature, sent)),
        ("signature absent", (data, sent)),
        ("signature of 63", (data, (0x33, some(63)), sent)),
        ("signature of 65", (data, (0x33, some(65)), sent)),
        ("signature of zeros", (data, (0x33, bytes(64)), sent)),
        ("counter absent", (data, signature)),
        ("counter empty", (data, signature, (0x35, b""))),
        ("counter of 3", (data, signature, (0x35, b"\xff\xff\xff"))),
        ("counter of 5", (data, signature, (0x35, b"\0\0\0\0\xff"))),
        ("no field", ()),
    )
    for words, fields in rows:
        for protected in (1, 0):
            card = fresh(replay_protection=protected, issuer_data_counter=9)
            script.case(f"{words}, protected {protected}", card, request(WRITE_ISSUER_DATA, *fields))
    for words, fields in rows[:5]:
        for protected in (1, 0):
            card = full(LOADED, replay_protection=protected)
            script.case(f"read, {words}, protected {protected}", card, request(READ_ISSUER_DATA, fields[0]))
    script.case("read, a Mode and an unfit signature, which is not read", full(LOADED),
                request(READ_ISSUER_DATA, mode, (0x33, b"x")))


def issuer_counter(script):
    rows = ((9, 8), (9, 9), (9, 10), (9, TOP_32), (0, 0), (0, 1), (255, 256), (256, 255), (65_536, 65_535),
            (TOP_32 - 1, TOP_32), (TOP_32, TOP_32), (TOP_32, 0), (0x7FFFFFFF, 0x80000000), (0x80000000, 0x7FFFFFFF))
    for stored, sent in rows:
        for protected in (1, 0):
            card = loaded(replay_protection=protected, issuer_data_counter=stored)
            script.case(f"stored {stored}, sent {sent}, protected {protected}", card,
                        request(WRITE_ISSUER_DATA, *issuer_data(3, 1, sent)), usual(READ_ISSUER_DATA))
    script.case("an unfit signature and a counter too low", loaded(issuer_data_counter=9),
                request(WRITE_ISSUER_DATA, (0x32, b"d"), (0x33, b"s"), (0x35, counter(9))))


def issuer_answers(script):
    """Kind 5 said no: 6286 and the old card; then the same request with yes."""
    for status in (EMPTY, LOADED):
        for protected in (1, 0):
            write = request(WRITE_ISSUER_DATA, *issuer_data(40, 2, 10))
            script.say(f"the provider says no, then yes: {STATUSES[status]}, protected {protected}")
            script.use(full(status, ED25519, replay_protection=protected, wallet_number=3))
            script.ask(write)
            script.settle(write, b"\0")
            script.tap(usual(READ_ISSUER_DATA))
            script.settle(write, b"\1")
            script.tap(usual(READ_ISSUER_DATA))
            script.settle(write, b"\0")


def issuer_data_held(script):
    for length in (0, 1, 254, 255, 512):
        for protected in (1, 0):
            signature = some(64, 91) if length else bytes(64)
            card = fresh(issuer_data=some(length, 92), issuer_data_signature=signature, issuer_data_counter=77,
                         replay_protection=protected)
            script.case(f"{length} held, protected {protected}", card, usual(READ_ISSUER_DATA))
    script.case("Purged: read, but not written", full(PURGED), usual(READ_ISSUER_DATA), usual(WRITE_ISSUER_DATA))
    script.case("512, then 2: the rest is zero again", fresh(), request(WRITE_ISSUER_DATA, *issuer_data(512, 3, 1)),
                usual(READ_ISSUER_DATA), request(WRITE_ISSUER_DATA, *issuer_data(2, 4, 2)), usual(READ_ISSUER_DATA))


GROUPS = (
    ("WRITE_USER_DATA: which fields are there", user_data),
    ("WRITE_USER_DATA: their lengths", user_data_fields),
    ("READ_USER_DATA", user_data_read),
    ("issuer data: fields", issuer_fields),
    ("issuer data: the counter", issuer_counter),
    ("issuer data: the provider's word", issuer_answers),
    ("issuer data: held and read", issuer_data_held),
)
