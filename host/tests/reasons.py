"""The card's thirteen checks in words, by number: written out here, so that each language's own table is held to it."""

REASONS = {
    1: "the length of the request, or its Lc",
    2: "the class is not 00",
    3: "no such command",
    4: "P1 or P2 is not 00 (P2 01 or 02: no encrypted session is open)",
    5: "the payload does not end at a field's end, or a field that the command reads stands twice",
    6: "PIN1 is absent or is not the card's",
    7: "the CID is absent or is not the card's",
    8: "the card is not activated",
    9: "the card's Status does not allow the command",
    10: "PIN2 or the CVC is absent or is not the card's",
    11: "a field of the command is absent or not as it has to be",
    12: "a condition of the command is not met",
    13: "the issuer did not sign this",
}
