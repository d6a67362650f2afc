"""The card's thirteen checks, in its order: what each looks at, in few words for a list, and in which words it refuses."""

from merelstof.names import REASONS

NAMES = (
    "length and Lc",
    "class",
    "command",
    "P1 and P2",
    "payload: whole fields, none twice",
    "PIN1",
    "CID",
    "activated",
    "Status",
    "PIN2 and CVC",
    "the command's fields",
    "the command's condition",
    "the issuer's signature",
)
CHECKS = [{"name": name, "reason": reason} for name, reason in zip(NAMES, REASONS.values())]
