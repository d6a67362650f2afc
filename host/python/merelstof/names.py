"""The paper's names: commands by INS, fields by tag, status words. And the card's checks in words."""

COMMANDS = {
    0xF2: "READ_CARD",
    0xF8: "CREATE_WALLET",
    0xF9: "CHECK_WALLET",
    0xFA: "SET_PIN",
    0xFB: "SIGN",
    0xF3: "VERIFY_CARD",
    0xF4: "VALIDATE_CARD",
    0xFC: "PURGE_WALLET",
    0xE1: "READ_USER_DATA",
    0xE0: "WRITE_USER_DATA",
    0xF6: "WRITE_ISSUER_DATA",
    0xF7: "READ_ISSUER_DATA",
    0xFE: "ACTIVATE_CARD",
}

# The fields of requests and of responses.
TAGS = {
    0x01: "CID",
    0x02: "Status",
    0x04: "Card_Signature",
    0x05: "Curve_ID",
    0x10: "PIN1",
    0x11: "PIN2",
    0x12: "New_PIN1",
    0x13: "New_PIN2",
    0x14: "Public_Key_Challenge",
    0x15: "Public_Key_Salt",
    0x16: "Challenge",
    0x17: "Salt",
    0x18: "Card_Validation_Counter",
    0x19: "CVC",
    0x1C: "Pause",
    0x23: "Mode",
    0x2A: "User_Data",
    0x2B: "User_ProtectedData",
    0x2C: "User_Counter",
    0x2D: "User_ProtectedCounter",
    0x32: "Issuer_Data",
    0x33: "Issuer_Data_Signature",
    0x34: "Activation_Signature",
    0x35: "Issuer_Data_Counter",
    0x36: "Reset_PIN1",
    0x3A: "Is_Activated",
    0x3B: "Activation_Seed",
    0x50: "Transaction_Hash",
    0x51: "Transaction_Hash_Size",
    0x60: "Wallet_PublicKey",
    0x61: "Signature",
    0x62: "Remaining",
    0x63: "Signed_Hashes",
    0x64: "Check_Wallet_Counter",
}

WORDS = {
    0x9000: "SW_PROCESS_COMPLETED",
    0x9001: "SW_PIN1_CHANGED",
    0x9002: "SW_PIN2_CHANGED",
    0x9003: "SW_PINS_CHANGED",
    0x9789: "SW_NEED_PAUSE",
    0x6286: "SW_ERROR_PROCESSING_COMMAND",
    0x6700: "SW_WRONG_LENGTH",
    0x6982: "SW_NEED_ENCRYPTION",
    0x6985: "SW_INVALID_STATUS",
    0x6A86: "SW_INVALID_PARAMS",
    0x6D00: "SW_INS_NOT_SUPPORTED",
    0x6E00: "SW_CLA_NOT_SUPPORTED",
}

# What each of the card's checks refuses, in the order in which it makes them.
REASONS = {
    1: "the length of the request, or its Lc",
    2: "the class is not 00",
    3: "no such command",
    4: "P1 or P2 is not 00 (P2 01 or 02: no encrypted session is open)",
    5: "the payload does not end at a field's end, or a field that the command reads stands twice",
    6: "PIN1 is absent or is not the card's",
    7: "the CID is absent or is not the card's",
    8: "the card is not activated",
    9: "the card's Status does not allow the command",
    10: "PIN2 or the CVC is absent or is not the card's",
    11: "a field of the command is absent or not as it has to be",
    12: "a condition of the command is not met",
    13: "the issuer did not sign this",
}

SET_PIN = 0xFA
DONE = range(0x9000, 0x9004)
NEED_PAUSE = 0x9789


def word_name(word: int, ins: int = 0) -> str:
    """To SET_PIN 9000 says that neither code has changed, and has a name of its own."""
    return "SW_PINS_NOT_CHANGED" if (ins, word) == (SET_PIN, 0x9000) else WORDS.get(word, "?")
