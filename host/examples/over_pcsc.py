"""One request to the card in the virtual reader: over_pcsc.py REQUEST, in hex. Needs Debian's python3, whose python3-pyscard it is."""

import sys

from smartcard.System import readers

WAIT = [0x97, 0x89]  # the card makes its holder wait, and wants the same bytes again

card = next(reader for reader in readers() if reader.name == "Virtual PCD 00 00").createConnection()
card.connect()
word = WAIT
while word == WAIT:
    answer, *word = card.transmit(list(bytes.fromhex(sys.argv[1])))
    print(bytes([*answer, *word]).hex().upper())
