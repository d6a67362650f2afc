"""One request to `reader --tcp PORT CARD`: over_tcp.py PORT REQUEST, the request in hex."""

import socket
import sys

WAIT = bytes.fromhex("9789")  # the card makes its holder wait, and wants the same bytes again

port, request = int(sys.argv[1]), bytes.fromhex(sys.argv[2])
with socket.create_connection(("127.0.0.1", port), timeout=5) as card, card.makefile("rb") as answers:
    word = WAIT
    while word == WAIT:
        card.sendall(len(request).to_bytes(2, "big") + request)
        response = answers.read(int.from_bytes(answers.read(2), "big"))
        word = response[-2:]
        print(response.hex().upper())
