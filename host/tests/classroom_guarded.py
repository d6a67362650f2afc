"""Who may use ./classroom, and what comes of requests that no page sends: by Python alone, without a browser."""

import http.client
import json
import pathlib
import urllib.parse

from rig import ROOT, SHEETS, check, same
from twin.card import personalise

from browser import classroom

IMAGE = personalise(SHEETS["secp256k1"].read_bytes())[1].hex().upper()
SHEET = [line.split("\t")[1] for line in SHEETS["secp256k1"].read_text().splitlines()] + [""]
READ_CARD = "00F2000022102091B4D142823F7D20C5F08DF69122DE43F35F057A988D9619F6D3138485C9A203"
LONGEST = 4060  # bytes of a request: with its draw and a refusal they make a recording's longest line
POSTS = {
    "tap": {"image": IMAGE, "request": READ_CARD},
    "sheet": {"values": SHEET},
    "forms": {"image": IMAGE},
    "apart": {"request": READ_CARD},
    "request": {"image": IMAGE, "ins": "F2", "fields": []},
    "recording": (ROOT / "lessons" / "refused.rec").read_bytes(),
}
HEADERS = ("Content-Security-Policy", "X-Content-Type-Options", "Referrer-Policy", "Cache-Control")


class Server:
    """A running ./classroom by the address that it printed."""

    def __init__(self, address: str):
        parts = urllib.parse.urlsplit(address)
        self.port, self.path, self.host = parts.port, parts.path, parts.netloc

    def ask(self, path: str, body=None, hosts=None, **headers) -> http.client.HTTPResponse:
        """The path as it is given, without a browser's tidying."""
        line = http.client.HTTPConnection("127.0.0.1", self.port, timeout=20)
        line.putrequest("GET" if body is None else "POST", path, skip_host=True, skip_accept_encoding=True)
        for host in hosts if hosts is not None else [self.host]:
            line.putheader("Host", host)
        for name, value in headers.items():
            line.putheader(name, value)
        if body is not None:
            line.putheader("Content-Length", str(len(body)))
        line.endheaders(body)
        answer = line.getresponse()
        answer.text = answer.read()
        line.close()
        return answer

    def get(self, name: str, **more) -> http.client.HTTPResponse:
        return self.ask(self.path + name, **more)

    def post(self, name: str, given, **more) -> http.client.HTTPResponse:
        return self.ask(self.path + name, given if isinstance(given, bytes) else json.dumps(given).encode(), **more)

    def answers(self) -> bool:
        return self.get("words").status == 200


def status_and_text(answer: http.client.HTTPResponse) -> str:
    return f"{answer.status} {answer.text[:200]}"


# ---- who may ----


def by_key(server: Server) -> None:
    same("the address that was printed: 200", server.get("").status, 200)
    key = server.path.strip("/")
    for words, path in (("no key", "/"), ("another key", f"/{'A' * len(key)}/"), ("a part of the key", f"/{key[:-1]}/"),
                        ("more than the key", f"/{key}A/"), ("no key, and a file's name", "/main.js"),
                        ("the key in other letters", f"/{key.swapcase()}/"), ("the key as a query", f"/?{key}/")):
        answer = server.ask(path)
        same(f"{words}: 403, and nothing of the page", (answer.status, b"<" in answer.text), (403, False))


def by_host(server: Server) -> None:
    for words, hosts in (("localhost", [f"localhost:{server.port}"]), ("evil.example", ["evil.example"]), ("without a port", ["127.0.0.1"]),
                         ("evil.example with the port", [f"evil.example:{server.port}"]), ("left out", [])):
        statuses = [server.get("", hosts=hosts).status, server.post("tap", POSTS["tap"], hosts=hosts).status]
        same(f"Host {words}: 403", statuses, [403, 403])
    check("two Hosts: refused", server.get("", hosts=[server.host, "evil.example"]).status in (400, 403))


def all_asked(server: Server, origin: str) -> set:
    """The statuses of all that a page may ask for, by a page of this origin."""
    got = [server.get(name, Origin=origin) for name in ("", "words", "lesson/refused")]
    return {answer.status for answer in (*got, *(server.post(name, given, Origin=origin) for name, given in POSTS.items()))}


def by_origin(server: Server) -> None:
    for words, origin in (("http://evil.example", "http://evil.example"), ("null", "null"), ("its own over https", f"https://{server.host}"),
                          ("localhost", f"http://localhost:{server.port}"), ("its own without the port", "http://127.0.0.1")):
        same(f"Origin {words}: 403 for all that there is", all_asked(server, origin), {403})
    same("its own Origin: 200 for all", all_asked(server, f"http://{server.host}"), {200})


def listening(port: int) -> list:
    """The addresses on which somebody listens at this port, as the kernel has them."""
    found = []
    for table in ("tcp", "tcp6"):
        rows = [line.split() for line in pathlib.Path(f"/proc/net/{table}").read_text().splitlines()[1:]]
        found += [row[1].split(":")[0] for row in rows if row[3] == "0A" and int(row[1].split(":")[1], 16) == port]
    return found


def by_address(server: Server) -> None:
    same("it listens on the loopback address alone", listening(server.port), ["0100007F"])
    with classroom() as other:
        keys = [server.path, urllib.parse.urlsplit(other).path]
        check("two starts have two keys, each of 128 bits", keys[0] != keys[1] and min(map(len, keys)) == 24, str(keys))
        same("the key of one opens no other", Server(other).ask(server.path).status, 403)


# ---- what is given ----


def headers(server: Server) -> None:
    answers = {"the page": server.get(""), "a script": server.get("main.js"), "words": server.get("words"), "a lesson": server.get("lesson/refused"),
               "a tap": server.post("tap", POSTS["tap"]), "no such file": server.get("nothing.js"), "a refusal": server.ask("/"),
               "a bad tap": server.post("tap", b"{")}
    for words, answer in answers.items():
        policy, *others = [answer.headers[name] or "" for name in HEADERS]
        holds = "default-src 'none'" in policy and "unsafe" not in policy and others == ["nosniff", "no-referrer", "no-store"]
        check(f"headers of {words}", holds, str([policy, *others]))


PATHS = ("../server.py", "%2e%2e/server.py", "..%2fserver.py", "./../server.py", "web/../server.py", "server.py", "%2e%2e%2f%2e%2e%2fREADME.md",
         "lesson/..%2f..%2fREADME", "lesson/../../README", "lesson/%2e%2e%2frefused", "lesson/refused.rec", "lesson/%00", "lesson/%ff", "%ff",
         "/etc/passwd", "//etc/passwd", "main.js%00", "main.js/", "..", ".")
INSIDE = (b"import asyncio", b"import aiohttp", b"# Merelstof", b"root:", b"cid\t")  # words of files that are nobody's business


def paths(server: Server) -> None:
    """No path leads to a file that is not the page's."""
    for path in PATHS:
        answer = server.get(path)
        holds = answer.status in (400, 403, 404) and not any(word in answer.text for word in INSIDE)
        check(f"path {path}: no file", holds, status_and_text(answer))
    check("and it still answers", server.answers())


# ---- what no page sends ----

BODIES = {"no JSON": b"{", "nothing": b"", "a list": [1], "a text": "tap", "no UTF-8": b"\xff{}", "an empty object": {}, "a number": b"1e400",
          "100,000 brackets": b"[" * 100_000}
IMAGES = {"nothing": "", "a byte": "00", "zeros": "00" * 3474, "a byte less": IMAGE[:-2], "a byte more": f"{IMAGE}00", "no hex": "xy", "a number": 5,
          "null": None, "a list": [IMAGE], "of Status 9": f"{IMAGE[:208]}09{IMAGE[210:]}", "a line more": f"{IMAGE}\n00"}
REQUESTS = {"of no byte": "", "of 4,061 bytes": "00" * (LONGEST + 1), "of 100,000": "00" * 100_000, "no hex": "0x", "half a byte": "0", "a number": 7,
            "null": None, "a list": ["00"]}
FIELD = {"tag": "10", "times": 1, "way": "own", "value": ""}
FORMS = {"INS of three digits": ("1F2", []), "INS no hex": ("zz", []), "no list": ("F2", 5), "fields of text": ("F2", ["a"]),
         "a field without a tag": ("F2", [{}]), "times of text": ("F2", [{**FIELD, "times": "x"}]),
         "times without end": ("F2", [{**FIELD, "times": float("inf")}]), "a value of a number": ("F2", [{**FIELD, "way": "hex", "value": 5}]),
         "half a letter": ("E0", [{**FIELD, "tag": "2A", "way": "text", "value": "\ud800"}])}
SHEETS_GIVEN = {"no list": 5, "too few": SHEET[:-1], "too many": [*SHEET, ""], "a number": [5, *SHEET[1:]]}
CIDS = {"half a letter": "\ud800", "a line feed": "AA00000000016675\ncid", "a tab": "AA\t00", "100,000 digits": "A" * 100_000}


def refused(server: Server, words: str, name: str, given) -> None:
    """A reason in JSON, and 400."""
    answer = server.post(name, given)
    try:
        reason = json.loads(answer.text).get("wrong")
    except ValueError:
        reason = None
    check(f"{name}, {words}: 400, and a reason in JSON", answer.status == 400 and isinstance(reason, str) and reason, status_and_text(answer))


def bad_bodies(server: Server) -> None:
    for name in ("tap", "sheet", "forms", "request", "apart"):
        for words, given in BODIES.items():
            if name != "apart" or not isinstance(given, dict):
                refused(server, words, name, given)
    check("after bad bodies it still answers", server.answers())


def bad_images(server: Server) -> None:
    for words, image in IMAGES.items():
        for name in ("tap", "forms", "request"):
            refused(server, f"an image, {words}", name, {**POSTS[name], "image": image})
    statuses = {server.post("tap", {**POSTS["tap"], "image": image}).status for image in (f" {IMAGE}", IMAGE.lower())}
    check("tap, an image in other hex: taken or refused, and no error of the server's", statuses <= {200, 400}, str(statuses))


def bad_requests(server: Server) -> None:
    for words, request in REQUESTS.items():
        refused(server, f"a request {words}", "tap", {"image": IMAGE, "request": request})
        answer = server.post("apart", {"request": request})
        reason = json.loads(answer.text).get("wrong", {}).get("all")
        check(f"apart, a request {words}: a reason for who types it", answer.status == 200 and reason, status_and_text(answer))
    answer = server.post("tap", {"image": IMAGE, "request": "00" * LONGEST})
    same("tap, a request of 4,060 bytes: answered", (answer.status, json.loads(answer.text)["tap"]["word"]), (200, "6700"))


def bad_forms(server: Server) -> None:
    for words, (ins, fields) in FORMS.items():
        refused(server, words, "request", {"image": IMAGE, "ins": ins, "fields": fields})
    for words, values in SHEETS_GIVEN.items():
        refused(server, words, "sheet", {"values": values})
    for words, value in CIDS.items():
        answer = server.post("sheet", {"values": [value, *SHEET[1:]]})
        holds = answer.status in (200, 400) and b"image" not in answer.text
        check(f"sheet, {words} for a CID: no card, and no error of the server's", holds, status_and_text(answer))


def too_much(server: Server) -> None:
    answer = server.post("recording", bytes(90_000_001))
    check("a recording of 90,000,001 bytes: 413, and a reason", answer.status == 413 and b"90,000,000" in answer.text, status_and_text(answer))


def guarded(address: str) -> None:
    server = Server(address)
    for part in (by_key, by_host, by_origin, by_address, headers, paths, bad_bodies, bad_images, bad_requests, bad_forms, too_much):
        part(server)
    check("after all of it the server still answers", server.answers())
