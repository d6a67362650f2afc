"""What the page asks for, over the loopback address. The server keeps nothing: a page has its card's image, and sends it with each tap."""

import asyncio
import json
import pathlib
import secrets

from aiohttp import web

from merelstof import Card, MadeUp, NotACard

import cards
import checks
import forms
import lessons
import teller

ADDRESS = "127.0.0.1"
WEB = pathlib.Path(__file__).resolve().parent / "web"
TYPES = {".html": "text/html", ".css": "text/css", ".js": "text/javascript"}
FILES = {path.name: path for path in WEB.iterdir() if path.suffix in TYPES}
MOST = 90_000_000  # bytes, and more than a recording can have
HEADERS = {
    "Content-Security-Policy": "default-src 'none'; script-src 'self'; style-src 'self'; img-src data:; connect-src 'self'; "
                               "base-uri 'none'; form-action 'none'; frame-ancestors 'none'",
    "X-Content-Type-Options": "nosniff",
    "Referrer-Policy": "no-referrer",
    "Cache-Control": "no-store",
}


class Bad(Exception):
    """A request of the page that cannot be served, with the reason in words."""


# ---- who may use it ----


def is_ours(request: web.Request, key: str, host: str) -> bool:
    """The key stands first in the path, Host is the address that was printed, and a page of another origin has no business here."""
    first = f"{request.path}/".split("/")[1]
    return (secrets.compare_digest(first.encode(), key.encode()) and request.headers.getall("Host", []) == [host]
            and request.headers.get("Origin", f"http://{host}") == f"http://{host}")


def guard(key: str):
    @web.middleware
    async def guarded(request: web.Request, handler) -> web.StreamResponse:
        host = f"{ADDRESS}:{request.transport.get_extra_info('sockname')[1]}"
        if not is_ours(request, key, host):
            return web.Response(status=403, text="403: not the address that ./classroom printed\n", headers=HEADERS)
        try:
            return await handler(request)
        except Bad as why:
            return said({"wrong": str(why)}, status=400)
        except web.HTTPRequestEntityTooLarge:
            return said({"wrong": f"it has more than {MOST:,} bytes, and no recording has"}, status=413)

    return guarded


# ---- what is given ----


def said(what, status: int = 200) -> web.Response:
    return web.json_response(what, status=status, headers=HEADERS)


async def given(request: web.Request) -> dict:
    try:
        what = await request.json()
    except (ValueError, RecursionError):  # the second where brackets stand in brackets without end
        raise Bad("this is no JSON") from None
    if not isinstance(what, dict):
        raise Bad("an object is wanted")
    return what


def card_of(what: dict) -> Card:
    try:
        return Card.from_image(bytes.fromhex(what["image"]), MadeUp())
    except (KeyError, TypeError, ValueError, NotACard):
        raise Bad("the image is no card") from None


# ---- what is served ----


async def get_file(request: web.Request) -> web.Response:
    path = FILES.get(request.match_info["name"] or "index.html")
    if path is None:
        return web.Response(status=404, text="404: there is nothing of this name\n", headers=HEADERS)
    return web.Response(body=path.read_bytes(), content_type=TYPES[path.suffix], charset="utf-8", headers=HEADERS)


async def get_words(_: web.Request) -> web.Response:
    """What the page shows before there is a tap: the lessons, the checks, a sheet to begin with."""
    return said({"lessons": lessons.listed(), "checks": checks.CHECKS, "sheet": cards.START, "longest": MOST})


async def stream(request: web.Request, page: dict, recording: bytes) -> web.StreamResponse:
    """The page's words, then the teller's objects as they come, an object a line."""
    response = web.StreamResponse(headers={**HEADERS, "Content-Type": "application/x-ndjson"})
    await response.prepare(request)
    await response.write(json.dumps({"page": page}).encode() + b"\n")
    async for piece in teller.telling(recording):
        await response.write(piece)
    await response.write_eof()
    return response


async def get_lesson(request: web.Request) -> web.StreamResponse:
    path = lessons.recording_of(request.match_info["name"])
    if path is None:
        raise Bad("there is no lesson of this name")
    return await stream(request, lessons.page_of(path), path.read_bytes())


async def post_recording(request: web.Request) -> web.StreamResponse:
    return await stream(request, lessons.read_page(""), await request.read())


async def post_sheet(request: web.Request) -> web.Response:
    """A fresh card, or every line that is bad."""
    values = (await given(request)).get("values")
    if not isinstance(values, list) or [type(value) for value in values] != [str] * len(cards.NAMES):
        raise Bad(f"a sheet has {len(cards.NAMES)} values here")
    bad = cards.bad_lines(values)
    if bad:
        return said({"bad": bad})
    sheet = cards.sheet_of(values)
    return said({"sheet": sheet, **(await teller.told(sheet.encode()))[0]})


async def post_forms(request: web.Request) -> web.Response:
    return said(forms.forms(card_of(await given(request))))


async def post_request(request: web.Request) -> web.Response:
    """What a form makes, taken apart before it is sent; or what is wrong with which field."""
    what = await given(request)
    card = card_of(what)
    try:
        made, wrong = forms.compose(card, int(what["ins"], 16), what["fields"])
    except (KeyError, TypeError, ValueError, AttributeError, OverflowError):
        raise Bad("this is no form of a command") from None
    return said({"wrong": wrong} if wrong else {"request": made.hex().upper(), "sent": await teller.explained(made)})


def request_of(what: dict) -> bytes:
    try:
        request = forms.hex_bytes(str(what.get("request")))
    except forms.Wrong as why:
        raise Bad(str(why)) from None
    if not 0 < len(request) <= cards.LONGEST:
        raise Bad(f"a request here has 1 to {cards.LONGEST} bytes, and this one has {len(request)}")
    return request


async def post_apart(request: web.Request) -> web.Response:
    """A request in hex, taken apart; or what is wrong with it, which is no fault of the page while somebody types."""
    what = await given(request)
    try:
        made = request_of(what)
    except Bad as why:
        return said({"wrong": {"all": str(why)}})
    return said({"request": made.hex().upper(), "sent": await teller.explained(made)})


async def post_tap(request: web.Request) -> web.Response:
    """A tap, told, and the card after it."""
    what = await given(request)
    card = card_of(what)
    line = await asyncio.to_thread(cards.tap, card.image, request_of(what))
    _, tap, last = await teller.told(f"image\t{card.image.hex().upper()}\n{line}\n".encode(), "--image")
    return said({"tap": tap, "image": last["image"]})


def served(key: str) -> web.Application:
    app = web.Application(middlewares=[guard(key)], client_max_size=MOST)
    app.add_routes([
        web.get(f"/{key}/words", get_words),
        web.get(f"/{key}/lesson/{{name}}", get_lesson),
        web.post(f"/{key}/recording", post_recording),
        web.post(f"/{key}/sheet", post_sheet),
        web.post(f"/{key}/forms", post_forms),
        web.post(f"/{key}/request", post_request),
        web.post(f"/{key}/apart", post_apart),
        web.post(f"/{key}/tap", post_tap),
        web.get(f"/{key}/{{name:[a-z.]*}}", get_file),
    ])
    return app
