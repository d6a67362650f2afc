#!/usr/bin/python3
"""The lesson view as one file that needs nothing else: onefile.py RECORDING > PAGE.html. Beside the recording may stand its page."""

import asyncio
import base64
import hashlib
import html
import json
import pathlib
import re
import sys

sys.path.insert(0, str(pathlib.Path(__file__).resolve().parent.parent / "python"))

import checks
import lessons
import teller

WEB = pathlib.Path(__file__).resolve().parent / "web"
# The modules of the lesson view, each behind those that it takes something from.
MODULES = ("dom.js", "parts.js", "plots.js", "board.js", "guess.js", "lesson.js", "alone.js")
PAGE = """<!doctype html>
<html lang="en">
<head>
<meta charset="utf-8">
<meta name="viewport" content="width=device-width, initial-scale=1">
<meta http-equiv="Content-Security-Policy" content="default-src 'none'; style-src {style_hash}; script-src {script_hash}; base-uri 'none'; form-action 'none'">
<title>{title}</title>
<style>{style}</style>
</head>
<body>
<main id="view"></main>
<noscript>This page is stepped through by a script, and the browser has those switched off.</noscript>
<script type="application/json" id="told">{told}</script>
<script type="module">{script}</script>
</body>
</html>"""


def joined() -> str:
    """The modules as one: what one gives another needs neither be asked for nor be handed out."""
    source = "\n".join((WEB / name).read_text() for name in MODULES)
    return re.sub(r"^export ", "", re.sub(r"^import [^;]*;\n", "", source, flags=re.MULTILINE), flags=re.MULTILINE)


def hashed(text: str) -> str:
    return f"'sha256-{base64.b64encode(hashlib.sha256(text.encode()).digest()).decode()}'"


def page(recording: pathlib.Path, objects: list) -> str:
    said = lessons.page_of(recording)
    style, script = (WEB / "style.css").read_text(), joined()
    told = json.dumps({"checks": checks.CHECKS, "objects": [{"page": said}, *objects]}, separators=(",", ":"))
    return PAGE.format(title=html.escape(said["title"]), style=style, script=script, style_hash=hashed(style), script_hash=hashed(script),
                       told=told.replace("<", "\\u003c"))


def main(path: str):
    recording = pathlib.Path(path)
    objects = asyncio.run(teller.told(recording.read_bytes()))
    last = objects[-1]
    if "line" in last:
        print(f"classroom: {path}: line {last['line']} is bad: {last['reason']}", file=sys.stderr)
        sys.exit(1)
    sys.stdout.write(page(recording, objects))


main(sys.argv[1])
