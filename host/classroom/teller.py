"""The words for taps: they come from target/host/lib/teller and from `tap explain`, and so from the library and host/words alone."""

import asyncio
import json
import pathlib

BUILT = pathlib.Path(__file__).resolve().parent.parent.parent / "target" / "host"
PIECE = 1 << 16


async def started(*words: str) -> asyncio.subprocess.Process:
    return await asyncio.create_subprocess_exec(*words, stdin=asyncio.subprocess.PIPE, stdout=asyncio.subprocess.PIPE)


async def feed(process: asyncio.subprocess.Process, recording: bytes):
    """A teller that has found a bad line reads no further."""
    try:
        for at in range(0, len(recording), PIECE):
            process.stdin.write(recording[at : at + PIECE])
            await process.stdin.drain()
        process.stdin.close()
    except ConnectionError:
        pass


async def telling(recording: bytes, *words: str):
    """What the teller prints, piece by piece: an object a line. With --image a card's image stands in the place of the sheet."""
    process = await started(str(BUILT / "lib" / "teller"), *words)
    feeding = asyncio.create_task(feed(process, recording))
    try:
        while piece := await process.stdout.read(PIECE):
            yield piece
        await process.wait()
    finally:
        feeding.cancel()
        if process.returncode is None:
            process.kill()
            await process.wait()


async def told(recording: bytes, *words: str) -> list:
    """The objects, all at once."""
    return [json.loads(line) for line in b"".join([piece async for piece in telling(recording, *words)]).splitlines()]


async def explained(request: bytes) -> list:
    """A request taken apart."""
    process = await started(str(BUILT / "tap"), "explain", "--json", "--request", request.hex())
    said, _ = await process.communicate()
    return json.loads(said)["parts"]
