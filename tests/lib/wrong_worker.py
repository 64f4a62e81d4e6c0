#!/usr/bin/env python3
"""A worker that does what a worker must not, for `tests/beside/wrong_scripts`.

    wrong_worker.py ADDRESS NAME PASSWORD

It sends what its commands print without an end, keeps as much of it in its memory, and closes its
connection at once where it is told to shut down.
"""

import asyncio
import sys

sys.dont_write_bytecode = True
import wire

# Each of so many updates has so many bytes. It keeps so many of them.
UPDATES, TEXT = 64, "n\n" * 8_000
KEPT_BYTES = 100_000_000


async def says(link, number, command, args):
    await link.send(wire.packed({"seq_number": number, "op": "update", "command_id": command, "args": args}))


async def work(address, name, password):
    link, kept = await wire.connected(address), bytearray(KEPT_BYTES)
    await link.send(wire.packed({"seq_number": 0, "op": "auth", "username": name, "password": password, "session": "a session"}))
    await link.recv()
    number = 0
    while True:
        message = wire.unpacked(await link.recv())
        if message["op"] == "shutdown":
            await link.close()
            return 0
        if message["op"] != "start_command":
            continue
        await link.send(wire.packed({"seq_number": message["seq_number"], "op": "response", "result": None}))
        is_short = message["args"]["command"][0] == "sh"
        for text in ["said\n"] if is_short else [TEXT] * UPDATES:
            kept[number] = 1
            await says(link, number, message["command_id"], [["stdout", text]])
            number += 1


if __name__ == "__main__":
    sys.exit(asyncio.run(work(*sys.argv[1:])))
