#!/usr/bin/env python3
"""A line to another machine: delay.py PORT TO-PORT MILLISECONDS

Listens at 127.0.0.1:PORT, and hands on to 127.0.0.1:TO-PORT what comes, later by half of the time
in each direction. A connection takes a whole round before it says anything. What is under way at
the same time isn't late for that. A signal USR1 ends all connections."""
import asyncio
import signal
import sys

PORT, TO = int(sys.argv[1]), int(sys.argv[2])
ROUND = float(sys.argv[3]) / 1000
lines: set[asyncio.StreamWriter] = set()


async def carry(reader: asyncio.StreamReader, writer: asyncio.StreamWriter) -> None:
    loop = asyncio.get_running_loop()
    late: asyncio.Queue[tuple[float, bytes]] = asyncio.Queue()

    async def write() -> None:
        while True:
            due, data = await late.get()
            await asyncio.sleep(max(0.0, due - loop.time()))
            if not data:
                writer.close()
                return
            writer.write(data)
            await writer.drain()
    writing = asyncio.create_task(write())
    try:
        while data := await reader.read(65536):
            late.put_nowait((loop.time() + ROUND / 2, data))
    except OSError:
        pass
    late.put_nowait((loop.time() + ROUND / 2, b""))
    await asyncio.gather(writing, return_exceptions=True)


async def connect(reader: asyncio.StreamReader, writer: asyncio.StreamWriter) -> None:
    lines.add(writer)
    await asyncio.sleep(ROUND)
    there, back = await asyncio.open_connection("127.0.0.1", TO)
    lines.add(back)
    await asyncio.gather(carry(reader, back), carry(there, writer))
    lines.difference_update((writer, back))


def end_all() -> None:
    for line in list(lines):
        line.transport.abort()
    lines.clear()


async def main() -> None:
    server = await asyncio.start_server(connect, "127.0.0.1", PORT)
    asyncio.get_running_loop().add_signal_handler(signal.SIGUSR1, end_all)
    print("listening", flush=True)
    await server.serve_forever()


asyncio.run(main())
