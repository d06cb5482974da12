"""attack.py PORT COUNT SECONDS SEED KIND..: so many connections at once, each of one of these
kinds, and behind its end another one. It prints, as JSON, how many of each kind there were, and
each reply that wasn't due. hostile.sh has the rest."""
import asyncio
import json
import random
import socket
import ssl
import struct
import sys
import time

HEAD = b'HTTP/1.1 400 Bad Request\r\nAccess-Control-Allow-Origin: *\r\nConnection: close\r\n'
NO_HEAD = HEAD + b'Content-Length: 16\r\nContent-Type: application/json\r\n\r\n{"error":"head"}'
NO_BODY = HEAD + b'Content-Length: 16\r\nContent-Type: application/json\r\n\r\n{"error":"body"}'
PUT = b"PUT /manifests/m1?version=1 HTTP/1.1\r\nHost: a\r\nContent-Length: 1000\r\n\r\n"
# How long a connection waits for a reply and its end.
PATIENCE = 10


def tls_hello():
    """What a client of TLS sends first."""
    context = ssl.create_default_context()
    sent = ssl.MemoryBIO()
    link = context.wrap_bio(ssl.MemoryBIO(), sent, server_hostname="a.example")
    try:
        link.do_handshake()
    except ssl.SSLWantReadError:
        pass
    return sent.read()


HELLO = tls_hello()


async def replied(reader):
    """All that comes up to the end of the connection. A reset is an end too, since it comes where
    the server closed with bytes unread."""
    found = b""
    try:
        while piece := await asyncio.wait_for(reader.read(65536), PATIENCE):
            found += piece
    except ConnectionError:
        pass
    except asyncio.TimeoutError:
        found += b" and no end in time"
    return found


async def send(writer, data):
    """Sends, as far as the other side takes it."""
    try:
        writer.write(data)
        await writer.drain()
    except ConnectionError:
        pass


def half_close(writer):
    try:
        writer.write_eof()
    except OSError:
        pass


def reset(writer):
    """Ends the connection without a word."""
    link = writer.get_extra_info("socket")
    link.setsockopt(socket.SOL_SOCKET, socket.SO_LINGER, struct.pack("ii", 1, 0))
    writer.transport.abort()


async def noise(reader, writer, seeded):
    """Bytes at random. Whatever they are, the reply is none or a refusal."""
    await send(writer, seeded.randbytes(seeded.randrange(1, 4000)))
    half_close(writer)
    found = await replied(reader)
    return found if found not in (b"", NO_HEAD) else None


async def endless(reader, writer, seeded):
    """A head without end, in pieces. The reply may be lost where more was sent than was read."""
    await send(writer, b"GET /changes HTTP/1.1\r\n")
    for at in range(64):
        if reader.at_eof() or writer.is_closing():
            break
        await send(writer, b"A%d: %s\r\n" % (at, b"a" * 1000))
    found = await replied(reader)
    return found if found not in (b"", NO_HEAD) else None


async def cut(reader, writer, seeded):
    """A body that ends before its length."""
    await send(writer, PUT + b"{" * seeded.randrange(0, 999))
    half_close(writer)
    found = await replied(reader)
    return found if found != NO_BODY else None


async def http2(reader, writer, seeded):
    """What a client of HTTP/2 sends first, with empty settings."""
    await send(writer, b"PRI * HTTP/2.0\r\n\r\nSM\r\n\r\n" + bytes([0, 0, 0, 4, 0, 0, 0, 0, 0]))
    half_close(writer)
    found = await replied(reader)
    return found if found not in (b"", NO_HEAD) else None


async def tls(reader, writer, seeded):
    await send(writer, HELLO)
    half_close(writer)
    found = await replied(reader)
    return found if found not in (b"", NO_HEAD) else None


async def cut_off(reader, writer, seeded):
    """A reset in a head, in a body, or while replies are written."""
    whole = b"GET /changes HTTP/1.1\r\nHost: a\r\n\r\n" * seeded.randrange(1, 200)
    await send(writer, seeded.choice([b"GET /chan", PUT + b"{", whole]))
    await asyncio.sleep(seeded.uniform(0, 0.05))
    reset(writer)


async def silent(reader, writer, seeded):
    """Half a head, and then nothing, up to the end of the connection or of the attack."""
    await send(writer, b"GET /changes HTTP/1.1\r\nHost: a\r\nA: ")
    try:
        await asyncio.wait_for(reader.read(), max(0, end - time.monotonic()))
    except (ConnectionError, asyncio.TimeoutError):
        pass


async def slow(reader, writer, seeded):
    """Half a head, or a head and half a body, and then a byte a second."""
    await send(writer, seeded.choice([b"GET /changes HTTP/1.1\r\nHost: a\r\nA: ", PUT]))
    while time.monotonic() < end and not reader.at_eof() and not writer.is_closing():
        await send(writer, b"a")
        await asyncio.sleep(1)


KINDS = {"noise": noise, "endless": endless, "cut": cut, "http2": http2, "tls": tls,
         "cut_off": cut_off, "silent": silent, "slow": slow}


async def attack(port, kinds, seeded, told):
    while time.monotonic() < end:
        kind = seeded.choice(kinds)
        try:
            reader, writer = await asyncio.open_connection("127.0.0.1", port)
        except OSError:
            await asyncio.sleep(0.05)
            continue
        try:
            wrong = await KINDS[kind](reader, writer, seeded)
        finally:
            writer.transport.abort()
        told["counts"][kind] = told["counts"].get(kind, 0) + 1
        if wrong is not None:
            told["wrong"].append([kind, repr(wrong[:400])])


async def main(port, count, seed, kinds):
    told = {"counts": {}, "wrong": []}
    await asyncio.gather(*(attack(port, kinds, random.Random(f"{seed} {at}"), told)
                           for at in range(count)))
    json.dump(told, sys.stdout)


end = time.monotonic() + float(sys.argv[3])
asyncio.run(main(int(sys.argv[1]), int(sys.argv[2]), sys.argv[4], sys.argv[5:]))
