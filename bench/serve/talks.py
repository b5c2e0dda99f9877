#!/usr/bin/env python3
"""Plays the conversations of crates/connection_tests, whose bytes were written by hand, with a served node of its own over TCP: each with
a node that has just begun, request by request, then all of its bytes at once and one by one.
Usage: talks.py [PORT]. The program is $BIROPUVE, or the one that was built in crates/biropuve."""

import re
import struct
import sys
import tempfile
from pathlib import Path

from frames import HEAD
from native import Connection, Served

TESTS = Path(__file__).resolve().parents[2] / "crates/connection_tests/src"

# Those of batches.rt rest on a clock that reads 0.
ALONE = {"requests.rt": "STARTING BODIES STATEMENTS TERMS WRITES PREPARED TYPES", "pages.rt": "PAGES DESCENDING"}


def rows_of(file, name):
    text = (TESTS / file).read_text(encoding="utf-8")
    return re.search(rf'const {name}: &str =\s*"([^"]*)";', text)[1].splitlines()


def word(sign, text):
    """A text with what its sign asks for before it: a length of two bytes or four, or that of its id."""
    text = text.encode()
    if sign == "s":
        return struct.pack(">H", len(text)) + text
    if sign == "l":
        return struct.pack(">i", len(text)) + text
    if sign == "k":
        return struct.pack(">H", len(text) + 3) + b"ks\0" + text
    return text


def side(notation):
    """The bytes that a side of a row stands for: hexadecimal digits, and texts between backquotes."""
    out = b""
    parts = notation.split("`")
    for place, part in enumerate(parts):
        if place % 2:
            out += word(parts[place - 1][-1:], part)
        else:
            out += bytes.fromhex("".join(re.findall("[0-9A-Fa-f]", part)))
    return out


def with_head(version, stream, content):
    return struct.pack(">BBHBi", version, 0, stream, content[0], len(content) - 1) + content[1:]


def requests(rows):
    """Pairs of a request and its answer, as frames."""
    pairs = (map(side, row.split(" => ")) for row in rows)
    return [
        (with_head(0x04, stream, request), with_head(0x84, stream, answer))
        for stream, (request, answer) in enumerate(pairs)
    ]


def frames(rows):
    return [tuple(map(side, row.split(" => "))) for row in rows]


def request_by_request(connection, talk):
    have = b""
    for request, answer in talk:
        connection.socket.sendall(request)
        have += connection.take(len(answer))
    return have


def all_at_once(connection, talk):
    connection.socket.sendall(b"".join(request for request, _ in talk))
    return connection.take(sum(len(answer) for _, answer in talk))


def byte_by_byte(connection, talk):
    for byte in b"".join(request for request, _ in talk):
        connection.socket.sendall(bytes([byte]))
    return connection.take(sum(len(answer) for _, answer in talk))


WAYS = (request_by_request, all_at_once, byte_by_byte)


def first_wrong(talk, have):
    """The first request that is answered otherwise, with its answer."""
    for request, answer in talk:
        if not have.startswith(answer):
            return f"  {request.hex()}\n  has to be answered {answer.hex()}\n  and then came      {have.hex()}"
        have = have[len(answer) :]
    return "  it has to be closed"


def is_well(served, way, name, talk, closes):
    """Whether a conversation goes as it has to."""
    want = b"".join(answer for _, answer in talk)
    with Connection(served.port, timeout=5) as connection:
        try:
            have = way(connection, talk)
            is_closed = closes and connection.socket.recv(1) == b""
        except OSError as error:
            print(f"{name}, {way.__name__.replace('_', ' ')}: {error!r}")
            return False
    well = have == want and is_closed == closes
    if not well:
        print(f"{name}, {way.__name__.replace('_', ' ')}:\n{first_wrong(talk, have)}")
    return well


def play(port, way, talks):
    """How many conversations, one behind another, with a node that has just begun don't go as they have to."""
    with tempfile.TemporaryDirectory() as folder, Served(folder, port, HEAD) as served:
        wrong = [talk for talk in talks if not is_well(served, way, *talk)]
        ended = served.stop()
    if ended != (["closed"], 0):
        print(f"the node ended with {ended}")
    return len(wrong) + (ended != (["closed"], 0))


def main(port="9042"):
    groups = [
        [(name, requests(rows_of(file, name)), False)] for file, names in ALONE.items() for name in names.split()
    ]
    second, third = (requests(rows_of("connections.rt", name)) for name in ("SECOND", "THIRD"))
    groups.append([("FLAGS", frames(rows_of("faults.rt", "FLAGS")), False)])
    groups.append(
        [("USUAL", frames(rows_of("usual.rt", "USUAL")), True), ("SECOND", second, False), ("THIRD", third, False)]
    )
    wrong = sum(play(int(port), way, talks) for way in WAYS for talks in groups)
    print(f"{len(WAYS) * sum(map(len, groups))} conversations, {wrong} of them otherwise than they have to be")
    sys.exit(1 if wrong else 0)


if __name__ == "__main__":
    main(*sys.argv[1:])
