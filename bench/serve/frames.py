#!/usr/bin/env python3
"""Sends request frames as the DataStax driver writes them to a served node of its own, one by one and then all at once over a second
connection, and compares what each answer says with what it has to say.
Usage: frames.py VECTORS [PORT], where VECTORS is a file with a frame a line, as JSON with its hexadecimal digits under `frame`.
The program is $BIROPUVE, or the one that was built in crates/biropuve."""

import json
import struct
import sys
import tempfile

from native import LEVELS, Connection, Error, Prepared, Ready, Rows, Served, SetKeyspace, Supported, Void

HEAD = """cassandra-script 1
ring 0
rf 1
schema CREATE KEYSPACE ks WITH replication = {'class': 'SimpleStrategy', 'replication_factor': 1}
schema CREATE KEYSPACE other WITH replication = {'class': 'SimpleStrategy', 'replication_factor': 1}
schema CREATE TABLE ks.t (k int PRIMARY KEY, v text)
schema CREATE TABLE ks.u (k int, c int, v text, PRIMARY KEY (k, c))
schema CREATE TABLE ks.p (a int, b text, c int, PRIMARY KEY ((a, b), c)) WITH CLUSTERING ORDER BY (c DESC)
schema CREATE TABLE ks.w (k int PRIMARY KEY, a ascii, b blob, c boolean, d timestamp, e uuid, f timeuuid, g smallint, h tinyint, i bigint)
schema CREATE TABLE other.t (k int PRIMARY KEY, n bigint)
run
"""

# What the frames are answered, in their order.
EXPECTED = """
ready
error 000A startup twice
supported CQL_VERSION 3.4.0, COMPRESSION
ready
error 2500 unprepared id=7762f0f3cb4d764dc7072051159a0f89f2
error 2200 NotSupported
error 2500 unprepared id=c5348adc799adf849bad05d4a10ac0441eaaeeb4b48efa0b1f0abd80e998a35aba5e
error 2200 UnknownTable
error 2200 UnknownTable
error 2500 unprepared id=5d8eae2bb042d7958aedb1d594d6d112d34f6602f4de7110e993ae7422923d7d171165dc19
prepared -: USE ks | .() key [] | -
error 2500 unprepared id=03f9cc198a7f89d8
keyspace ks
error 2500 unprepared id=9bb88761a8db3f4101c2285b15bfebc216dc1bbefea1d7d6eb
error 2500 unprepared id=c037a33402f24978
error 2500 unprepared id=1fa65c277b5c7f
prepared ks: UPDATE t SET v = ? WHERE k = ? IF v = ? | ks.t(v text, k int, v text) key [1] | -
error 2500 unprepared id=89f5
error 2500 unprepared id=2b3c2f879512
error 2200 ValueCount
error 2200 ValueCount
prepared ks: USE ks | .() key [] | -
error 2500 unprepared id=9f5a23365cc8b733888ac41b4515f58a7eb5aacee523b4fe394d8a3339395e
error 2500 unprepared id=f70f61013777fb58eb65636c12e339914e45ef2d
prepared ks: SELECT v FROM ks.t WHERE k = ? LIMIT 3 | ks.t(k int) key [0] | ks.t(v text)
keyspace ks
void
prepared ks: INSERT INTO t (k, v) VALUES (1, 'é') | ks.t() key [] | -
error 2200 ValueCount
error 2200 ValueCount
keyspace ks
error 2500 unprepared id=707b30c7f26154aa
rows ks.t(k int, v text) 00000001 c3a9
error 2500 unprepared id=2d01350f2e095712f61b60a966f4aef5b311c39cc92c965ed33ac7ab
keyspace ks
error 2500 unprepared id=9f38e6296b7b184e49053975936a70d6a360ef5a2815
prepared ks: SELECT * FROM t WHERE k = 1 | ks.t() key [] | ks.t(k int, v text)
error 2500 unprepared id=bad8226d7fb31fab
prepared ks: SELECT * FROM t WHERE k = 1 | ks.t() key [] | ks.t(k int, v text)
error 2200 NotSupported
error 2200 NotSupported
error 2500 unprepared id=0fedbfb7987c0507434c0a54190068eeb5b911
error 2500 unprepared id=d3ac448f08561708
error 2200 NotSupported
error 2200 ValueCount
error 2200 ValueCount
prepared ks: SELECT v FROM ks.t WHERE k = ? LIMIT 3 | ks.t(k int) key [0] | ks.t(v text)
rows ks.t(k int, v text) 00000001 c3a9
error 2200 ValueCount
void
error 1000 unavailable level=THREE required=3 alive=1
error 2500 unprepared id=5a9f61424b184d6d
error 1000 unavailable level=THREE required=3 alive=1
prepared ks: USE ks | .() key [] | -
void
error 2500 unprepared id=975b9955a28867421b1dd15b3a07503ecebf8c2fede1a64a6fa5e9bfa2b7b0ae92988a5d3f71ae
error 1000 unavailable level=TWO required=2 alive=1
prepared ks: INSERT INTO t (k, v) VALUES (1, 'é') | ks.t() key [] | -
error 2500 unprepared id=2bdc0eb3c303fa5e
prepared ks: SELECT v FROM ks.t WHERE k = ? LIMIT 3 | ks.t(k int) key [0] | ks.t(v text)
""".strip().splitlines()

LEVEL_NAMES = {code: name for name, code in LEVELS.items()}


def show_columns(columns):
    if columns is None:
        return "-"
    listed = ", ".join(f"{name} {type_name}" for name, type_name in columns.columns)
    return f"{columns.keyspace}.{columns.table}({listed})"


def show_field(name, field):
    if name == "level":
        return f"{name}={LEVEL_NAMES[field]}"
    return f"{name}={field.hex() if isinstance(field, bytes) else field}"


def show_rows(answer):
    # None of the answers has pages or lacks its columns.
    if answer.paging_state is not None:
        return "rows with a paging state"
    cells = ["null" if cell is None else cell.hex() for row in answer.rows for cell in row]
    return " ".join(["rows", show_columns(answer.columns), *cells])


def show_prepared(answer):
    keyspace, _, statement = answer.id.partition(b"\0")
    return (
        f"prepared {keyspace.decode() or '-'}: {statement.decode()} | {show_columns(answer.variables)}"
        f" key {list(answer.key_indexes)} | {show_columns(answer.result)}"
    )


def show(answer):
    """An answer as a line."""
    match answer:
        case Ready():
            return "ready"
        case Void():
            return "void"
        case SetKeyspace(keyspace):
            return f"keyspace {keyspace}"
        case Supported(options):
            return "supported " + ", ".join(" ".join([name, *texts]) for name, texts in options.items())
        case Error(code, text, fields):
            return " ".join([f"error {code:04X} {text}", *(show_field(*field) for field in fields.items())])
        case Rows():
            return show_rows(answer)
        case Prepared():
            return show_prepared(answer)


def stream_of(frame):
    return struct.unpack(">h", frame[2:4])[0]


def differs(number, frame, stream, answer):
    """Whether an answer is another one than it has to be, which is told."""
    want = f"stream {stream_of(frame)} {EXPECTED[number]}"
    have = f"stream {stream} {show(answer)}"
    if have != want:
        print(f"frame {number + 1}: {frame.hex()}\n  has to be answered {want}\n  is answered        {have}")
    return have != want


def one_by_one(connection, frames):
    wrong = 0
    for number, frame in enumerate(frames):
        connection.socket.sendall(frame)
        wrong += differs(number, frame, *connection.read_answer())
    return wrong


def all_at_once(connection, frames):
    connection.socket.sendall(b"".join(frames))
    return sum(differs(number, frame, *connection.read_answer()) for number, frame in enumerate(frames))


def main(vectors, port="9042"):
    with open(vectors, encoding="utf-8") as lines:
        frames = [bytes.fromhex(json.loads(line)["frame"]) for line in lines]
    if len(frames) != len(EXPECTED):
        sys.exit(f"{len(frames)} frames, of which {len(EXPECTED)} are known")
    wrong = 0
    with tempfile.TemporaryDirectory() as folder, Served(folder, int(port), HEAD) as served:
        for way in (one_by_one, all_at_once):
            with Connection(served.port) as connection:
                count = way(connection, frames)
            print(f"{way.__name__.replace('_', ' ')}: {len(frames)} frames, {len(frames) - count} answered as they have to be")
            wrong += count
        lines, status = served.stop()
    if (lines, status) != (["closed"], 0):
        wrong += 1
        print(f"ended with status {status} and {lines}")
    sys.exit(1 if wrong else 0)


if __name__ == "__main__":
    main(*sys.argv[1:])
