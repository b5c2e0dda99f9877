"""The native protocol of CQL, version 4, spoken by hand: requests, answers and a connection over a socket; and the program that
answers, started with its console. Standard library alone."""

import os
import queue
import signal
import socket
import struct
import subprocess
import threading
from pathlib import Path
from typing import NamedTuple

STARTUP, OPTIONS, QUERY, PREPARE, EXECUTE, REGISTER, BATCH = 0x01, 0x05, 0x07, 0x09, 0x0A, 0x0B, 0x0D
ERROR, READY, SUPPORTED, RESULT = 0x00, 0x02, 0x06, 0x08

LEVELS = {
    name: code
    for code, name in enumerate(
        "ANY ONE TWO THREE QUORUM ALL LOCAL_QUORUM EACH_QUORUM SERIAL LOCAL_SERIAL LOCAL_ONE".split()
    )
}

TYPES = {
    0x01: "ascii",
    0x02: "bigint",
    0x03: "blob",
    0x04: "boolean",
    0x09: "int",
    0x0B: "timestamp",
    0x0C: "uuid",
    0x0D: "text",
    0x0F: "timeuuid",
    0x13: "smallint",
    0x14: "tinyint",
}

INTEGERS = {"bigint": ">q", "timestamp": ">q", "int": ">i", "smallint": ">h", "tinyint": ">b"}

# A value that leaves a column as it is.
NOT_SET = object()


class BadAnswer(Exception):
    """Bytes that are no answer to what was asked."""


class Refused(Exception):
    """An error that a request was answered with."""

    def __init__(self, error):
        super().__init__(f"{error.code:04X} {error.text} {error.fields}")
        self.error = error


class Ready(NamedTuple):
    pass


class Supported(NamedTuple):
    options: dict


class Void(NamedTuple):
    pass


class SetKeyspace(NamedTuple):
    keyspace: str


class Columns(NamedTuple):
    keyspace: str
    table: str
    # Pairs of a name and a type.
    columns: tuple


class Rows(NamedTuple):
    # None where the request asked for no metadata.
    columns: Columns | None
    # A row is a tuple of bytes, or None for null.
    rows: tuple
    paging_state: bytes | None

    def values(self):
        """The rows with their values by type, where the columns are told."""
        types = [type_name for _, type_name in self.columns.columns]
        return [tuple(map(decode_value, types, row)) for row in self.rows]


class Prepared(NamedTuple):
    id: bytes
    variables: Columns
    key_indexes: tuple
    # None for a statement without rows.
    result: Columns | None


class Error(NamedTuple):
    code: int
    text: str
    fields: dict


def string(text):
    word = text.encode()
    return struct.pack(">H", len(word)) + word


def long_string(text):
    word = text.encode()
    return struct.pack(">i", len(word)) + word


def short_bytes(word):
    return struct.pack(">H", len(word)) + word


def value(word):
    if word is None:
        return struct.pack(">i", -1)
    if word is NOT_SET:
        return struct.pack(">i", -2)
    word = word.encode() if isinstance(word, str) else word
    return struct.pack(">i", len(word)) + word


def encode_value(type_name, thing):
    """A value of Python as one of this type. Bytes stand for themselves."""
    if thing is None or thing is NOT_SET or isinstance(thing, bytes):
        return thing
    if type_name in INTEGERS:
        return struct.pack(INTEGERS[type_name], thing)
    if type_name == "boolean":
        return bytes([thing])
    return thing.encode()


def decode_value(type_name, word):
    if word is None:
        return None
    if type_name in INTEGERS:
        return struct.unpack(INTEGERS[type_name], word)[0]
    if type_name == "boolean":
        return word != b"\0"
    return word.decode() if type_name in ("text", "ascii") else word


def frame(opcode, stream, body):
    return struct.pack(">BBhBi", 4, 0, stream, opcode, len(body)) + body


def startup_body():
    return struct.pack(">H", 1) + string("CQL_VERSION") + string("3.4.0")


def parameters(level, values=(), page_size=None, paging_state=None, timestamp=None, skip_metadata=False):
    """What stands behind a statement or its id: the level, flags, and the parts that these announce."""
    flags, parts = 0, b""
    if values:
        flags |= 0x01
        parts += struct.pack(">H", len(values)) + b"".join(map(value, values))
    if skip_metadata:
        flags |= 0x02
    if page_size is not None:
        flags |= 0x04
        parts += struct.pack(">i", page_size)
    if paging_state is not None:
        flags |= 0x08
        parts += value(paging_state)
    if timestamp is not None:
        flags |= 0x20
        parts += struct.pack(">q", timestamp)
    return struct.pack(">HB", LEVELS[level], flags) + parts


class Reading:
    """A body that is read from its front."""

    def __init__(self, body):
        self.body = body
        self.at = 0

    def take(self, length):
        piece = self.body[self.at : self.at + length]
        if length < 0 or len(piece) < length:
            raise BadAnswer(f"short body: {self.body.hex()}")
        self.at += length
        return piece

    def number(self, form):
        return struct.unpack(form, self.take(struct.calcsize(form)))[0]

    def byte(self):
        return self.number(">B")

    def short(self):
        return self.number(">H")

    def int(self):
        return self.number(">i")

    def string(self):
        return self.take(self.short()).decode()

    def short_bytes(self):
        return self.take(self.short())

    def bytes(self):
        length = self.int()
        return None if length < 0 else self.take(length)

    def end(self):
        if self.at != len(self.body):
            raise BadAnswer(f"trailing bytes: {self.body.hex()}")


def read_columns(body, count):
    keyspace, table = body.string(), body.string()
    return Columns(keyspace, table, tuple((body.string(), TYPES[body.short()]) for _ in range(count)))


def read_rows_metadata(body):
    """The columns or None, how many there are, and the paging state."""
    flags, count = body.int(), body.int()
    paging_state = body.bytes() if flags & 2 else None
    if flags & 4:
        return None, count, paging_state
    if not flags & 1:
        raise BadAnswer("metadata without one table")
    return read_columns(body, count), count, paging_state


def read_rows(body):
    columns, count, paging_state = read_rows_metadata(body)
    rows = tuple(tuple(body.bytes() for _ in range(count)) for _ in range(body.int()))
    return Rows(columns, rows, paging_state)


def read_prepared(body):
    name = body.short_bytes()
    if body.int() != 1:
        raise BadAnswer("variables without one table")
    count = body.int()
    key_indexes = tuple(body.short() for _ in range(body.int()))
    variables = read_columns(body, count)
    result, _, _ = read_rows_metadata(body)
    return Prepared(name, variables, key_indexes, result)


def read_result(body):
    kind = body.int()
    if kind == 1:
        return Void()
    if kind == 2:
        return read_rows(body)
    if kind == 3:
        return SetKeyspace(body.string())
    if kind == 4:
        return read_prepared(body)
    raise BadAnswer(f"result of kind {kind}")


def read_error(body):
    code, text, fields = body.int(), body.string(), {}
    if code == 0x1000:
        fields = {"level": body.short(), "required": body.int(), "alive": body.int()}
    elif code == 0x1100:
        fields = {"level": body.short(), "received": body.int(), "blockfor": body.int(), "kind": body.string()}
    elif code == 0x1200:
        fields = {"level": body.short(), "received": body.int(), "blockfor": body.int(), "data": body.byte()}
    elif code == 0x2500:
        fields = {"id": body.short_bytes()}
    return Error(code, text, fields)


def read_supported(body):
    options = {}
    for _ in range(body.short()):
        name = body.string()
        options[name] = [body.string() for _ in range(body.short())]
    return Supported(options)


def decode(opcode, bytes_of_body):
    """What an answer says."""
    body = Reading(bytes_of_body)
    if opcode == ERROR:
        answer = read_error(body)
    elif opcode == READY:
        answer = Ready()
    elif opcode == SUPPORTED:
        answer = read_supported(body)
    elif opcode == RESULT:
        answer = read_result(body)
    else:
        raise BadAnswer(f"opcode {opcode:02X}")
    body.end()
    return answer


class Connection:
    """A connection to a node. One request waits at a time."""

    def __init__(self, port, host="127.0.0.1", timeout=20):
        self.socket = socket.create_connection((host, port), timeout)
        self.socket.setsockopt(socket.IPPROTO_TCP, socket.TCP_NODELAY, 1)
        self.stream = 0

    def __enter__(self):
        return self

    def __exit__(self, *_):
        self.close()

    def close(self):
        self.socket.close()

    def take(self, length):
        piece = b""
        while len(piece) < length:
            more = self.socket.recv(length - len(piece))
            if not more:
                raise ConnectionResetError("the node ended the connection")
            piece += more
        return piece

    def read_answer(self):
        """The stream of the next frame, and what it says."""
        version, flags, stream, opcode, length = struct.unpack(">BBhBi", self.take(9))
        if version != 0x84 or flags != 0 or length < 0:
            raise BadAnswer(f"version {version:02X}, flags {flags:02X}, length {length}")
        return stream, decode(opcode, self.take(length))

    def ask(self, opcode, body=b""):
        self.stream = (self.stream + 1) % 0x8000
        self.socket.sendall(frame(opcode, self.stream, body))
        stream, answer = self.read_answer()
        if stream != self.stream:
            raise BadAnswer(f"stream {stream} in place of {self.stream}")
        return answer

    def ask_well(self, opcode, body=b""):
        answer = self.ask(opcode, body)
        if isinstance(answer, Error):
            raise Refused(answer)
        return answer

    def start(self):
        self.ask_well(STARTUP, startup_body())
        return self

    def query(self, statement, level="ONE", values=(), **options):
        return self.ask_well(QUERY, long_string(statement) + parameters(level, values, **options))

    def prepare(self, statement):
        return self.ask_well(PREPARE, long_string(statement))

    def execute(self, prepared, values=(), level="ONE", **options):
        types = [type_name for _, type_name in prepared.variables.columns]
        words = list(map(encode_value, types, values))
        return self.ask_well(EXECUTE, short_bytes(prepared.id) + parameters(level, words, **options))


class NotServing(Exception):
    """The program ended before it listened, or said something else."""

    def __init__(self, status, lines):
        super().__init__(f"status {status}, {lines}")
        self.status = status
        self.lines = lines


def program():
    """The program's path: $BIROPUVE, or the one that was built here."""
    built = Path(__file__).resolve().parents[2] / "crates/biropuve/out/biropuve"
    return os.environ.get("BIROPUVE", str(built))


def ring_of(head):
    """How many nodes a head has."""
    for line in head.splitlines():
        words = line.split()
        if words[:1] == ["ring"]:
            return len(words) - 1
    raise ValueError("a head without a ring")


class Served:
    """The program over a folder, with its nodes on ports from this one on. It is killed at the end, unless it was stopped."""

    def __init__(self, folder, port, head, timeout=60):
        self.port = port
        self.nodes = ring_of(head)
        self.timeout = timeout
        self.lines = queue.Queue()
        self.process = subprocess.Popen(
            [program(), "serve", str(folder), str(port)],
            stdin=subprocess.PIPE,
            stdout=subprocess.PIPE,
            text=True,
        )
        self.reader = threading.Thread(target=self.read_lines, daemon=True)
        self.reader.start()
        try:
            self.write(head)
            self.listen()
        except BaseException:
            self.kill()
            raise

    def read_lines(self):
        for line in self.process.stdout:
            self.lines.put(line.rstrip("\n"))
        self.lines.put(None)

    def write(self, text):
        # One that has ended tells why on its output.
        try:
            self.process.stdin.write(text)
            self.process.stdin.flush()
        except BrokenPipeError:
            pass

    def line(self):
        """The next line that the program prints, or None at the end."""
        try:
            return self.lines.get(timeout=self.timeout)
        except queue.Empty:
            raise NotServing(self.process.poll(), [f"nothing for {self.timeout} s"]) from None

    def rest(self):
        lines = []
        while (line := self.line()) is not None:
            lines.append(line)
        return lines

    def listen(self):
        for node in range(self.nodes):
            line = self.line()
            if line != f"listening {node} {self.port + node}":
                lines = [] if line is None else [line, *self.rest()]
                raise NotServing(self.process.wait(self.timeout), lines)

    def __enter__(self):
        return self

    def __exit__(self, *_):
        self.kill()

    def connect(self, node=0, **options):
        return Connection(self.port + node, **options).start()

    def tell(self, line):
        """What the console answers to a line."""
        self.write(line + "\n")
        return self.line()

    def stop(self):
        """The lines that are left and the status."""
        self.write("stop\n")
        lines = self.rest()
        return lines, self.process.wait(self.timeout)

    def kill(self):
        """The status of a process that was killed, by SIGKILL unless it has ended."""
        if self.process.poll() is None:
            self.process.send_signal(signal.SIGKILL)
        status = self.process.wait()
        # What is left to be written has nobody to read it.
        try:
            self.process.stdin.close()
        except BrokenPipeError:
            pass
        self.reader.join(self.timeout)
        return status
