#!/usr/bin/env python3
"""Three served nodes over a folder, of which sixteen clients ask writes at QUORUM, are killed with SIGKILL at a random moment and started
again over the same folder. Each acknowledged write is then read at QUORUM, at another node than the one that was asked to write, and
compared. While the first process runs, a second one over the same folder has to be refused.
Usage: kill.py FOLDER [SECONDS [PORT]]. The folder has to be empty or missing. Status 1 where anything is lost or else wrong.
The program is $BIROPUVE, or the one that was built in crates/biropuve."""

import random
import sys
import threading
import time

from native import NotServing, Refused, Served

HEAD = """cassandra-script 1
ring -3000000000000000000 0 3000000000000000000
rf 3
schema CREATE KEYSPACE bench WITH replication = {'class': 'SimpleStrategy', 'replication_factor': 3}
schema CREATE TABLE bench.kept (part text, number int, content text, PRIMARY KEY (part, number))
run
"""

CLIENTS = 16
# How often a read that is refused is made.
TRIES = 5
WRITE = "INSERT INTO bench.kept (part, number, content) VALUES (?, ?, ?)"
READ = "SELECT content FROM bench.kept WHERE part = ? AND number = ?"


def part(client, number):
    # A partition has rows of one client, a hundred at most.
    return f"client {client} part {number // 100}"


def content(client, number):
    return f"row {number} of client {client} ".ljust(100, "=")


def told(refused):
    """A refusal in a few words."""
    return f"{refused.error.text} {refused.error.fields or ''}".strip()


class Client(threading.Thread):
    """Writes rows of its own until the nodes are gone, and later reads them."""

    def __init__(self, served, number, is_killed):
        super().__init__(daemon=True)
        self.served = served
        self.number = number
        self.is_killed = is_killed
        self.acknowledged = []
        self.unanswered = []
        self.refusals = []
        self.trouble = None

    def run(self):
        try:
            with self.served.connect(self.number % self.served.nodes) as connection:
                self.write_rows(connection)
        except Exception as error:
            if not (self.is_killed.is_set() and isinstance(error, OSError)):
                self.trouble = error

    def write_rows(self, connection):
        prepared = connection.prepare(WRITE)
        number = 0
        while True:
            self.unanswered.append(number)
            try:
                connection.execute(prepared, [part(self.number, number), number, content(self.number, number)], "QUORUM")
                self.acknowledged.append(self.unanswered.pop())
            except Refused as refused:
                self.refusals.append(told(refused))
            number += 1


class Reader(threading.Thread):
    """Reads the rows that a client wrote."""

    def __init__(self, served, client):
        super().__init__(daemon=True)
        self.served = served
        self.client = client
        self.read = 0
        self.lost = []
        self.there = 0
        self.refusals = []
        self.trouble = None

    def run(self):
        try:
            with self.served.connect((self.client.number + 1) % self.served.nodes) as connection:
                self.read_rows(connection)
        except Exception as error:
            self.trouble = error

    def read_rows(self, connection):
        prepared = connection.prepare(READ)
        for number in self.client.acknowledged:
            rows = self.look(connection, prepared, number)
            self.read += 1
            if rows != [(content(self.client.number, number),)]:
                self.lost.append((self.client.number, number, rows))
        for number in self.client.unanswered:
            rows = self.look(connection, prepared, number)
            if rows:
                self.there += 1
            # It may show or not, but nothing else than what was asked.
            if rows not in ([], [(content(self.client.number, number),)]):
                self.lost.append((self.client.number, number, rows))

    def look(self, connection, prepared, number):
        for _ in range(TRIES):
            try:
                return connection.execute(prepared, [part(self.client.number, number), number], "QUORUM").values()
            except Refused as refused:
                self.refusals.append(told(refused))
        raise RuntimeError(f"row {number} was not read: {self.refusals[-1]}")


def second_is_refused(folder, port):
    """Whether a second process over the folder is refused."""
    try:
        with Served(folder, port, HEAD):
            print("second process: it serves")
            return False
    except NotServing as refused:
        print(f"second process: status {refused.status}, {' / '.join(refused.lines)}")
        return refused.status not in (None, 0)


def write_until_killed(folder, port, seconds):
    """The clients, and what went wrong."""
    wrong = []
    with Served(folder, port, HEAD) as served:
        if not second_is_refused(folder, port + 10):
            wrong.append("a second process was not refused")
        is_killed = threading.Event()
        clients = [Client(served, number, is_killed) for number in range(CLIENTS)]
        for client in clients:
            client.start()
        moment = random.uniform(seconds / 10, seconds)
        time.sleep(moment)
        is_killed.set()
        status = served.kill()
        print(f"killed after {moment:.3f} s")
        if status != -9:
            wrong.append(f"the program ended before with status {status}: {served.rest()}")
    for client in clients:
        client.join()
        if client.trouble:
            wrong.append(f"client {client.number}: {client.trouble!r}")
    return clients, wrong


def read_again(folder, port, clients):
    """The readers, and what went wrong."""
    began = time.monotonic()
    with Served(folder, port, HEAD) as served:
        print(f"serves again after {time.monotonic() - began:.3f} s")
        readers = [Reader(served, client) for client in clients]
        for reader in readers:
            reader.start()
        for reader in readers:
            reader.join()
        wrong = [f"reader {reader.client.number}: {reader.trouble!r}" for reader in readers if reader.trouble]
        ended = served.stop()
    if ended != (["closed"], 0):
        wrong.append(f"it ended with {ended}")
    return readers, wrong


def main(folder, seconds="10", port="9042"):
    clients, wrong = write_until_killed(folder, int(port), float(seconds))
    readers, more = read_again(folder, int(port), clients)
    wrong += more
    acknowledged = sum(len(client.acknowledged) for client in clients)
    unanswered = sum(len(client.unanswered) for client in clients)
    refusals = [refusal for thread in [*clients, *readers] for refusal in thread.refusals]
    read = sum(reader.read for reader in readers)
    lost = [row for reader in readers for row in reader.lost]
    there = sum(reader.there for reader in readers)
    print(f"acknowledged {acknowledged}, read {read}, lost {len(lost)}")
    print(f"without an acknowledgement {unanswered}, of which {there} are there")
    for refusal in sorted(set(refusals)):
        print(f"refused {refusals.count(refusal)} times: {refusal}")
    for row in lost[:10]:
        print("lost: client %s, row %s, found %s" % row)
    if acknowledged == 0:
        wrong.append("nothing was acknowledged")
    for text in wrong:
        print(text)
    sys.exit(1 if wrong or lost or read != acknowledged else 0)


if __name__ == "__main__":
    main(*sys.argv[1:])
