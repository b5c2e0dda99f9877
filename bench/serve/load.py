#!/usr/bin/env python3
"""Writes and reads by one and by sixteen clients over loopback: of served nodes, and of etcd, PostgreSQL and Redis, each of which syncs a
write before it acknowledges it. The same generator, load.rs, asks all of them, of rows of 100 bytes. Beside these stands what two plain
syncs take on the same disk.
All are asked in turns, and the turn with the median rate counts.
Usage: load.py GENERATOR FOLDER [TURNS [SECONDS [PORT [SYSTEM..]]]], where systems are `syncs`, `three`, `one`, `etcd`, `etcd3`, `postgres`
and `redis`. The program is $BIROPUVE, or the one that was built in crates/biropuve."""

import os
import shutil
import socket
import subprocess
import sys
import time
from contextlib import ExitStack, contextmanager
from itertools import product
from pathlib import Path

from native import Served

CLIENTS = (1, 16)
KEYS = 1000
# A node's history takes 400,000 steps, and a request takes some five of its node. The nodes are started anew for each figure.
MOST = 40_000
TABLE = "schema CREATE TABLE bench.kv (k text PRIMARY KEY, v text)"
KEYSPACE = "schema CREATE KEYSPACE bench WITH replication = {{'class': 'SimpleStrategy', 'replication_factor': {}}}"


def head(tokens):
    ring = " ".join(["ring", *tokens])
    count = len(tokens)
    return "\n".join(["cassandra-script 1", ring, f"rf {count}", KEYSPACE.format(count), TABLE, "run", ""])


def started(words, ports, **options):
    """A server that takes connections at each port."""
    process = subprocess.Popen(words, stdout=subprocess.DEVNULL, stderr=subprocess.DEVNULL, **options)
    end = time.monotonic() + 30
    for port in ports:
        while process.poll() is None and time.monotonic() < end:
            try:
                socket.create_connection(("127.0.0.1", port), 1).close()
                break
            except OSError:
                time.sleep(0.05)
        else:
            process.kill()
            raise RuntimeError(f"{words[0]} takes no connections: status {process.wait()}")
    return process


def stopped(processes):
    for process in processes:
        process.terminate()
    for process in processes:
        process.wait(30)


class Nodes:
    """Served nodes."""

    anew = True

    def __init__(self, name, tokens, levels):
        self.name = name
        self.head = head(tokens)
        self.ways = [(f"{name}, {level}", level.lower()) for level in levels]

    @contextmanager
    def running(self, folder, port):
        with Served(folder / "nodes", port, self.head) as served:
            yield [port + node for node in range(served.nodes)]
            ended = served.stop()
            if ended != (["closed"], 0):
                raise RuntimeError(f"the nodes ended with {ended}")


class Etcd:
    """etcd of so many members."""

    anew = False

    def __init__(self, name, members):
        self.members = members
        self.ways = [(name, "etcd")]

    @contextmanager
    def running(self, folder, port):
        ports = [port + 2 * number for number in range(self.members)]
        cluster = ",".join(f"m{number}=http://127.0.0.1:{port + 1}" for number, port in enumerate(ports))
        processes = []
        try:
            for number, client in enumerate(ports):
                here, peers = f"http://127.0.0.1:{client}", f"http://127.0.0.1:{client + 1}"
                words = ["etcd", "--name", f"m{number}", "--data-dir", folder / f"m{number}", "--initial-cluster", cluster]
                words += ["--listen-client-urls", here, "--advertise-client-urls", here]
                words += ["--listen-peer-urls", peers, "--initial-advertise-peer-urls", peers]
                # It takes clients once all members are there.
                last = number == self.members - 1
                processes.append(started(words, ports if last else []))
            yield ports
        finally:
            stopped(processes)


class Postgres:
    anew = False
    ways = [("PostgreSQL", "postgres")]

    @contextmanager
    def running(self, folder, port):
        programs = sorted(Path("/usr/lib/postgresql").glob("*/bin"))[-1]
        # It doesn't run as root.
        options = {"user": "postgres", "group": "postgres", "cwd": "/"} if os.geteuid() == 0 else {}
        if options:
            shutil.chown(folder, "postgres", "postgres")
        data = folder / "data"
        if not data.exists():
            words = [programs / "initdb", "-D", data, "-U", "postgres", "-A", "trust"]
            subprocess.run(words, check=True, stdout=subprocess.DEVNULL, **options)
        words = [programs / "postgres", "-D", data, "-p", str(port), "-k", data, "-h", "127.0.0.1"]
        words += ["-c", "fsync=on", "-c", "synchronous_commit=on"]
        process = started(words, [port], **options)
        try:
            statement = "CREATE TABLE IF NOT EXISTS kv (k text PRIMARY KEY, v text)"
            words = ["psql", "-q", "-h", "127.0.0.1", "-p", str(port), "-U", "postgres", "-c", statement]
            subprocess.run(words, check=True, stderr=subprocess.DEVNULL)
            yield [port]
        finally:
            # At once, without waiting for clients.
            process.send_signal(2)
            process.wait(30)


class Redis:
    anew = False
    ways = [("Redis", "redis")]

    @contextmanager
    def running(self, folder, port):
        words = ["redis-server", "--port", str(port), "--bind", "127.0.0.1", "--dir", folder, "--save", ""]
        process = started(words + ["--appendonly", "yes", "--appendfsync", "always"], [port])
        try:
            yield [port]
        finally:
            stopped([process])


SYSTEMS = {
    "three": Nodes("three nodes", ["-3000000000000000000", "0", "3000000000000000000"], ["ONE", "QUORUM"]),
    "one": Nodes("one node", ["0"], ["ONE"]),
    "etcd": Etcd("etcd", 1),
    "etcd3": Etcd("etcd, three members", 3),
    "postgres": Postgres(),
    "redis": Redis(),
}


def figures(words):
    """What the generator prints: how many, others, a second, and the milliseconds of the median and the 99th percentile."""
    told = subprocess.run([str(word) for word in words], check=True, capture_output=True, text=True).stdout
    count, others, elapsed, median, high = map(int, told.split())
    return count, others, count / elapsed * 1e9, median / 1e6, high / 1e6


def fill(generator, way, ports):
    told = figures([generator, way, "fill", 16, 0, 0, KEYS, *ports])
    if told[0] != KEYS:
        raise RuntimeError(f"{way}: {told[0]} of {KEYS} keys were written")


def measure(generator, system, folder, port, seconds):
    """Figures by name, request and number of clients."""
    folder.mkdir()
    told = {}
    for name, way in system.ways:
        with ExitStack() as stack:
            ports = stack.enter_context(system.running(folder, port))
            fill(generator, way, ports)
            for operation, clients in product(("write", "read"), CLIENTS):
                if system.anew:
                    stack.close()
                    ports = stack.enter_context(system.running(folder, port))
                words = [generator, way, operation, clients, seconds, MOST, KEYS, *ports]
                told[name, operation, clients] = figures(words)
    shutil.rmtree(folder)
    return told


def measure_syncs(generator, folder, seconds):
    # As much twice, and as the log of a node keeps an entry: the entry, and then the byte that opens its gate.
    told = {}
    for name, lengths in (("two syncs of 200 bytes", (200, 200)), ("a sync of 200 bytes, and of 1", (200, 1))):
        told[name, "", 1] = figures([generator, "syncs", folder / "file", seconds, *lengths])
    (folder / "file").unlink()
    return told


def print_table(turns):
    print("| system | request | clients | a second | median, ms | 99th percentile, ms | answered well | others |")
    print("|---|---|---|---|---|---|---|---|")
    for row in turns[0]:
        by_rate = sorted((told[row] for told in turns), key=lambda figures: figures[2])
        count, others, rate, median, high = by_rate[len(by_rate) // 2]
        name, operation, clients = row
        print(f"| {name} | {operation} | {clients} | {rate:,.0f} | {median:.2f} | {high:.2f} | {count:,} | {others:,} |")


def main(generator, folder, turns="3", seconds="3", port="9042", *names):
    folder = Path(folder)
    told = []
    for turn in range(int(turns)):
        told.append({})
        for name in names or ("syncs", *SYSTEMS):
            print(f"turn {turn + 1}: {name}", file=sys.stderr)
            if name == "syncs":
                told[-1].update(measure_syncs(generator, folder, float(seconds)))
            else:
                told[-1].update(measure(generator, SYSTEMS[name], folder / name, int(port), float(seconds)))
    print_table(told)
    others = sum(figures[1] for turn in told for figures in turn.values())
    if others:
        sys.exit(f"{others} requests were not answered well")


if __name__ == "__main__":
    main(*sys.argv[1:])
