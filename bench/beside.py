"""The same clicks by other programs, and what the disk gives: what bench/join.py prints beside `photon`. Each gives clicks a second and pairs."""
import base64
import concurrent.futures
import http.client
import json
import os
import socket
import subprocess
import tempfile
import threading
import time

from shared import run

LONGEST = 20  # seconds that etcd is given at most

TABLES = """PRAGMA journal_mode=WAL;
PRAGMA synchronous=FULL;
CREATE TABLE query (id TEXT PRIMARY KEY, text TEXT) WITHOUT ROWID;
CREATE TABLE pair (click TEXT PRIMARY KEY, query TEXT, text TEXT, words TEXT) WITHOUT ROWID;
BEGIN;
"""

HASH_JOIN = r"""NR == FNR { words[$1] = substr($0, length($1) + 2); next }
$2 in words && !($1 in done) { done[$1]; print "J", $0 "\t" words[$2] }"""


def lines_of(path, parts):
    """The lines of a log, each as its parts."""
    with open(path, encoding="ascii") as file:
        for line in file:
            yield line.rstrip("\n").split(" ", parts - 1)


def sqlite(folder, logs, lines):
    """One site in sqlite3: a transaction a click with the query looked up in it."""
    script = os.path.join(folder, "script")
    with open(script, "w", encoding="ascii") as file:
        file.write(TABLES)
        file.writelines(f"INSERT OR IGNORE INTO query VALUES ('{query}', '{text}');\n" for query, text in lines_of(logs[0], 2))
        file.write("COMMIT;\n")
        for click, query, text in lines_of(logs[1], 3):
            file.write(f"INSERT OR IGNORE INTO pair SELECT '{click}', id, '{text}', text FROM query WHERE id = '{query}';\n")
        file.write("SELECT count(*) FROM pair;\n")
    out = os.path.join(folder, "sqlite.out")
    took = run(["sqlite3", os.path.join(folder, "pairs.db")], out, script).wall
    with open(out, encoding="ascii") as file:
        return lines / took, int(file.read().split()[-1])


def awk(folder, logs, lines):
    """A hash join in memory that keeps nothing and syncs nothing: what the join alone costs."""
    out = os.path.join(folder, "awk.out")
    took = run(["awk", HASH_JOIN, *logs], out).wall
    with open(out, "rb") as file:
        return lines / took, sum(1 for _ in file)


# ---- etcd

def free_ports(count):
    """Ports of this machine that nobody listens at."""
    held = [socket.create_server(("127.0.0.1", 0)) for _ in range(count)]
    ports = [one.getsockname()[1] for one in held]
    for one in held:
        one.close()
    return ports


def start_members(folder):
    """Three members on the loopback: the processes, and the ports for clients."""
    ports = free_ports(6)
    peers = [f"http://127.0.0.1:{port}" for port in ports[:3]]
    cluster = ",".join(f"m{n}={peer}" for n, peer in enumerate(peers))
    members = []
    for n, peer in enumerate(peers):
        client = f"http://127.0.0.1:{ports[3 + n]}"
        words = ["etcd", "--name", f"m{n}", "--data-dir", os.path.join(folder, f"m{n}"), "--initial-cluster", cluster, "--listen-peer-urls", peer,
                 "--initial-advertise-peer-urls", peer, "--listen-client-urls", client, "--advertise-client-urls", client]
        members.append(subprocess.Popen(words, stdout=subprocess.DEVNULL, stderr=subprocess.DEVNULL))
    return members, ports[3:]


def put_if_absent(connection, key, value):
    """Whether the key was put; it wasn't where it was there."""
    key, value = (base64.b64encode(text.encode()).decode() for text in (key, value))
    words = {"compare": [{"key": key, "target": "CREATE", "createRevision": "0"}], "success": [{"requestPut": {"key": key, "value": value}}]}
    connection.request("POST", "/v3/kv/txn", json.dumps(words), {"Content-Type": "application/json"})
    answer = connection.getresponse()
    told = json.loads(answer.read())
    if answer.status != 200:
        raise OSError(told)
    return told.get("succeeded", False)


def wait_for(ports, until):
    """Waits until each member takes a put."""
    for n, port in enumerate(ports):
        while True:
            try:
                put_if_absent(http.client.HTTPConnection("127.0.0.1", port, timeout=5), f"ready{n}", "")
                break
            except (OSError, ValueError):
                if time.monotonic() > until:
                    raise TimeoutError("etcd doesn't answer") from None
                time.sleep(0.2)


def put_clicks(port, clicks, until):
    """Puts clicks one behind the other: how many were tried, and how many were put."""
    connection, tried, put = http.client.HTTPConnection("127.0.0.1", port, timeout=10), 0, 0
    for click, pair in clicks:
        if time.monotonic() > until:
            break
        tried, put = tried + 1, put + put_if_absent(connection, click, pair)
    return tried, put


def etcd(logs, clients):
    """Three members of etcd; the queries are looked up in the client, and each pair is put if its click is absent. So many clients share the
    clicks, and the members among them. It ends after some seconds, with the clicks that were done by then."""
    words = dict(lines_of(logs[0], 2))
    pairs = [(click, f"{query} {text}\t{words[query]}") if query in words else None for click, query, text in lines_of(logs[1], 3)]
    with tempfile.TemporaryDirectory() as folder:
        members, ports = start_members(folder)
        try:
            wait_for(ports, time.monotonic() + LONGEST)
            began = time.monotonic()
            with concurrent.futures.ThreadPoolExecutor(clients) as pool:
                share = lambda n: put_clicks(ports[n % 3], [pair for pair in pairs[n::clients] if pair], began + LONGEST)
                done = list(pool.map(share, range(clients)))
            took = time.monotonic() - began
        finally:
            for member in members:
                member.kill()
                member.wait()
    tried, put = (sum(column) for column in zip(*done))
    joined = sum(pair is not None for pair in pairs)
    return tried * len(pairs) / joined / took, put


# ---- the disk

def append(path, until, counts):
    """Appends records as a journal does until it is time: a body, a sync, a gate, a sync."""
    file, at, body = os.open(path, os.O_RDWR | os.O_CREAT), 1, bytes(120)
    while time.monotonic() < until:
        os.pwrite(file, body, at)
        os.fdatasync(file)
        os.pwrite(file, b"\xa5", at - 1)
        os.fdatasync(file)
        at += len(body)
        counts.append(2)
    os.close(file)


def disk(folder, files, span=1):
    """Syncs a second of appends to so many files at once, for a second."""
    counts, until = [], time.monotonic() + span
    threads = [threading.Thread(target=append, args=(os.path.join(folder, f"file{n}"), until, counts)) for n in range(files)]
    for one in threads:
        one.start()
    for one in threads:
        one.join()
    return sum(counts) / span
