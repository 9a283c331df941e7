#!/usr/bin/env python3
"""Finds runs in which two clients hold the same lease at once, because a clock is slow.

    examples/cluster/lease.py [SEEDS]     seeds 1 to 100 without SEEDS, or `7` or `7-20`; after `make`

A server grants a lease for 10 s by its clock. A client counts its 10 s from the time at which it
asked, so no delay of the network can harm. But the clock of client a is slow by 0.1 %, so a holds the
lease for 10.01 s. If both the question of a and the answer to b are quick, b gets the lease before a
has given it back. The network delays each packet at random, by a seed. The program prints the seeds
with which that happens, and for how long both held the lease, by the true time. The same seed gives
the same run.
"""
import os
import pathlib
import socket
import subprocess
import sys
import tempfile
import time

TOP = pathlib.Path(__file__).resolve().parents[2]
TKRUN = os.environ.get("TKRUN_PROGRAM", str(TOP / "dist/bin/tkrun"))
SERVER, PORT = "127.20.0.1", 12001
NODES = {"server": "127.20.0.1", "a": "127.20.0.2,error-ppm=-1000", "b": "127.20.0.3"}
LEASE = 10 * 10**9  # ns
EVERY = 0.002  # s from one question to the next


def serve():
    """Answers each question with its number, and whether the lease is granted."""
    sock = socket.socket(socket.AF_INET, socket.SOCK_DGRAM)
    sock.bind((SERVER, PORT))
    end = 0
    while True:
        number, client = sock.recvfrom(100)
        now = time.monotonic_ns()
        if now >= end:
            end = now + LEASE
            sock.sendto(number, client)


def hold():
    """Asks until the lease is granted. Prints MONOTONIC then, and at the end. Returns 0."""
    sock = socket.socket(socket.AF_INET, socket.SOCK_DGRAM)
    sock.settimeout(EVERY)
    asked = []
    while True:
        asked.append(time.monotonic_ns())
        sock.sendto(str(len(asked) - 1).encode(), (SERVER, PORT))
        try:
            number = int(sock.recv(100))
        except TimeoutError:
            continue
        print(time.monotonic_ns(), flush=True)
        time.sleep((asked[number] + LEASE - time.monotonic_ns()) / 1e9)
        print(time.monotonic_ns(), flush=True)
        return 0


def true_times(record):
    """Returns the true time, in s, of each read of MONOTONIC: by the node and the value."""
    merged = subprocess.run([TKRUN, "merge", record], stdout=subprocess.PIPE, text=True, check=True)
    lines = (line.split(",") for line in merged.stdout.splitlines())
    return {(line[1], int(line[7])): float(line[0])
            for line in lines if line[4:5] == ["get"] and line[6] == "monotonic"}


def held_at_once(seed, folder):
    """Returns for how long both clients held the lease in a run, in s; below 0 if they never did."""
    me = f"{sys.executable} {__file__}"
    session = (f"cd {folder}; {TKRUN} node server -- {me} serve & S=$!\n"
               f"sleep 1; {TKRUN} node a -- {me} hold >a & A=$!\n"
               f"sleep 9.8; {TKRUN} node b -- {me} hold >b & wait $A $!; kill $S; wait")
    words = [word for name, options in NODES.items()
             for word in ("--node", f"{name},address={options}")]
    for client in "ab":
        words += ["--link", f"{client},server,delay=2ms,jitter=20ms,seed={seed}"]
    subprocess.run([TKRUN, "--quiet", "--counter", "sleeps", "--start", "2030-01-01T00:00:00Z",
                    "--record", f"{folder}/record", *words, "--", "sh", "-c", session], check=True)
    times = true_times(f"{folder}/record")
    (_, given_back), (granted, _) = (
        [times[name, int(word)] for word in pathlib.Path(folder, name).read_text().split()]
        for name in "ab")
    return given_back - granted


def main(words):
    if words in (["serve"], ["hold"]):
        return serve() if words == ["serve"] else hold()
    first, dash, last = (words or ["1-100"])[0].partition("-")
    try:
        seeds = range(int(first), int(last if dash else first) + 1)
    except ValueError:
        print("usage: examples/cluster/lease.py [SEEDS]     such as 7 or 7-20", file=sys.stderr)
        return 2
    for seed in seeds:
        with tempfile.TemporaryDirectory() as folder:
            both = held_at_once(seed, folder)
        if both > 0:
            print(f"seed {seed}: both held the lease for {both * 1000:.3f} ms", flush=True)
    return 0


if __name__ == "__main__":
    sys.exit(main(sys.argv[1:]))
