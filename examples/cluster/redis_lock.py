#!/usr/bin/env python3
"""Finds runs in which two clients hold a lock of redis at once, because the server's clock is fast.

    examples/cluster/redis_lock.py [SEEDS]     seeds 1 to 100 without SEEDS, or `7` or `7-20`; after
                                               `make`, with Debian's package redis-server

Each client asks redis for the lock with `SET lock NAME NX PX 10000`, every 2 ms until it gets it.
It holds the lock for 10 s by its clock, from the time at which it asked, so no delay of the network
can harm. But the server's counter is 0.1 % too fast, and this error wanders, so the lock expires
after 9.99 s or so. If the question of a and the answer to b are both quick, b gets the lock while a
still holds it. The `--seed` of a run chooses the delay of each packet, the walk of the server's
counter, and which process goes on first. The program prints the seeds with which that happens, and
for how long both held the lock, by the true time. The same seed gives the same run.
"""
import os
import pathlib
import shutil
import socket
import subprocess
import sys
import tempfile
import time
from concurrent import futures

TOP = pathlib.Path(__file__).resolve().parents[2]
TKRUN = os.environ.get("TKRUN_PROGRAM", str(TOP / "dist/bin/tkrun"))
PORT = 6379
LOCKED = 10 * 10**9  # ns
EVERY = 0.002  # s from one question to the next


def hold(address, name):
    """Asks redis until it grants the lock. Prints MONOTONIC then, and at the end. Returns 0."""
    with socket.create_connection((address, PORT)) as server:
        while True:
            asked = time.monotonic_ns()
            server.sendall(f"SET lock {name} NX PX {LOCKED // 10**6}\r\n".encode())
            if server.recv(100) == b"+OK\r\n":
                break
            time.sleep(EVERY)
        print(time.monotonic_ns(), flush=True)
        time.sleep((asked + LOCKED - time.monotonic_ns()) / 1e9)
        print(time.monotonic_ns(), flush=True)
    return 0


def true_times(record):
    """Returns the true time, in s, of each read of MONOTONIC: by the node and the value."""
    merged = subprocess.run([TKRUN, "merge", record], stdout=subprocess.PIPE, text=True, check=True)
    lines = (line.split(",") for line in merged.stdout.splitlines())
    return {(line[1], int(line[7])): float(line[0])
            for line in lines if line[4:5] == ["get"] and line[6] == "monotonic"}


def held_at_once(seed):
    """Returns for how long both clients held the lock in a run, in s; below 0 if they never did."""
    # another one for a run at the same time, of as many digits
    network = f"127.{10 + os.getpid() % 54}.{seed % 256}"
    hold_as = f"{sys.executable} {__file__} hold {network}.1"
    session = (f"{TKRUN} node server -- redis-server --bind {network}.1 --port {PORT} --save '' "
               "--protected-mode no --hz 1 >log & S=$!\n"
               f"sleep 1; {TKRUN} node a -- {hold_as} a >a & A=$!\n"
               f"sleep 9.8; {TKRUN} node b -- {hold_as} b >b & wait $A $!; kill $S; wait")
    words = ["--seed", str(seed),
             "--node", f"server,address={network}.1,error-ppm=1000,wander-ppm=300"]
    for number, client in enumerate("ab", 2):
        words += ["--node", f"{client},address={network}.{number}",
                  "--link", f"{client},server,delay=1ms,jitter=7ms"]
    with tempfile.TemporaryDirectory() as folder:
        subprocess.run([TKRUN, "--quiet", "--counter", "sleeps", "--start", "2030-01-01T00:00:00Z",
                        "--record", f"{folder}/record", *words, "--", "sh", "-c", session],
                       check=True, cwd=folder)
        times = true_times(f"{folder}/record")
        (_, given_back), (granted, _) = (
            [times[name, int(word)] for word in pathlib.Path(folder, name).read_text().split()]
            for name in "ab")
    return given_back - granted


def main(words):
    if words[:1] == ["hold"]:
        return hold(*words[1:])
    first, dash, last = (words or ["1-100"])[0].partition("-")
    try:
        seeds = range(int(first), int(last if dash else first) + 1)
    except ValueError:
        print("usage: examples/cluster/redis_lock.py [SEEDS]     such as 7 or 7-20",
              file=sys.stderr)
        return 2
    if not shutil.which("redis-server"):
        print("redis_lock.py: there is no redis-server; Debian has it in the package redis-server",
              file=sys.stderr)
        return 1
    with futures.ThreadPoolExecutor(os.cpu_count()) as pool:
        for seed, both in zip(seeds, pool.map(held_at_once, seeds)):
            if both > 0:
                print(f"seed {seed}: both held the lock for {both * 1000:.3f} ms", flush=True)
    return 0


if __name__ == "__main__":
    sys.exit(main(sys.argv[1:]))
