"""A server that elects a leader among several, as Raft does.

    raft.py NUMBER PORT ADDRESS..

The server of each number listens at the port of its address, and connects to the others. It prints
MONOTONIC, what it becomes, and the term. How long it waits for a leader is random.
"""
import asyncio
import json
import random
import sys
import time

BEAT, LOOK = 0.1, 0.02  # s between a leader's heartbeats, and between looks at the clock
LEAST, MORE = 0.4, 0.4  # s without a heartbeat until an election: at least, and added at random


class Server:
    def __init__(self, number, count):
        self.number, self.count = number, count
        self.term, self.voted, self.role, self.votes = 0, None, "follower", set()
        self.streams = {}
        self.wait()

    def wait(self):
        """Waits anew for a heartbeat."""
        self.end = time.monotonic() + LEAST + MORE * random.random()

    def become(self, role):
        self.role = role
        print(f"{time.monotonic():.9f}", role, self.term, flush=True)

    def send(self, kind, peers):
        text = json.dumps([kind, self.number, self.term]).encode() + b"\n"
        for peer in peers:
            if peer in self.streams:
                self.streams[peer].write(text)

    def enter(self, term):
        self.term, self.voted = term, None
        if self.role != "follower":
            self.become("follower")

    def take(self, kind, sender, term):
        if term > self.term:
            self.enter(term)
        if term < self.term:
            return
        if kind == "ask" and self.voted in (None, sender):
            self.voted = sender
            self.wait()
            self.send("vote", [sender])
        elif kind == "vote" and self.role == "candidate":
            self.votes.add(sender)
            if 2 * len(self.votes) > self.count:
                self.become("leader")
        elif kind == "beat":
            self.wait()

    def act(self):
        if self.role == "leader":
            self.send("beat", self.streams)
        elif time.monotonic() > self.end:
            self.enter(self.term + 1)
            self.voted, self.votes = self.number, {self.number}
            self.become("candidate")
            self.wait()
            self.send("ask", self.streams)


async def run(number, port, addresses):
    server = Server(number, len(addresses))

    async def read(reader, _):
        while line := await reader.readline():
            server.take(*json.loads(line))

    await asyncio.start_server(read, addresses[number], port)
    for peer, address in enumerate(addresses):
        while peer not in (number, *server.streams):
            try:
                server.streams[peer] = (await asyncio.open_connection(address, port))[1]
            except OSError:
                await asyncio.sleep(LOOK)
    while True:
        await asyncio.sleep(BEAT if server.role == "leader" else LOOK)
        server.act()


if __name__ == "__main__":
    asyncio.run(run(int(sys.argv[1]), int(sys.argv[2]), sys.argv[3:]))
