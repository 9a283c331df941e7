"""What the tests share that kill processes of nodes."""
import re

from links import ADDRESSES, LINKS, PORT, LinkTest
from runs import TKRUN, program

DEEDS = 11  # of nodes_victim.c
# a sleeps in steps of 1 ms, and sends the time of each to b, which gets it 10 ms later
BEAT = """
    from pathlib import Path
    def files():  # that tkrun has open
        status = Path(f"/proc/{{os.getppid()}}/status").read_text()
        return len(os.listdir("/proc/" + status.split("PPid:")[1].split()[0] + "/fd"))
    s = udp(A, PORT + 1)
    time.sleep(1)
    t = socket.create_connection((B, PORT + 1))
    before, start, beats = files(), time.monotonic_ns(), 0
    while not os.path.exists("{over}"):
        time.sleep(0.001)
        beats += 1
        now = time.monotonic_ns()
        if now != start + beats * 1000001: print("late", beats, now - start)
        s.sendto(struct.pack("q", now), (B, PORT + 1))
        t.sendall(struct.pack("q", now))
    time.sleep(1)
    t.close()
    time.sleep(200)  # all attempts to connect are over
    print(beats, files() - before)
"""
HEAR = """
    s = udp(B, PORT + 1)
    listener = socket.create_server((B, PORT + 1))
    t = listener.accept()[0]
    heard = {t: 0, s: 0}
    while True:
        for file in select.select([t, s], [], [])[0]:
            bytes = file.recv(8)
            if not bytes: print(*heard.values()); sys.exit()
            heard[file] += 1
            passed = time.monotonic_ns() - struct.unpack("q", bytes)[0]
            if passed != 10 * 10**6: print("late", passed)
"""


class NodeKillTest(LinkTest):
    def kill(self, count, seed, victim="nodes_victim"):
        """Kills processes of two nodes, while a program on each of them checks its times. Returns
        how often a lock was taken over from a process that had died."""
        over = self.folder / "over"
        over.unlink(missing_ok=True)
        addresses = " ".join(list(ADDRESSES.values())[:2])
        killer = (f"{program('nodes_killer')} {count} {seed} {DEEDS} {TKRUN} {program(victim)} "
                  f"{addresses} {PORT}")
        before = f"{{ sleep 2; {killer} >{self.folder}/killed 2>&1; touch {over}; }} & P=$!"
        links = [word for link in LINKS for word in ("--link", link)]
        programs = {"a": BEAT.format(over=over), "b": HEAR}
        run = self.start(*self.options, *links, "--every", 100, "--check",
                         *self.script(programs, before))
        self.assertEqual((0, ""), (run.returncode, run.stdout), run.stderr)
        killed = (self.folder / "killed").read_text()
        self.assertRegex(killed, r"\Akilled [0-9]+\n\Z")
        self.assertGreaterEqual(int(killed.split()[1]), count)
        (beats, files), = self.read("a")
        # (the rest of the last second before the killer began)
        self.assertGreater(beats, 900)
        self.assertEqual([[beats, beats]], self.read("b"))
        self.assertLessEqual(files, 0)
        self.assertEqual(len(re.findall("check: tkcore gives each of the", run.stderr)), 4)
        return sum(map(int, re.findall("took over ([0-9]+) times", run.stderr)))
