"""--seed: EPOLLONESHOT on a connection that is full."""
from runs import STILL, RunTest

# a thread writes what another one reads slowly, and counts how often epoll reports space
FLOW = """import select, socket, threading, time
TOTAL = 300000
listener = socket.create_server(("127.0.0.1", 0))
out = socket.create_connection(listener.getsockname()); into = listener.accept()[0]
out.setblocking(False)
read = [0]
def reader():
    while data := into.recv(11000):
        read[0] += len(data); time.sleep(0.001)
thread = threading.Thread(target=reader, daemon=True); thread.start()
epoll = select.epoll(); epoll.register(out, 0)
sent = reports = in_vain = 0
while sent < TOTAL:
    try: sent += out.send(bytes(min(50000, TOTAL - sent)))
    except BlockingIOError:
        if reports: in_vain += now_reported
        epoll.modify(out, select.EPOLLOUT | select.EPOLLONESHOT | {more})
        assert epoll.poll(0) == []
        assert epoll.poll(100) == [(out.fileno(), select.EPOLLOUT)]
        assert epoll.poll(0) == []  # once only
        reports += 1; now_reported = True
    else: now_reported = False
out.close(); thread.join()
print(read[0], in_vain, 0 < reports < 100, time.monotonic() < 1)
"""


class Once(RunTest):
    def test_space_is_reported_once_when_there_is_some(self):
        for more in ("0", "select.EPOLLET"):
            shown = set()
            for _ in range(2):
                shown.add(self.run_on(*STILL, "--seed", 1, "--", "python3", "-c",
                                      FLOW.format(more=more)))
            self.assertEqual(shown, {"300000 0 True True\n"})
