"""redis on a counter of sleeps: keys that expire, a wait, a step of the date, and a failover by three
sentinels."""
import socket

from runs import STILL, RunTest, needs

KEYS = """
redis-server --port 0 --unixsocket $PWD/socket --save '' >log &
redis() { redis-cli -s socket "$@"; }
until redis ping >/dev/null 2>&1; do sleep 0.1; done
redis flushall >/dev/null
redis set one 1 EX 100; redis set two 2 PX 150500; redis set three 3 EXAT 1000001000
redis ttl one; redis pttl two
sleep 99; redis exists one two three
sleep 2; redis exists one two three
sleep 51; redis exists one two three
before=$(redis time | head -1)
redis blpop none 600
after=$(redis time | head -1); echo waited $((after - before))
date -s @1000001001 >/dev/null
redis exists one two three; redis time | head -1
redis shutdown nosave
wait
"""

SENTINEL = """port PORT
sentinel monitor it 127.0.0.1 MASTER 2
sentinel down-after-milliseconds it 10000
sentinel failover-timeout it 20000
"""

FAILOVER = """
exec 2>/dev/null # what is killed, and what isn't up yet
redis-server --port $1 --save '' --dir $PWD >master.log &
master=$!
redis-server --port $2 --save '' --dir $PWD --replicaof 127.0.0.1 $1 >replica.log &
until redis-cli -p $2 info replication | grep -q master_link_status:up; do sleep 1; done
for i in 3 4 5; do redis-server ${!i}.conf --sentinel >${!i}.log & done
sleep 15
redis-cli -p $3 sentinel get-master-addr-by-name it | tail -1
kill -9 $master
killed=$(date +%s)
for i in {1..100}; do
    [ $(redis-cli -p $3 sentinel get-master-addr-by-name it | tail -1) = $2 ] && break
    sleep 1
done
echo $(($(date +%s) - killed))
redis-cli -p $2 info replication | grep -o role:master
for i in 2 3 4 5; do redis-cli -p ${!i} shutdown nosave; done
wait
"""


def free_ports(count):
    """Ports of 127.0.0.1 that no program has."""
    sockets = [socket.create_server(("127.0.0.1", 0)) for _ in range(count)]
    ports = [taken.getsockname()[1] for taken in sockets]
    for taken in sockets:
        taken.close()
    return ports


@needs("redis-server")
class Redis(RunTest):
    def script(self, code, *words):
        """Runs a script in the test's folder, on the clocks. Returns its output."""
        code = f"cd {self.folder}\n{code}"
        return self.run_on(*STILL, "--start", 1000000000, "--", "bash", "-c", code, "bash",
                           *words).splitlines()

    def test_keys_that_expire(self):
        self.assertEqual(self.script(KEYS), [
            "OK", "OK", "OK", "100", "150500", "3", "2", "1", "", "waited 600", "0", "1000001001"])

    def test_a_failover(self):
        master, _, *sentinels = ports = free_ports(5)
        for port in sentinels:
            self.file(f"{port}.conf", SENTINEL.replace("PORT", str(port)).replace("MASTER",
                                                                                   str(master)))
        first, seconds, role = self.script(FAILOVER, *ports)
        self.assertEqual((first, role), (str(master), "role:master"))
        # ten seconds until it is down, and some for the votes and the change
        self.assertIn(int(seconds), range(9, 30))
