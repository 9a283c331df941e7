"""PostgreSQL on a counter of sleeps: waits, time-outs, a step of the date, and the time-out of a
replication whose receiver is stopped. The server refuses to run as root, so all of tkrun runs as
another user then."""
import pathlib
import shutil
import unittest

from runs import IS_ROOT, STILL, RunTest, call

FOLDERS = sorted(pathlib.Path("/usr/lib/postgresql").glob("*/bin/postgres"))
USER = ["setpriv", "--reuid", "nobody", "--regid", "nogroup", "--clear-groups"] if IS_ROOT else []
SETTINGS = "-c listen_addresses= -c fsync=off"

QUERIES = """SELECT clock_timestamp() AS a \\gset
SELECT pg_sleep(600);
SELECT clock_timestamp() - :'a';
SELECT clock_timestamp() AS a \\gset
SET statement_timeout = '2min';
SELECT pg_sleep(3600);
SET statement_timeout = 0;
SELECT clock_timestamp() - :'a';
SET idle_session_timeout = '1min';
\\! sleep 59
SELECT 'not yet';
\\! sleep 61
SELECT 'too late';
"""

WAITS = """
start data 5432
query 5432 <queries || true # its connection ends
stop data
"""

STEP = """
start data 5432
echo 'SELECT now()' | query 5432
date -s '2040-02-29 12:00:00' >/dev/null
echo 'SELECT now()' | query 5432
stop data
"""

REPLICATION = """
start data 5432 -c wal_sender_timeout=60s
$B/pg_basebackup -h $PWD -U me -R -D standby
start standby 5433 -c wal_receiver_status_interval=10s
count='SELECT count(*) FROM pg_stat_replication'
for i in {1..100}; do [ $(echo $count | query 5432) = 1 ] && break; sleep 1; done
receiver=$(echo 'SELECT pid FROM pg_stat_wal_receiver' | query 5433)
kill -STOP $receiver
started=$(date +%s)
for i in {1..100}; do [ $(echo $count | query 5432) = 0 ] && break; sleep 1; done
echo $(($(date +%s) - started))
kill -CONT $receiver
stop standby
stop data
grep -o 'terminating walsender process due to replication timeout' data.log
"""

FUNCTIONS = """
set -e
start() {
    $B/pg_ctl -D $1 -l $1.log -w -o "SETTINGS -k $PWD -p $2 $3 $4" start >/dev/null
}
stop() { $B/pg_ctl -D $1 -m fast -w stop >/dev/null; }
query() { $B/psql -h $PWD -p $1 -U me -d postgres -qAt 2>&1; }
""".replace("SETTINGS", SETTINGS)


@unittest.skipUnless(FOLDERS, "postgresql isn't installed")
class PostgreSQL(RunTest):
    def setUp(self):
        super().setUp()
        self.tkrun = self.share() / "bin/tkrun"
        self.bin = FOLDERS[-1].parent
        self.home = self.folder / "home"
        self.home.mkdir()
        if IS_ROOT:
            shutil.chown(self.home, "nobody")
        made = call([*USER, self.bin / "initdb", "-N", "-U", "me", "-A", "trust", "-D",
                     self.home / "data"], cwd=self.home)
        self.assertEqual(made.returncode, 0, made.stderr)

    def session(self, code, start):
        """Runs a script on the clocks. Returns its output."""
        (self.home / "queries").write_text(QUERIES)
        (self.home / "script").write_text(FUNCTIONS + code)
        try:
            run = call([*USER, "env", f"B={self.bin}", "TZ=UTC", "PGTZ=UTC", self.tkrun, "--quiet",
                        *STILL, "--start", start, "--", "bash", "script"], cwd=self.home)
        finally:
            for data in self.home.glob("*/postmaster.pid"):  # only after a failure
                call([*USER, self.bin / "pg_ctl", "-D", data.parent, "-m", "immediate", "stop"])
            logs = "".join(log.read_text() for log in self.home.glob("*.log"))
        self.assertEqual((run.returncode, run.stderr), (0, ""), run.stdout + logs)
        return run.stdout

    def test_waits_and_timeouts(self):
        output = self.session(WAITS, "2038-01-19T03:00:00Z").splitlines()
        self.assertEqual(output[0], "")  # pg_sleep's result
        self.assertRegex(output[1], r"^00:10:00(\.00\d*)?$")
        self.assertIn("canceling statement due to statement timeout", output[2])
        self.assertRegex(output[3], r"^00:02:00(\.00\d*)?$")
        self.assertEqual(output[4], "not yet")
        self.assertIn("terminating connection due to idle-session timeout", output[5])
        self.assertNotIn("too late", output)

    def test_a_step_of_the_date(self):
        first, second = self.session(STEP, "2039-12-31T23:59:58Z").splitlines()
        self.assertRegex(first, "^2039-12-31 23:59:5")
        self.assertRegex(second, "^2040-02-29 12:00:0")

    def test_the_timeout_of_a_replication(self):
        seconds, found = self.session(REPLICATION, "2030-01-01T00:00:00Z").splitlines()
        # it counts since the last of the receiver's messages, which come every 10 s
        self.assertIn(int(seconds), range(49, 63))
        self.assertEqual(found, "terminating walsender process due to replication timeout")
