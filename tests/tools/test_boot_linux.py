"""ports/linux/boot: what it reports of a guest, with a stand-in for QEMU."""
from tools import Case


class Boot(Case):
    def boot(self, script, *options):
        """Boots with this script as QEMU, and returns the status, the console and the last line."""
        self.stand_in("qemu-system-x86_64", script)
        console = self.room / "console"
        status, _, errors = self.run_tool("ports/linux/boot", *options, self.room / "image", console)
        return status, console.read_text(encoding="utf-8"), errors.splitlines()[-1:]

    def last(self, text):
        return [text.replace("IMAGE", str(self.room / "image"))]

    def test_a_guest_that_ends_is_well(self):
        self.assertEqual((0, "a\nguest: done\n", []), self.boot("printf 'a\\r\\nguest: done\\r\\n'"))

    def test_a_panic_is_reported_as_one(self):
        panic = "[    1.98] Kernel panic - not syncing: Attempted to kill init!"
        self.assertEqual((1, f"{panic}\n[    1.99] ---[ end Kernel panic ]---\n", self.last(
            "boot: IMAGE panicked: Kernel panic - not syncing: Attempted to kill init!")),
            self.boot(f"echo '{panic}'; echo '[    1.99] ---[ end Kernel panic ]---'"))

    def test_a_guest_that_does_not_end_is_reported(self):
        self.assertEqual((1, "", self.last("boot: IMAGE didn't end in 0.1 s")),
                         self.boot("exec sleep 60", "--limit", "0.1"))

    def test_an_end_of_qemu_is_reported(self):
        why = self.last("boot: QEMU ended before the guest of IMAGE (status 3)")
        self.assertEqual((1, "a\n", why), self.boot("echo a; exit 3"))
        why = self.last("boot: QEMU ended before the guest of IMAGE (status 0)")
        self.assertEqual((1, "no guest: done\n", why), self.boot("echo 'no guest: done'"))

    def test_a_warning_is_a_fault(self):
        self.assertEqual((1, "WARNING: a\nguest: done\n", self.last("boot: IMAGE complains")),
                         self.boot("printf 'WARNING: a\\nguest: done\\n'"))

    def test_time_is_virtual_or_real(self):
        words = 'echo "$*"\necho "guest: done"'
        status, console, _ = self.boot(words)
        self.assertEqual(0, status)
        self.assertIn("-smp 1 -icount shift=5,sleep=off", console)
        self.assertIn(" -kernel " + str(self.room / "image"), console)
        self.assertIn("-icount shift=0,sleep=off", self.boot(words, "--shift", "0")[1])
        status, console, _ = self.boot(words, "--real", "4")
        self.assertEqual(0, status)
        self.assertIn("-smp 4 -rtc base=utc -nic user,model=e1000", console)
        self.assertIn(" no_timer_check\n", console)
        self.assertNotIn("icount", console)

    def test_a_guest_runs_on_the_emulator_or_on_kvm(self):
        words = 'echo "$*"\necho "guest: done"'
        self.assertIn("-accel tcg -cpu max ", self.boot(words, "--real", "4")[1])
        console = self.boot(words, "--real", "4", "--kvm")[1]
        self.assertIn("-accel kvm -cpu host ", console)
        self.assertNotIn("tcg", console)
