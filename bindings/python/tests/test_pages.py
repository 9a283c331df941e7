# SPDX-License-Identifier: MIT OR Apache-2.0
"""Pages and latches where their answers are known. bindings/tests runs them between processes."""
import mmap
import multiprocessing
import unittest
from types import SimpleNamespace
from unittest import mock

import tkcore
from support import opened
from tkcore import ClockId

CYCLES = 12_345


class Reads(unittest.TestCase):
    def setUp(self):
        self.clock = opened()
        self.page = tkcore.Page.create(self.clock)
        self.latch = tkcore.Latch.create(self.clock.snapshot())

    def command(self):
        with self.page.writing(self.clock):
            self.clock.set_tai_offset(CYCLES, 37)
        self.latch.publish(self.clock.snapshot())

    def test_the_latest_snapshot_and_the_reading(self):
        for _ in range(3):
            snapshot = self.clock.snapshot()
            for shared in (self.page, self.latch):
                self.assertEqual(shared.read(), snapshot)
                self.assertEqual(shared.look(lambda: CYCLES), (snapshot, CYCLES))
                self.assertEqual(shared.now(ClockId.TAI, lambda: CYCLES),
                                 snapshot.get(CYCLES, ClockId.TAI))
            self.command()

    def test_a_writer_inside(self):
        self.page.begin()
        with self.assertRaises(tkcore.Busy):
            self.page.read(timeout=0)
        with self.assertRaises(tkcore.Busy):
            self.page.now(ClockId.TAI, lambda: CYCLES, timeout=0.01)
        self.assertEqual(self.page.clock().words(), self.clock.words())
        self.page.publish(self.clock)
        self.assertEqual(self.page.read(timeout=0), self.clock.snapshot())

    def test_a_reader_waits_as_long_as_its_timeout_says(self):
        """The time is one that only the reader's pauses move, by 1/8 s each."""
        moved = [0]
        time = SimpleNamespace(monotonic=lambda: 1000 + moved[0] / 8,
                               sleep=lambda _: moved.__setitem__(0, moved[0] + 1))
        self.page.begin()
        for timeout, pauses in ((0, 0), (0.125, 1), (1, 8), (2.5, 20)):
            for read in (lambda: self.page.read(timeout),
                         lambda: self.page.look(lambda: CYCLES, timeout),
                         lambda: self.page.now(ClockId.TAI, lambda: CYCLES, timeout)):
                moved[0] = 0
                with mock.patch("tkcore.page._time", time), self.assertRaises(tkcore.Busy):
                    read()
                self.assertEqual(moved[0], pauses)

    def test_a_refused_command_lets_readers_in(self):
        with self.assertRaises(tkcore.Invalid):
            with self.page.writing(self.clock):
                self.clock.update(-1)
        self.assertEqual(self.page.read(timeout=0), self.clock.snapshot())

    def test_a_change_of_counter(self):
        """Readers that attached before get the new counter with the new snapshot."""
        reader, other = tkcore.Page.attach(self.page._memory.view), tkcore.Counter(56, 2 << 24, 24)
        with self.page.writing(self.clock):
            self.clock.change_counter(CYCLES, other, 9)
        self.latch.publish(self.clock.snapshot())
        for shared in (self.page, self.latch, reader):
            self.assertEqual(shared.read(), self.clock.snapshot())
            self.assertEqual(shared.read().counter, other)
            self.assertEqual(shared.now(ClockId.MONOTONIC, lambda: 13), CYCLES + 8)
        found = self.page.clock()
        self.assertEqual((found.counter, found.save()), (other, self.clock.save()))

    def test_a_new_writer(self):
        self.command()
        self.page.begin()
        found = self.page.clock()
        self.assertEqual(found.words(), self.clock.words())
        found.update(2 * CYCLES)
        self.page.recover(found)
        self.latch.recover(found)
        self.assertEqual((self.page.read(), self.latch.read()), (found.snapshot(),) * 2)
        self.page.publish(found.snapshot())
        with self.assertRaises(tkcore.BadWords):
            self.page.clock()

    def test_a_page_of_a_snapshot(self):
        page = tkcore.Page.create(self.clock.snapshot())
        self.assertEqual(page.read(), self.clock.snapshot())

    def test_the_counter_is_read_again_if_a_writer_comes_between(self):
        left = [3]

        def read_counter():
            if left[0]:
                left[0] -= 1
                self.command()
            return CYCLES

        snapshot, _ = self.page.look(read_counter)
        self.assertEqual((left, snapshot), ([0], self.clock.snapshot()))

    def test_two_handles_on_one_memory(self):
        memory = mmap.mmap(-1, 512)
        writer = tkcore.Page.create(self.clock, memory)
        reader = tkcore.Page.attach(memoryview(memory).toreadonly())
        self.assertEqual((reader.read(), reader.read().counter),
                         (writer.read(), self.clock.counter))
        for call in (reader.begin, lambda: reader.publish(self.clock)):
            with self.assertRaisesRegex(tkcore.BadBuffer, "read-only"):
                call()

    def test_a_child_process_reads(self):
        here, there = multiprocessing.Pipe()

        def read():
            there.send(self.page.read())

        child = multiprocessing.get_context("fork").Process(target=read)
        self.command()
        child.start()
        self.assertEqual(here.recv(), self.clock.snapshot())
        child.join()


if __name__ == "__main__":
    unittest.main()
