# SPDX-License-Identifier: MIT OR Apache-2.0
"""Memory that is no page or no latch, and pages that are closed or written by no writer."""
import copy
import mmap
import pickle
import subprocess
import sys
import tempfile
import unittest

import tkcore
from support import CALLS, opened, seeded
from tkcore import ClockId


PAGE_LAYOUT, LATCH_LAYOUT = 0x746b637061676502, 0x746b636c61746302  # of tkcore_page.h
OTHER_PROCESS = """
import mmap, sys, tkcore
with open(sys.argv[1], "r+b") as file:
    memory = mmap.mmap(file.fileno(), tkcore.Page.SIZE)
clock = tkcore.Clock(tkcore.Counter(32, 16_777_216, 24), 0, 1_700_000_000 * tkcore.NANOS)
tkcore.Page.create(clock, memory)
memory[0] += 1
"""


class Pages(unittest.TestCase):
    def test_memory(self):
        clock = opened()
        for make in (tkcore.Page.attach, lambda memory: tkcore.Page.create(clock, memory),
                     tkcore.Latch.attach,
                     lambda memory: tkcore.Latch.create(clock.snapshot(), memory)):
            for memory in (bytearray(100), b"", 5, memoryview(bytearray(512))[::2]):
                with self.assertRaises(tkcore.BadBuffer):
                    make(memory)
            with self.assertRaises(tkcore.BadBuffer):
                make(memoryview(mmap.mmap(-1, 512))[4:])
        with self.assertRaises(tkcore.BadBuffer):
            tkcore.Page.create(clock, bytes(512))

    def test_each_size(self):
        """Memory that is a byte or a word too short is refused, and stays as it was."""
        clock = opened()
        makes = {tkcore.Page: lambda memory: tkcore.Page.create(clock, memory),
                 tkcore.Latch: lambda memory: tkcore.Latch.create(clock.snapshot(), memory)}
        self.assertEqual((tkcore.Page.SIZE, tkcore.Latch.SIZE), (256, 224))
        for kind, make in makes.items():
            memory = mmap.mmap(-1, 512)
            for size in (*range(0, kind.SIZE, 8), kind.SIZE - 1, kind.SIZE - 7):
                with self.assertRaises(tkcore.BadBuffer) as raised:
                    make(memoryview(memory)[:size])
                self.assertEqual(raised.exception.value, size)
                self.assertEqual(memory[:], bytes(512))
            make(memory)
            for size in (0, 8, kind.SIZE - 8, kind.SIZE - 1):
                with self.assertRaises(tkcore.BadBuffer) as raised:
                    kind.attach(memoryview(memory)[:size])
                self.assertEqual(raised.exception.value, size)
            for size in (kind.SIZE, kind.SIZE + 1):
                self.assertEqual(kind.attach(memoryview(memory)[:size]).read(), clock.snapshot())

    def test_another_layout(self):
        memory = mmap.mmap(-1, 512)
        page, latch = PAGE_LAYOUT, LATCH_LAYOUT
        self.refused(0, page, lambda: tkcore.Page.attach(memory))
        written = tkcore.Page.create(opened(), memory)
        self.refused(page, latch, lambda: tkcore.Latch.attach(memory))
        for number in (1, 3):  # the former layout, and a later one
            memory[0] = number
            self.refused(page + number - 2, page, lambda: tkcore.Page.attach(memory))
            self.refused(page + number - 2, page, written.clock)

    def refused(self, found, wanted, call):
        with self.assertRaises(tkcore.BadLayout) as raised:
            call()
        self.assertEqual((raised.exception.value, raised.exception.range),
                         (found, (wanted, wanted)))

    def test_a_page_that_another_process_left_with_another_layout(self):
        with tempfile.NamedTemporaryFile() as file:
            file.write(bytes(tkcore.Page.SIZE))
            file.flush()
            subprocess.run([sys.executable, "-c", OTHER_PROCESS, file.name], check=True)
            memory = mmap.mmap(file.fileno(), tkcore.Page.SIZE)
            self.refused(PAGE_LAYOUT + 1, PAGE_LAYOUT, lambda: tkcore.Page.attach(memory))
            memory[0] = PAGE_LAYOUT % 256
            self.assertEqual(tkcore.Page.attach(memory).read(), opened().snapshot())

    def test_words_of_no_writer(self):
        memory = mmap.mmap(-1, 512)
        page = tkcore.Page.create(opened(), memory)
        memory[16:16 + 80] = b"\xff" * 80  # the words of the snapshot
        with self.assertRaises(tkcore.BadWords):
            page.read()
        memory[96:104] = bytes(8)  # the bits of the counter
        with self.assertRaises(tkcore.BadBits):
            page.read()
        with self.assertRaises(tkcore.BadWords):
            page.clock()

    def test_random_memory(self):
        rng = seeded()
        memory = mmap.mmap(-1, tkcore.Page.SIZE)
        page = tkcore.Page.create(opened(), memory)
        for _ in range(CALLS // 10):
            start = rng.randrange(16, tkcore.Page.SIZE)
            memory[start] = rng.randrange(256)
            for call in (page.read, page.clock, lambda: tkcore.Page.attach(memory)):
                try:
                    call()
                except tkcore.Error:
                    pass

    def test_a_closed_page(self):
        with tkcore.Page.create(opened()) as page:
            pass
        for call in (page.read, page.begin, page.clock):
            with self.assertRaises(ValueError):
                call()

    def test_a_page_that_is_closed_amid_a_read(self):
        page = tkcore.Page.create(opened())
        left = [2]

        def read_counter():
            page.close()
            left[0] -= 1
            if left[0]:
                raise KeyError  # (the mapping is still there for the code in C)
            return 5

        with self.assertRaises(KeyError):
            page.look(read_counter)
        page = tkcore.Page.create(opened())
        snapshot, _ = page.look(lambda: page.close() or 5)
        self.assertEqual(snapshot, opened().snapshot())

    def test_no_copy(self):
        for shared in (tkcore.Page.create(opened()), tkcore.Latch.create(opened().snapshot())):
            for call in (copy.copy, copy.deepcopy, pickle.dumps):
                with self.assertRaises(TypeError):
                    call(shared)

    def test_a_counter_that_raises(self):
        page = tkcore.Page.create(opened())
        with self.assertRaises(ZeroDivisionError):
            page.look(lambda: 1 // 0)
        for reading, error in ((-1, tkcore.Error), (2**64, tkcore.Error), (2**32, tkcore.Invalid),
                               ("5", TypeError)):
            with self.assertRaises(error):
                page.now(ClockId.TAI, lambda: reading)


if __name__ == "__main__":
    unittest.main()
