"""tests/harness/refuse_malloc.c: which request it refuses doesn't depend on the other threads."""
import os
import subprocess
import unittest

from tools import TOP, Case

# starts threads one after the other, each of which makes requests, and then makes 20 requests
# itself, of 1001 to 1020 bytes: prints the one that is refused
PROGRAM = r"""
#include <pthread.h>
#include <stdio.h>
#include <stdlib.h>

static void *ask(void *many)
{
    for (long i = 0; i < (long)many; i++) {
        void *volatile block = malloc(500);

        free(block);
    }
    return NULL;
}

int main(int count, char **words)
{
    long threads = atol(words[1]), many = atol(words[2]), lost = 0;
    int is_joined = count == 4;

    for (long i = 0; i < threads; i++) {
        pthread_t thread;

        if (pthread_create(&thread, NULL, ask, (void *)many))
            return 3;
        is_joined ? pthread_join(thread, NULL) : pthread_detach(thread);
    }
    for (long size = 1001; size <= 1020; size++) {
        void *volatile block = malloc(size);

        lost = block ? lost : size;
    }
    printf("%ld\n", lost);
    return 0;
}
"""


class Refuse(Case):
    def setUp(self):
        super().setUp()
        (self.room / "asks.c").write_text(PROGRAM, encoding="utf-8")
        self.compile("asks.c", "-pthread")
        self.compile(TOP / "tests/harness/refuse_malloc.c", "-shared", "-fPIC")

    def compile(self, source, *flags):
        made = "refuse.so" if "-shared" in flags else "asks"
        subprocess.run(["gcc", "-O1", *flags, "-o", made, source], cwd=self.room, check=True)

    def lost(self, kind, number, *words):
        """Runs the program with a request refused. Returns what it prints, if it ends well."""
        mark = self.room / "mark"
        mark.unlink(missing_ok=True)
        found = {**os.environ, kind: str(number), "REFUSE_MARK": str(mark),
                 "LD_PRELOAD": str(self.room / "refuse.so")}
        ran = subprocess.run([self.room / "asks", *map(str, words)], env=found, check=False,
                             capture_output=True, text=True, stdin=subprocess.DEVNULL)
        self.assertTrue(mark.exists() or ran.stdout == "0\n")
        return ran.returncode, ran.stdout

    def test_other_threads_change_no_number_of_the_first_one(self):
        alone = [self.lost("REFUSE_FIRST", number, 0, 0) for number in range(1, 22)]
        self.assertIn((0, "1010\n"), alone)
        for words in (1, 0), (1, 100), (9, 7), (1, 100, "joined"), (9, 7, "joined"):
            with self.subTest(words):
                first = [self.lost("REFUSE_FIRST", number, *words) for number in range(1, 22)]
                self.assertEqual(alone, first)

    def test_requests_of_other_threads_have_numbers_of_their_own(self):
        self.assertEqual((0, "0\n"), self.lost("REFUSE_OTHERS", 5, 1, 9, "joined"))
        self.assertTrue((self.room / "mark").exists())
        self.assertEqual((0, "0\n"), self.lost("REFUSE_OTHERS", 5, 0, 9))
        self.assertFalse((self.room / "mark").exists())


if __name__ == "__main__":
    unittest.main()
