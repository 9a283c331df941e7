"""tests/c/stack_bytes over a library of two calls, of which one uses 1,024 bytes of stack."""
import shutil
import subprocess
import unittest

from tools import TOP, Case

CODE = """
.globl tkc_deep, tkc_flat
.type tkc_deep,@function
.type tkc_flat,@function
tkc_deep: push %rbx
sub $0x3f0,%rsp
add $0x3f0,%rsp
pop %rbx
ret
tkc_flat: ret
.section .note.GNU-stack,"",@progbits
"""
ROW = "| stack that a call uses, at most, by the frames of its code | {} bytes | {} bytes |\n"


class StackBytes(Case):
    def said(self, header, llvm=1024, rattle=1024, backend="llvm"):
        """Returns the status and the error for what the header and the page state."""
        for folder in ("tests/c", "docs", "include"):
            (self.room / folder).mkdir(parents=True, exist_ok=True)
        shutil.copy2(TOP / "tests/c/stack_bytes", self.room / "tests/c")
        (self.room / "docs/C.md").write_text(ROW.format(llvm, rattle), encoding="utf-8")
        (self.room / "include/tkcore.h").write_text(f"/* {header} */\n", encoding="utf-8")
        (self.room / "code.s").write_text(CODE, encoding="utf-8")
        subprocess.run(["gcc", "-shared", "-nostdlib", "code.s", "-o", "library.so"], cwd=self.room,
                       check=True)
        ran = subprocess.run(["tests/c/stack_bytes", "library.so", backend], cwd=self.room,
                             capture_output=True, text=True, check=False)
        self.assertEqual("stack_bytes: tkc_deep uses 1024 bytes of stack, and no call uses more\n",
                         ran.stdout)
        return ran.returncode, ran.stderr

    def test_a_header_and_a_page_that_are_right(self):
        self.assertEqual((0, ""), self.said("Each call uses less than 1.1 kB of stack."))
        self.assertEqual((0, ""), self.said("Each call uses less than 1 kB of stack, and tkc_deep "
                                            "less than 1.1 kB"))

    def test_a_header_that_allows_less(self):
        less = (1, "stack_bytes: tkcore.h allows less\n")
        self.assertEqual(less, self.said("Each call uses less than 1.024 kB of stack."))
        self.assertEqual(less, self.said("Each call uses less than 1 kB of stack, and tkc_flat less "
                                         "than 2 kB"))

    def test_a_page_with_another_number(self):
        right = "Each call uses less than 1.1 kB of stack."
        self.assertEqual((1, "stack_bytes: docs/C.md states 1008\n"), self.said(right, llvm=1008))
        self.assertEqual((0, ""), self.said(right, rattle=1008))
        self.assertEqual((1, "stack_bytes: docs/C.md states 1040\n"),
                         self.said(right, rattle=1040, backend="rattle"))


if __name__ == "__main__":
    unittest.main()
