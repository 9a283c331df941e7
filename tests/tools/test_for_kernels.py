"""tools/c/for_kernels.py: the text for kernels does what the library's text does, on another stack."""
import re
import subprocess
import sys

from tools import TOP, Case

sys.path.insert(0, str(TOP / "tools/release_text"))
import machines  # noqa: E402
import macros  # noqa: E402

TEXT = TOP / "release/x86_64/tkcore.s"
FRAME = 128
INSTRUCTION = re.compile(r" *([0-9a-f]+):\t(\S+) *([^#<]*)")
RELOCATION = re.compile(r"([0-9a-f]{16}) R_X86_64_PC32 +(\S+?)\+0x([0-9a-f]+)$", re.M)
ALIGNED = {"movups": "movaps", "movdqu": "movdqa"}
INSERTED = f"lea -{FRAME:#x}(%rsp),%rsp", f"lea {FRAME:#x}(%rsp),%rsp"


def said(*words):
    return subprocess.run(words, check=True, capture_output=True, text=True).stdout


class Code:
    """The code of an object file: each section's instructions, without those that are inserted."""

    def __init__(self, path):
        self.found, self.inserted, self.places = {}, {}, {}
        for line in said("objdump", "-d", "-z", "--no-show-raw-insn", path).splitlines():
            if line.startswith("Disassembly of section "):
                section = line.removeprefix("Disassembly of section ")[:-1]
                self.found[section], self.inserted[section], self.places[section] = [], [], {}
            elif it := INSTRUCTION.match(line):
                text = f"{it[2]} {it[3]}".strip()
                self.places[section][int(it[1], 16)] = len(self.found[section])
                if text in INSERTED:
                    self.inserted[section].append((text, len(self.found[section])))
                else:
                    self.found[section].append(text)
        for section, lines in self.found.items():
            lines[:] = [self.aimed(it, self.places[section]) for it in lines]
        self.entries = {}  # of tables: the section of constants and the offset, where it leads to
        for part in said("objdump", "-r", path).split("RELOCATION RECORDS FOR [")[1:]:
            name = part.partition("]")[0]
            if name.startswith(".rodata"):
                self.entries |= {(name, int(it[1], 16)): (it[2], int(it[3], 16))
                                 for it in RELOCATION.finditer(part)}

    def tables(self, moved):
        """Returns the entries of tables; in sections that moved, with the instruction's number."""
        return {(name, at): (section, self.places[section][to - at]) if section in moved
                else (section, to) for (name, at), (section, to) in self.entries.items()}

    @staticmethod
    def aimed(text, places):
        """Returns a jump within a section with the number of the instruction that it leads to."""
        name, _, rest = text.partition(" ")
        is_near = name[0] == "j" and re.fullmatch("[0-9a-f]+", rest)
        return f"{name} to {places[int(rest, 16)]}" if is_near and int(rest, 16) in places else text


def lowered(text):
    """Returns an instruction with its places on the stack counted from before the frame."""
    def place(found):
        number = int(found[1], 16) - FRAME
        return f"{number:#x}(%rsp"
    return re.sub(r"(0x[0-9a-f]+)\(%rsp", place, text)


class ForKernels(Case):
    def made(self, text=None, source=None):
        """Makes the text for kernels. Returns the status, the text and the error."""
        source = source or self.room / "given.s"
        if text is not None:
            source.write_text(text, encoding="utf-8")
        said("gcc", "-c", source, "-o", self.room / "given.o")
        return self.run_tool("tools/c/for_kernels.py", source, self.room / "given.o")

    def codes(self, *given, **named):
        """Returns the code of a text and that of the text for kernels, which must be made."""
        status, text, errors = self.made(*given, **named)
        self.assertEqual((0, ""), (status, errors))
        (self.room / "kernel.s").write_text(text, encoding="utf-8")
        said("gcc", "-c", self.room / "kernel.s", "-o", self.room / "kernel.o")
        return Code(self.room / "given.o"), Code(self.room / "kernel.o")

    def test_each_instruction_and_each_table_is_kept(self):
        old, new = self.codes(source=TEXT)
        self.assertEqual(old.found.keys(), new.found.keys())
        for section, lines in old.found.items():
            is_moved = bool(new.inserted[section])
            self.assertEqual(len(lines), len(new.found[section]), section)
            for was, now in zip(lines, new.found[section]):
                self.assertNotRegex(now, r"-0x[0-9a-f]+\(%rsp")
                now = lowered(now) if is_moved else now
                name, _, rest = now.partition(" ")
                aligned = f"{ALIGNED.get(name, name)} {rest}".strip()
                self.assertIn(was, (now, aligned) if "(%rsp" in was else (now,), section)
        moved = {it: lines for it, lines in new.inserted.items() if lines}
        self.assertEqual(old.tables(moved), new.tables(moved))
        self.assertTrue(old.entries)
        self.assertTrue(moved)
        for section, lines in moved.items():
            names = [it.split()[0] for it in old.found[section]]
            saved = next(at for at, it in enumerate(names) if it != "push")
            restored = names.index("pop")
            self.assertEqual(list(zip(INSERTED, (saved, restored))), lines, section)
            self.assertEqual(1, names.count("ret"), section)
        # (a function that moved has another size, and states none)
        sizes, others = (
            set(re.findall(r"^\w+ (\w+) [Tt] (.*)$", said("nm", "-S", self.room / it), re.M))
            for it in ("given.o", "kernel.o"))
        self.assertEqual({it for it in sizes if f".text.{it[1]}" not in moved}, others)

    def test_no_access_of_the_kernel_text_needs_an_aligned_stack(self):
        text = self.made(source=TEXT)[1]
        self.assertNotRegex(text, r"mov(aps|apd|dqa) +[^\n]*\(%r(?!ip)")
        self.assertNotIn(".eh_frame", text)

    FUNCTION = "\t.section .text.f,\"ax\",@progbits\nf:\n\tpush   %rbx\n"

    MACROS = "".join(f"{it}\n" for it in macros.defined(machines.X86_64))
    JUMPS = "\t.section .rodata.f,\"a\",@progbits\n1:\njumps .text.f,"

    def refused(self, *lines):
        body = "".join(f"\t{it}\n" for it in lines)
        status, _, errors = self.made(f"{self.FUNCTION}{body}\tpop    %rbx\n\tret\n")
        self.assertEqual(1, status)
        return errors.strip().removeprefix("for_kernels: ")

    def test_code_that_the_changes_do_not_serve_is_refused(self):
        low = "mov    %rax,-0x8(%rsp)"
        self.assertEqual("paddq  (%rdi),%xmm0: it may need an aligned place",
                         self.refused("paddq  (%rdi),%xmm0"))
        moves = ": it moves the stack pointer of a function with a red zone"
        for line in ("sub    $0x8,%rsp", "call   g", "mov    %rsp,%rax", "mov    %rax,%rsp"):
            self.assertEqual(line + moves, self.refused(low, line))
        self.assertEqual("push   %rcx: a function with a red zone saves or restores here",
                         self.refused(low, "push   %rcx"))
        self.assertEqual("jmp    g: a function with a red zone is left here",
                         self.refused(low, "jmp    g"))
        self.assertEqual("jne    g: a function with a red zone is left here",
                         self.refused(low, "jne    g"))
        self.assertEqual("mov    %rax,%rcx: a function with a red zone saves or restores here",
                         self.refused(low, "pop    %rbx", "mov    %rax,%rcx"))

    def test_a_table_must_name_instructions(self):
        table = f"{self.JUMPS}2\n"
        code = (f"{self.MACROS}{self.FUNCTION}\tmov    %rax,-0x8(%rsp)\n\tpop    %rbx\n\tret\n"
                f"{table}")
        self.assertEqual((1, "", "for_kernels: .text.f+2: no instruction begins there\n"),
                         self.made(code))
        self.assertEqual(0, self.made(code.replace(",2\n", ",1\n"))[0])
        why = "for_kernels: .long .text.f-.: a place in a function with a red zone\n"
        code = code.replace(",2\n", ",1\n")
        self.assertEqual((1, "", why), self.made(f"{code}\t.long .text.f-.\n"))

    def test_a_table_leads_to_the_same_instruction_of_a_function_with_a_red_zone(self):
        table = f"{self.JUMPS}6,9\njumps .text.f,1\n"
        old, new = self.codes(f"{self.MACROS}{self.FUNCTION}\tmov    %rax,-0x8(%rsp)\n"
                              f"\tmov    %rax,%rcx\n\tpop    %rbx\n\tret\n{table}")
        self.assertEqual(list(INSERTED), [it[0] for it in new.inserted[".text.f"]])
        numbers = {(".rodata.f", 4 * at): (".text.f", it) for at, it in enumerate((2, 3, 1))}
        self.assertEqual((numbers, numbers), (old.tables([".text.f"]), new.tables([".text.f"])))
        self.assertNotEqual(old.entries, new.entries)

    def test_the_archive_has_one_section_of_code_and_needs_no_other_file(self):
        status, _, errors = self.run_tool("tools/assemble", "kernel", self.room / "dist")
        self.assertEqual((0, ""), (status, errors))
        archive = self.room / "dist/lib/libtkcore_kernel_sse.a"
        self.assertEqual(1, len(re.findall(r"\.text\S*", said("objdump", "-h", archive))))
        self.assertEqual("", said("nm", "--undefined-only", "--format=just-symbols", archive)
                         .replace("tk_c.o:", "").strip())
        self.assertIn("R tkc_for_kernels_sse", said("nm", "--extern-only", archive))
