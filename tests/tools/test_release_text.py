"""The assembler text of an object file: gas makes the same object of it, and of no other text."""
import re
import shutil
import subprocess
import sys
import unittest

from tools import TOP, Case

sys.path.insert(0, str(TOP / "tools/release_text"))
import compare  # noqa: E402
import elf  # noqa: E402

# jump tables, strings, tables with addresses, calls that leave and calls that don't, and data
SOURCE = r"""
static int twice(int n) __attribute__((noinline));
extern int other(int);
int counted;
static int kept = 5;
static const char *const words[] = { "one", "two\n", "three" };
int (*const calls[])(int) = { twice, other };
static int twice(int n) { return 2 * n + kept++; }
const char *named(unsigned n) { return n < 3 ? words[n] : "none"; }
int chosen(int n, int *out)
{
	switch (n) {
	case 0: return other(n);
	case 1: *out = 5; return 17;
	case 2: return twice(n);
	case 3: *out += twice(n); return 1;
	case 4: return other(other(n));
	case 5: counted++; return 3;
	}
	for (int i = 0; i < n; i++)
		out[i] = n % 10 ? out[i] * 7 : calls[i & 1](i);
	return -1;
}
"""
FLAGS = ["-O2", "-fPIC", "-ffunction-sections", "-fdata-sections", "-fvisibility=hidden", "-c"]
COMPILERS = {"gcc": ["gcc"], "clang": ["clang"], "gcc at -O0": ["gcc", "-O0"],
             "gcc for AArch64": ["aarch64-linux-gnu-gcc"],
             "clang for AArch64": ["clang", "--target=aarch64-linux-gnu"]}


class ReleaseText(Case):
    def setUp(self):
        super().setUp()
        self.object, self.text = self.room / "made.o", self.room / "made.s"

    def compile(self, source, *compiler):
        subprocess.run([*compiler, *FLAGS, "-x", "c", "-", "-o", self.object], input=source,
                       text=True, check=True)

    def release_text(self, *words):
        ran = subprocess.run([sys.executable, "-B", TOP / "tools" / "release_text", *words],
                             capture_output=True, text=True, check=False)
        return ran.returncode, ran.stdout, ran.stderr

    def written(self):
        status, said, errors = self.release_text(self.object)
        self.assertEqual((0, ""), (status, errors))
        self.text.write_text(said, encoding="utf-8")
        return said

    def test_gas_makes_the_object_of_its_text(self):
        for name, (compiler, *more) in COMPILERS.items():
            is_there = shutil.which(compiler) and ("AArch64" not in name
                                                   or shutil.which("aarch64-linux-gnu-as"))
            if not is_there:
                continue
            with self.subTest(name):
                self.compile(SOURCE, compiler, *more)
                said = self.written()
                self.assertIn("\nchosen:\n", said)
                # (one blank at most, after the name of an instruction)
                self.assertNotRegex(said, r"(?m)^\t[a-z][^\t\n]*(, |\t|  )")
                self.assertEqual((0, "", ""), self.release_text("--compare", self.object, self.text))

    def test_the_text_names_what_its_code_refers_to(self):
        self.compile(SOURCE, "gcc")
        said = self.written()
        self.assertIn("\tcall other\n", said)
        self.assertRegex(said, r"\tj\w+ [1-9][0-9]*[bf]\n")
        self.assertRegex(said, r"\t\.quad other\n")
        self.assertRegex(said, r"\n1:\njumps \.text\.chosen,[0-9]+,[0-9]+,[0-9]+,")
        self.assertRegex(said, r"\nframe \.text\.named,0,[0-9]+,[0-9]+\n\t\.byte 0,")
        self.assertNotIn(".byte 0xe8", said)

    def assembled(self, source):
        """Returns the text of an object that gas makes of a source, which must be its object's."""
        path = self.room / "source.s"
        path.write_text(source, encoding="utf-8")
        subprocess.run(["as", path, "-o", self.object], check=True)
        said = self.written()
        self.assertEqual((0, "", ""), self.release_text("--compare", self.object, self.text))
        return said

    def test_labels_are_numbered_in_each_function(self):
        loops = "".join(f".type {name},@function\n{name}: nop\n5: jne 6f\njmp 5b\n6: ret\n"
                        for name in "fgh")
        numbered = "1:\n\tjne 2f\n\tjmp 1b\n2:\n\tret\n"
        for section in ("", "".join(f"\n.section .text.{it}" for it in "fgh")):
            heads = iter(section.split("\n")[1:])
            source = re.sub(r"\.type", lambda _: f"{next(heads, '')}\n.type", loops)
            self.assertEqual(3, self.assembled(source).count(numbered))

    def test_labels_go_on_where_a_branch_crosses_functions(self):
        found = self.assembled(".type f,@function\nf: nop\n1: jne 1b\njmp 2f\n.type g,@function\n"
                               "g: nop\n2: jne 2b\n.type h,@function\nh: nop\n3: jmp 3b\n")
        self.assertEqual(["1b", "2f", "2b", "1b"], re.findall(r"\tj\w+ (\S+)\n", found))

    def test_a_change_of_a_function_changes_only_its_lines(self):
        one = SOURCE.replace("return n < 3 ?", "for (; n % 7; n++) other(n); return n < 3 ?")
        for compiler in ("gcc", "aarch64-linux-gnu-gcc"):
            if not shutil.which(compiler):
                continue
            with self.subTest(compiler):
                parts = []
                for source in (SOURCE, one):
                    self.compile(source, compiler)
                    parts.append(re.split(r"\n(?=frame |\n)", self.written()))
                old, new = parts
                self.assertEqual(len(old), len(new))
                different = [re.search(r"\S+ \.text\.\w+", it)[0] for at, it in enumerate(old)
                             if it != new[at]]
                self.assertEqual([".section .text.named", "frame .text.named"], different)

    def test_names_that_old_assemblers_refuse_have_a_label(self):
        names = "c::Clock::get::<#1f>", "c::Clock::get::<#2>", "c::Page::get::<2'a>", "c::Page::one"
        source = "".join(f'.section ".text.{it}","ax",@progbits\n.type "{it}",@function\n'
                         f'"{it}": ret\n' for it in names)
        calls = '.section .text.g,"ax"\n' + "".join(f'call ".text.{it}"\n' for it in names)
        calls += 'lea ".rodata.a::<#1>"+8(%rip),%rax\n'
        found = self.assembled(f'{source}{calls}.section ".rodata.a::<#1>","a"\n.quad 1,2\n')
        labels = [".Lc.Clock.get.1f.", ".Lc.Clock.get.2.", ".Lc.Page.get", '"c::Page::one"']
        self.assertEqual(labels, re.findall(r"\tcall (.*)\n", found))
        self.assertIn("\tlea .L.rodata.a_8(%rip),%rax\n", found)
        self.assertIn("\n.L.rodata.a_8:\n\t.byte 2,0,0,0,0,0,0,0\n", found)

    def test_what_is_merged_has_no_other_label(self):
        found = self.assembled('.section .rodata.cst8,"aM",@progbits,8\n".L<#1>": .quad 1\n'
                               '.section .text.f,"ax"\nlea ".L<#1>"(%rip),%rax\n')
        self.assertIn('\tlea ".L<#1>"(%rip),%rax\n', found)

    def test_unwind_tables_of_another_form_are_bytes(self):
        common, entry = ".long 12,0\n.quad 0\n", ".long 20,20,f-.,1\n"
        whole = f"{common}{entry}.quad 7\n"
        self.assertEqual(2, self.unwinding(whole + whole).count("\nframe .text.f,0,1,20\n"))
        for other in (whole + whole.replace(",20,f", ",60,f"),  # of the first common entry
                      common + entry.replace("20,20", "40,20"), common + entry + "within: .quad 0\n",
                      f"{common}{entry}.long f-.,0\n", entry + whole):
            self.assertNotIn("\nframe ", self.unwinding(other))

    def unwinding(self, entries):
        """Returns the text of an object with a function and these entries in .eh_frame."""
        return self.assembled('.section .text.f,"ax"\nf: ret\n.section .eh_frame,"a",@progbits\n'
                              + entries)

    def test_a_reference_into_a_word_with_a_relocation(self):
        found = self.assembled('.section .text.f,"ax"\nlea .data+4(%rip),%rax\n'
                               "lea .data+8(%rip),%rax\n.data\n.quad there\n.quad there+1\n")
        self.assertIn("\tlea .data+4(%rip),%rax\n\tlea .data+8(%rip),%rax\n", found)
        self.assertIn("\t.quad there\n\t.quad there+1\n", found)

    def test_the_compilers_name_is_at_the_end(self):
        code, name = '.section .text.f,"ax"\nret\n', '.ident "a compiler"\n'
        found = self.assembled(code + name)
        self.assertIn('\n\t.ident "a compiler"\n\n\t.section .note.GNU-stack,', found)
        self.assertEqual(found, self.assembled(name + code))

    def test_data_are_numbers_of_their_size(self):
        found = self.assembled(".section .rodata.q,\"a\"\n.balign 8\n.quad 1000000000,-1,3\n"
                               ".section .rodata.l,\"a\"\n.balign 4\n.long 7,0x1234\n"
                               ".section .rodata.b,\"a\"\n.ascii \"ab\"\n.zero 40\n")
        self.assertIn("\t.quad 0x3b9aca00,0xffffffffffffffff,0x3\n", found)
        self.assertIn("\t.long 0x7,0x1234\n", found)
        self.assertIn("\t.byte 97,98" + ",0" * 30 + "\n\t.byte 0,0,0,0,0,0,0,0,0,0\n", found)

    def test_the_macros_end_with_the_text(self):
        said = self.assembled(".type f,@function\n.section .text.f,\"ax\"\nf: ret\n")
        names = re.findall(r"^\.macro (\w+)", said, re.M)
        self.assertEqual(["function", "public", "jumps", "frame"], names)
        again = "".join(f".macro {name}\n.endm\n{name}\n" for name in names)
        self.assertIn(f"{said}", self.assembled(said + again))

    def test_every_assembler_makes_the_librarys_objects(self):
        for path in sorted(TOP.glob("release/*/*.s")):
            machine = path.parent.name
            prefix = "" if machine == "x86_64" else f"{machine}-linux-gnu-"
            if not shutil.which("clang") or not shutil.which(f"{prefix}as"):
                continue
            with self.subTest(f"{machine}/{path.name}"):
                other = self.room / "other.o"
                subprocess.run([f"{prefix}as", path, "-o", self.object], check=True)
                subprocess.run(["clang", f"--target={machine}-linux-gnu", "-c", path, "-o", other],
                               check=True)
                one, other = elf.Object(self.object), elf.Object(other)
                # (on x86-64 clang gives .eh_frame another type)
                self.assertEqual([f"section .eh_frame: kind is {elf.UNWIND} instead of 1"]
                                 * (machine == "x86_64"), list(compare.differences(one, other)))
                self.assertEqual([it.name for it in one.kept], [it.name for it in other.kept])

    def test_another_text_is_refused(self):
        self.compile(SOURCE, "gcc")
        said = self.written()
        for old, new, why in [
                ("$0x11", "$0x12", "section .text.chosen: other bytes at "),
                (".quad other", ".quad other+1", "section .data.rel.ro.calls: relocation "),
                (".globl counted", ".weak counted", "symbol counted: "),
                ("\tret\n", "\tret\n\tnop\n", "section .text."),
                ('.section ".text.\\name","ax"', '.section ".text.\\name","awx"', "other flags"),
                ("jumps .text.chosen,", "jumps .text.chosen,1+",
                 "section .rodata.chosen: relocation "),
                ("frame .text.named,0,", "frame .text.named,0,1+",
                 "section .eh_frame: other bytes at "),
                ("\t.byte 0,", "\t.byte 1,", "section .eh_frame: other bytes at "),
                ("function twice,", "public twice,", "symbol twice: "),
                ("\nfunction twice,", "\n\t.section .text.chosen,\"ax\",@progbits\nfunction twice,",
                 "section .text.chosen is where .text.twice should be"),
                ("\tret\n", "\treturn\n", "as refuses line ")]:
            with self.subTest(old):
                self.assertIn(old, said)
                self.text.write_text(said.replace(old, new), encoding="utf-8")
                status, out, errors = self.release_text("--compare", self.object, self.text)
                self.assertEqual((1, ""), (status, out))
                self.assertIn(why, errors)

    def test_bytes_that_gas_encodes_otherwise_stay(self):
        source = self.room / "other.s"
        source.write_text("other:\n.byte 0x48, 0x81, 0xc0, 1, 0, 0, 0 # add $1,%rax in 4 bytes\n"
                          ".byte 0x8b, 0xc1\nret\n", encoding="utf-8")
        subprocess.run(["as", source, "-o", self.object], check=True)
        said = self.written()
        self.assertIn("\t/* add $0x1,%rax */\n\t.byte 0x48,0x81,0xc0,0x01", said)
        self.assertIn("\t{load} mov %ecx,%eax\n\tret\n", said)

    def test_branches_that_keep_each_other_long_stay_long(self):
        source = self.room / "long.s"
        source.write_text("back: nop\n{disp32} jmp on\n.fill 122, 1, 0x90\n{disp32} jmp back\n"
                          "on: ret\n", encoding="utf-8")
        subprocess.run(["as", source, "-o", self.object], check=True)
        said = self.written()
        self.assertEqual(2, said.count("\t{disp32} jmp "))
        self.assertEqual((0, "", ""), self.release_text("--compare", self.object, self.text))

    def test_what_has_no_text_is_one_sentence(self):
        self.object.write_text("no object", encoding="utf-8")
        why = f"release_text: {self.object} is no object file of 64 bits\n"
        self.assertEqual((1, "", why), self.release_text(self.object))
        self.compile("extern int there; int of(void) { return there; }", "gcc")
        why = "release_text: section .text.of: a relocation of kind 42 isn't known\n"
        self.assertEqual((1, "", why), self.release_text(self.object))
        missing = self.room / "missing"
        why = f"release_text: [Errno 2] No such file or directory: '{missing}'\n"
        self.assertEqual((1, "", why), self.release_text(missing))


if __name__ == "__main__":
    unittest.main()
