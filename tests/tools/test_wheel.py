"""The wheel and the source package of bindings/python, and what pip says if they can't be made."""
import base64
import email
import hashlib
import os
import re
import shutil
import subprocess
import sys
import tarfile
import unittest
import zipfile

from tools import TOP, Case

HEADER = (TOP / "include/tkcore.h").read_text(encoding="utf-8")
VERSION = ".".join(re.findall(r"^#define TKC_VERSION_(?:MAJOR|MINOR|PATCH) (\d+)$", HEADER, re.M))
NAME = f"tkcore-{VERSION}"
# the texts of the library, which the source package contains for each processor
TEXTS = "x86_64/tkcore.s", "aarch64/tkcore.s"
LICENCES = "LICENSE-APACHE", "LICENSE-MIT"
HEADERS = "tkcore.h", "tkcore_page.h"
MACHINES = {"x86_64": 62, "aarch64": 183}  # by e_machine in elf.h
# the platforms of packaging.python.org for a shared object that needs no symbol of a C library
PLATFORMS = "manylinux2014", "manylinux_2_17", "musllinux_1_1"
# calls the backend as pip does
CALL = "import sys, backend; print(getattr(backend, sys.argv[1])(sys.argv[2]))"


class Wheel(Case):
    def setUp(self):
        super().setUp()
        self.top = self.copy("bindings/python", "include", *LICENCES,
                             *(f"release/{it}" for it in TEXTS))
        self.own = self.top / "bindings/python"
        (self.own / "src/tkcore/_tkcore.so").unlink(missing_ok=True)

    def make(self, call, own=None, **variables):
        """Calls the backend. Returns the status, the output and the errors."""
        known = {it: value for it, value in os.environ.items() if it not in ("CC", "TKCORE_DIR")}
        known.update(PATH=f"{self.first}:{known['PATH']}", PYTHONDONTWRITEBYTECODE="1", LC_ALL="C",
                     PKG_CONFIG_LIBDIR=str(self.room), **variables)
        ran = subprocess.run([sys.executable, "-c", CALL, call, str(self.room)], env=known, text=True,
                             cwd=own or self.own, capture_output=True, check=False)
        return ran.returncode, ran.stdout, ran.stderr

    def made(self, call, own=None, **variables):
        """Returns the path of the package that the backend makes."""
        status, said, errors = self.make(call, own, **variables)
        self.assertEqual((0, ""), (status, errors))
        return self.room / said.strip()

    def wheel(self, machine, own=None, **variables):
        """Makes a wheel. Returns the files in it by their names."""
        path = self.made("build_wheel", own, **variables)
        tags = ".".join(f"{it}_{machine}" for it in PLATFORMS)
        self.assertEqual(f"{NAME}-py3-none-{tags}.whl", path.name)
        with zipfile.ZipFile(path) as wheel:
            self.assertIsNone(wheel.testzip())
            return {it: wheel.read(it) for it in wheel.namelist()}

    def check_object(self, content, machine):
        """The shared object is for this processor, and needs no other one."""
        self.assertEqual(b"\x7fELF", content[:4])
        self.assertEqual(MACHINES[machine], int.from_bytes(content[18:20], "little"))
        path = self.room / "object.so"
        path.write_bytes(content)
        read = subprocess.run(["readelf", "-dW", "--dyn-syms", path], text=True, check=True,
                              capture_output=True, env={**os.environ, "LC_ALL": "C"}).stdout
        self.assertNotIn("NEEDED", read)
        self.assertEqual([], re.findall(r" UND (\S+)$", read, re.M))
        self.assertIn(" tkc_snapshot_get\n", read)

    def check_wheel(self, files, machine):
        about = f"{NAME}.dist-info"
        own = [it.name for it in (self.own / "src/tkcore").glob("*.py")]
        self.assertGreater(len(own), 5)
        self.assertEqual(sorted([*(f"tkcore/{it}" for it in (*own, "py.typed", "_tkcore.so")),
                                 *(f"{about}/{it}" for it in ("METADATA", "RECORD", "WHEEL")),
                                 *(f"{about}/licenses/{it}" for it in LICENCES)]), sorted(files))
        for name in LICENCES:
            self.assertEqual((TOP / name).read_bytes(), files[f"{about}/licenses/{name}"])
        told = email.message_from_bytes(files[f"{about}/WHEEL"])
        self.assertEqual([f"py3-none-{it}_{machine}" for it in PLATFORMS], told.get_all("Tag"))
        self.assertEqual("false", told["Root-Is-Purelib"])
        told = email.message_from_bytes(files[f"{about}/METADATA"])
        self.assertEqual(("tkcore", VERSION, "MIT OR Apache-2.0", "text/markdown", list(LICENCES)),
                         (told["Name"], told["Version"], told["License"],
                          told["Description-Content-Type"], told.get_all("License-File")))
        self.assertIn("Typing :: Typed", told.get_all("Classifier"))
        self.assertEqual((self.own / "README.md").read_text(encoding="utf-8"), told.get_payload())
        self.check_object(files["tkcore/_tkcore.so"], machine)
        self.check_record(files, f"{about}/RECORD")

    def check_record(self, files, name):
        """The record has the sum and the size of each file except itself."""
        lines = files[name].decode().splitlines()
        wanted = [f"{it},sha256={self.sum_of(content)},{len(content)}"
                  for it, content in files.items() if it != name]
        self.assertEqual(sorted([*wanted, f"{name},,"]), sorted(lines))

    @staticmethod
    def sum_of(content):
        total = base64.urlsafe_b64encode(hashlib.sha256(content).digest())
        return total.decode().rstrip("=")

    def test_the_wheel_has_the_library_the_licences_and_true_tags(self):
        self.check_wheel(self.wheel("x86_64"), "x86_64")

    @unittest.skipUnless(shutil.which("aarch64-linux-gnu-gcc"), "nothing compiles for AArch64")
    def test_the_wheel_for_aarch64(self):
        self.check_wheel(self.wheel("aarch64", CC="aarch64-linux-gnu-gcc"), "aarch64")

    def test_the_source_package_has_what_makes_the_wheel(self):
        path = self.made("build_sdist")
        self.assertEqual(f"{NAME}.tar.gz", path.name)
        with tarfile.open(path) as packed:
            packed.extractall(self.room / "unpacked")
        own = self.room / "unpacked" / NAME
        for name in LICENCES:
            self.assertEqual((TOP / name).read_bytes(), (own / name).read_bytes())
        for name in TEXTS:
            self.assertEqual((TOP / "release" / name).read_bytes(), (own / "c" / name).read_bytes())
        for name in HEADERS:
            self.assertEqual((TOP / "include" / name).read_bytes(),
                             (own / "c/include" / name).read_bytes())
        self.assertEqual(self.wheel("x86_64"), self.wheel("x86_64", own))
        self.assertIn(f"Version: {VERSION}\n", (own / "PKG-INFO").read_text(encoding="utf-8"))

    def test_the_address_of_who_publishes(self):
        address = "https://clocks.example/tkcore"
        with tarfile.open(self.made("build_sdist", TKCORE_URL=address)) as packed:
            packed.extractall(self.room / "unpacked")
        own, about = self.room / "unpacked" / NAME, f"{NAME}.dist-info/METADATA"
        told = [(own / "PKG-INFO").read_bytes(), self.wheel("x86_64", own)[about],
                self.wheel("x86_64", TKCORE_URL=address)[about], self.wheel("x86_64")[about]]
        self.assertEqual([[f"Source, {address}"]] * 3 + [None],
                         [email.message_from_bytes(it).get_all("Project-URL") for it in told])

    def refused(self, sentence, **variables):
        """pip prints this sentence last, and no wheel is made."""
        self.assertEqual((1, "", f"tkcore: {sentence}\n"), self.make("build_wheel", **variables))
        self.assertEqual([], list(self.room.glob("*.whl")))

    def test_a_missing_compiler_is_one_sentence(self):
        self.refused("there is no C compiler no-such-compiler", CC="no-such-compiler -O2")

    def test_a_missing_assembler_is_one_sentence(self):
        self.stand_in("lone-gcc", '[ "$1" != -dumpmachine ] || exec echo x86_64-linux-gnu\n'
                                  'echo cannot execute as >&2\nexit 1')
        self.refused("lone-gcc finds no assembler: install binutils", CC="lone-gcc")

    def test_another_processor_is_one_sentence(self):
        self.stand_in("cross-gcc", "echo riscv64-linux-gnu")
        self.refused("there is no text of the C library for riscv64, and pkg-config knows none",
                     CC="cross-gcc")

    def test_a_changed_text_is_one_sentence(self):
        path = self.top / "release/x86_64/tkcore.s"
        path.write_text(path.read_text(encoding="utf-8").replace("\tret\n", "\treturn\n", 1),
                        encoding="utf-8")
        status, said, errors = self.make("build_wheel")
        self.assertEqual((1, "", f"tkcore: cc doesn't make the shared object of {path}"),
                         (status, said, errors.splitlines()[-1]))


if __name__ == "__main__":
    unittest.main()
