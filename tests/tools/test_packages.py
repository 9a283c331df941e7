"""The list of packages: what is missing, and what apt-get is asked for."""
from tools import LOGIC, Case

LIST = """# CHECK PACKAGE FOUND BY USED FOR

one     tool        a-tool                          all
one     files       {room}/none/*|{room}/files/v*   a part, and another
two     tool        a-tool                          a part
two     named       -                               all
three   here        sh                              all
"""


class Packages(Case):
    def setUp(self):
        super().setUp()
        self.top = self.copy()
        self.write_list(LIST.format(room=self.room))
        self.dpkg("other")
        self.stand_in("dpkg", "exit 0")
        self.apt("exit 0")

    def write_list(self, text):
        (self.top / "tools/packages.txt").write_text(text, encoding="utf-8")

    def dpkg(self, *installed):
        lines = ["deinstall ok", *(f"installed {it}" for it in installed), "config-files named"]
        self.stand_in("dpkg-query", "".join(f"echo '{it}'\n" for it in lines))

    def apt(self, script):
        self.stand_in("apt-get", f'echo "$DEBIAN_FRONTEND $*" >>{self.room}/apt\n{script}')

    def asked(self):
        """Returns the calls of apt-get, without the options."""
        path = self.room / "apt"
        lines = path.read_text(encoding="utf-8").splitlines() if path.exists() else []
        for line in lines:
            self.assertTrue(line.startswith("noninteractive "), line)
        return [[it for it in line.split()[1:] if it[0] != "-" and "::" not in it]
                for line in lines]

    def run_packages(self, *words):
        return self.run_tool("tools/packages", *words, top=self.top)

    def install_tool(self):
        self.stand_in("a-tool", "exit 0")

    def test_the_list_shows_what_is_installed(self):
        self.install_tool()
        status, said, errors = self.run_packages()
        self.assertEqual((0, ""), (status, errors))
        self.assertEqual("one\n    installed  tool: the whole check\n"
                         "    MISSING    files: a part, and another\n"
                         "two\n    installed  tool: a part\n    MISSING    named: the whole check\n"
                         "three\n    installed  here: the whole check\n", said)

    def test_a_program_a_path_or_dpkg_shows_that_a_package_is_there(self):
        said = "one: not installed: tool files\ntwo: not installed: tool named\n"
        self.assertEqual((1, said, ""), self.run_packages("--missing"))
        self.install_tool()
        said = "one: not installed: files\n"
        self.assertEqual((1, said, ""), self.run_packages("--missing", "one"))
        (self.room / "files").mkdir()
        (self.room / "files" / "v6").touch()
        self.assertEqual((0, "", ""), self.run_packages("--missing", "one", "three"))
        self.dpkg("named")
        self.assertEqual((0, "", ""), self.run_packages("--missing"))

    def test_what_a_whole_check_needs_is_named_alone(self):
        self.assertEqual((1, "one: not installed: tool\ntwo: not installed: named\n", ""),
                         self.run_packages("--needed"))
        self.install_tool()
        self.assertEqual((0, "", ""), self.run_packages("--needed", "one"))

    def test_missing_packages_are_installed_at_once(self):
        self.apt(f'[ "$1" = update ] || {{ ln -s /bin/true {self.first}/a-tool\n'
                 f"mkdir {self.room}/files\ntouch {self.room}/files/v6\n}}")
        self.assertEqual((0, "tools/packages: installing tool files\n", ""),
                         self.run_packages("--install", "one"))
        self.assertEqual([["update"], ["install", "tool", "files"]], self.asked())
        self.assertEqual((0, "tools/packages: all packages are installed\n", ""),
                         self.run_packages("--install", "one"))
        self.assertEqual(2, len(self.asked()))

    def test_a_package_that_cannot_be_installed_is_named_and_the_others_are_installed(self):
        self.apt('case " $* " in\n*" update "*) exit 0 ;;\n*" files "*) echo "E: no files"\n'
                 f"exit 100 ;;\nesac\nln -s /bin/true {self.first}/a-tool")
        status, said, errors = self.run_packages("--install", "one")
        self.assertEqual((1, "tools/packages: installing tool files\n"
                             "tools/packages: files can't be installed:\nE: no files\n"
                             "one: not installed: files\n", ""), (status, said, errors))
        self.assertEqual([["update"], ["install", "tool", "files"], ["install", "tool"],
                          ["install", "files"]], self.asked())

    def test_a_source_is_unpacked_by_the_systems_own_list(self):
        text = f"two source:named {self.room}/named-* a part\ntwo tool a-tool a part\n"
        self.write_list(text)
        self.apt(f'for word; do case $word in Dir::Etc::sourcelist=*)\n'
                 f'cat "${{word#*=}}" >>{self.room}/listed ;; esac; done\n'
                 f'case " $* " in\n*" source "*) mkdir {self.room}/named-1 ;;\n'
                 f"*) ln -sf /bin/true {self.first}/a-tool ;;\nesac")
        self.assertEqual((0, "tools/packages: installing source:named tool\n", ""),
                         self.run_packages("--install", "two"))
        self.assertEqual([["update"], ["install", "tool"], ["update"], ["source", "named"]],
                         [[it for it in call if it[0] != "/"] for call in self.asked()])
        types = [it for it in (self.room / "listed").read_text(encoding="utf-8").splitlines()
                 if it.startswith("Types:")]
        self.assertLessEqual(set(types), {"Types: deb-src"})

    def test_a_source_that_cannot_be_unpacked_is_named(self):
        text = f"two source:named {self.room}/named-* a part\n"
        self.write_list(text)
        self.apt('case " $* " in\n*" source "*) echo "E: no source"\nexit 100 ;;\nesac')
        self.assertEqual((1, "tools/packages: installing source:named\n"
                             "tools/packages: source:named can't be installed:\nE: no source\n"
                             "two: not installed: source:named\n", ""),
                         self.run_packages("--install", "two"))

    def test_a_package_that_conflicts_is_unpacked(self):
        text = f"two deb:named {self.room}/named a part\ntwo tool a-tool a part\n"
        self.write_list(text)
        self.apt('case " $* " in\n*" download "*) touch named_1_all.deb ;;\n'
                 f"*) ln -sf /bin/true {self.first}/a-tool ;;\nesac")
        self.stand_in("dpkg", f'[ "$1" = -x ] || exit 0\ntouch {self.room}/named\n'
                              f'echo "$1 ${{2##*/}} $3" >{self.room}/unpacked')
        self.assertEqual((0, "tools/packages: installing deb:named tool\n", ""),
                         self.run_packages("--install", "two"))
        self.assertEqual([["update"], ["install", "tool"], ["download", "named"]], self.asked())
        self.assertEqual("-x named_1_all.deb /usr/src/deb-named\n",
                         (self.room / "unpacked").read_text(encoding="utf-8"))

    def test_a_package_that_was_removed_for_another_is_unpacked_too(self):
        text = f"two deb:named {self.room}/named a part\ntwo tool a-tool a part\n"
        self.write_list(text)
        (self.room / "named").touch()
        self.apt('case " $* " in\n*" download "*) touch named_1_all.deb ;;\n'
                 f'*" install "*) rm {self.room}/named\nln -sf /bin/true {self.first}/a-tool ;;\n'
                 "esac")
        self.stand_in("dpkg", f'[ "$1" != -x ] || touch {self.room}/named')
        self.assertEqual((0, "tools/packages: installing tool\n"
                             "tools/packages: installing deb:named\n", ""),
                         self.run_packages("--install", "two"))
        self.assertEqual([["update"], ["install", "tool"], ["update"], ["download", "named"]],
                         self.asked())

    def test_a_package_that_cannot_be_unpacked_is_named(self):
        text = f"two deb:named {self.room}/named a part\n"
        self.write_list(text)
        for tool, script in [("apt-get", 'case " $* " in *" update "*) ;; *) echo "E: bad"; exit 1 ;; esac'),
                             ("dpkg", "echo 'E: bad'\nexit 2")]:
            self.stand_in(tool, script)
            self.assertEqual((1, "tools/packages: installing deb:named\n"
                                 "tools/packages: deb:named can't be installed:\nE: bad\n"
                                 "two: not installed: deb:named\n", ""),
                             self.run_packages("--install", "two"))
            self.apt("exit 0")

    def test_a_failure_of_apt_get_is_told_in_its_own_words(self):
        self.apt("echo 'E: Permission denied'\nexit 100")
        status, said, errors = self.run_packages("--install", "two")
        self.assertEqual((1, ""), (status, errors))
        self.assertIn("apt-get update failed:\nE: Permission denied\n", said)
        self.assertEqual("two: not installed: tool named", said.splitlines()[-1])

    def test_what_an_interrupted_dpkg_left_is_configured_first(self):
        configured, why = self.room / "configured", "E: dpkg was interrupted"
        self.apt(f'[ "$1" = update ] || [ -e {configured} ] || {{ echo "{why}"\nexit 100; }}\n'
                 f"ln -sf /bin/true {self.first}/a-tool")
        self.stand_in("dpkg", f'[ "$*" != "--configure -a" ] || touch {configured}')
        self.write_list("two tool a-tool a part\n")
        self.assertEqual((0, "tools/packages: installing tool\n", ""),
                         self.run_packages("--install", "two"))

    def test_what_cannot_be_configured_is_told_by_apt_get(self):
        self.apt('[ "$1" = update ] || { echo "E: dpkg was interrupted"\nexit 100; }')
        self.stand_in("dpkg", "echo 'dpkg: error: dpkg frontend lock was locked'\nexit 2")
        self.write_list("two tool a-tool a part\n")
        self.assertEqual((1, "tools/packages: installing tool\ntools/packages: tool can't be "
                             "installed:\nE: dpkg was interrupted\ntwo: not installed: tool\n", ""),
                         self.run_packages("--install", "two"))

    def test_each_check_names_what_it_needs_by_the_list(self):
        text = "".join(f"{it} package-{it} {self.room}/none all\n"
                       for it in ("check_c", "check_run", "check_kernel"))
        self.write_list(text)
        self.stand_in("rt", f'echo "rattle-kit-99z logic {LOGIC}"')
        for name in "check_c", "check_run", "check_kernel":
            with self.subTest(name):
                status, said, errors = self.run_tool(f"tools/{name}", "--needs", top=self.top)
                self.assertEqual((1, f"{name}: not installed: package-{name}\n"),
                                 (status, said + errors))

    def test_an_unknown_check_is_an_error(self):
        status, said, errors = self.run_packages("--missing", "four")
        self.assertEqual((2, ""), (status, said))
        why = "packages: error: no packages are listed for four"
        self.assertEqual(why, errors.splitlines()[-1])
