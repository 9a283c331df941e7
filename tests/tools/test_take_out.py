"""ports/linux/take_out.py: which definitions go out of small C files, and what it refuses."""
import pathlib

from tools import Case

KEPT = "int kept;\n"


class TakeOut(Case):
    def setUp(self):
        super().setUp()
        self.top = self.copy("ports/linux")
        self.folder = self.room / "kernel"
        self.folder.mkdir()

    def path(self, name="a.c"):
        return self.folder / name

    def run_take_out(self, text, *lines, files=None):
        """Follows a recipe of lines about a.c with this text."""
        for name, it in {"a.c": text, **(files or {})}.items():
            self.path(name).write_text(it, encoding="utf-8")
        recipe = self.room / "recipe"
        recipe.write_text("\n".join(["file a.c", *lines, ""]), encoding="utf-8")
        return self.run_tool("ports/linux/take_out.py", recipe, self.folder, top=self.top)

    def assert_left(self, left, text, *lines):
        self.assertEqual((0, "", ""), self.run_take_out(text, *lines))
        self.assertEqual(left, self.path().read_text(encoding="utf-8"))

    def assert_refused(self, why, text, *lines):
        self.assertEqual((1, "", f"take_out: a.c: {why}\n"), self.run_take_out(text, *lines))
        self.assertEqual(text, self.path().read_text(encoding="utf-8"))

    def test_a_function_goes_out_with_its_comment_and_its_export(self):
        text = (f"{KEPT}\n/*\n * Adds.\n */\nstatic int\nadd(int a, int b)\n{{\n"
                "\treturn a + b;\n}\n"
                "EXPORT_SYMBOL_GPL(add);\n\nint last;\n")
        self.assert_left(f"{KEPT}\nint last;\n", text, "out add")

    def test_the_comment_of_another_stays(self):
        text = f"/* of kept */\n{KEPT}\n/* free */\n\n// one\n// two\nvoid f(void) {{ }}\n"
        self.assert_left(f"/* of kept */\n{KEPT}\n/* free */\n\n", text, "out f")

    def test_an_export_of_another_stays(self):
        text = "void f(void)\n{\n}\nEXPORT_SYMBOL(g);\n"
        self.assert_left("EXPORT_SYMBOL(g);\n", text, "out f")

    def test_nested_braces_end_with_the_function(self):
        text = (f"void f(int a)\n{{\n\tif (a) {{\n\t\twhile (a) {{ a--; }}\n\t}}\n"
                f"\tint b[] = {{ 1, {{ 2 }} }};\n}}\n{KEPT}")
        self.assert_left(KEPT, text, "out f")

    def test_braces_in_comments_strings_and_macros_count_for_nothing(self):
        text = ("void f(void)\n{\n\t/* } */ char *a = \"}\\\"}\", b = '}'; // }\n"
                "#define OPEN { /* and\n } more */\n#define NEXT \\\n\t}\n\tg(\"/*\");\n}\n")
        self.assert_left(KEPT, text + KEPT, "out f")

    def test_a_name_in_a_comment_or_a_string_is_no_definition(self):
        text = "/* void f(void) { } */\nchar *s = \"void f(void) { }\";\n"
        self.assert_refused("it defines f 0 times, not once", text, "out f")

    def test_a_call_and_a_declaration_are_no_definitions(self):
        text = "int f(int);\nint g(int a)\n{\n\treturn f(a);\n}\n"
        self.assert_refused("it defines f 0 times, not once", text, "out f")

    def test_a_declaration_stays_beside_the_definition(self):
        self.assert_left("static int f(void);\n",
                         "static int f(void);\nstatic int f(void)\n{\n\treturn 1;\n}\n", "out f")

    def test_a_name_that_is_defined_twice_is_refused(self):
        text = "#ifdef A\nvoid f(void)\n{\n}\n#else\nvoid f(void)\n{\n}\n#endif\n"
        self.assert_refused("it defines f 2 times, not once", text, "out f")

    def test_variables_types_and_calls_of_macros_go_out(self):
        text = ("static struct a b = {\n\t.c = f(1),\n};\nstatic u64 array[2] ____aligned;\n"
                "struct type {\n\tint b;\n};\n__setup(\"b=\", want);\n" + KEPT)
        self.assert_left(KEPT, text, "out b array", "out type __setup")

    def test_part_of_a_name_is_not_the_name(self):
        self.assert_left("int ab;\nint b_a;\n", "int ab;\nint b;\nint b_a;\n", "out b")

    def test_a_definition_that_shares_a_line_is_refused(self):
        for text in "int a; int b;\n", "int b; int a;\n":
            self.assert_refused("a shares a line with other code", text, "out a")

    def test_braces_that_do_not_match_are_refused(self):
        for text in "void f(void)\n{\n", "void f(void)\n{\n}}\n", "int a\n":
            self.assert_refused("its braces don't match", text, "out f")

    def test_groups_go_out_whole(self):
        text = ("#ifdef A\nint a;\n# if B\nint b;\n# endif\n#else\nint c;\n#endif /* A */\n"
                f"#ifdef AB\n{KEPT}#endif\n#ifdef\tA\nint d;\n#endif\n")
        self.assert_left(f"#ifdef AB\n{KEPT}#endif\n", text, "groups ifdef A")
        self.assert_refused("it has no group #ifdef B", text, "groups ifdef B")

    def test_an_include_comes_where_the_last_definition_was(self):
        text = f"int a;\n{KEPT}/* f */\nvoid f(void)\n{{\n}}\nint end;\n"
        self.assert_left(f'#include "x.h"\n{KEPT}#include "y.c"\nint end;\n', text,
                         "out a # first", "in x.h", "", "out f", "in y.c")

    def test_no_file_changes_if_one_is_refused(self):
        ran = self.run_take_out("int a;\n", "out a", "file b.c", "out c", files={"b.c": "int b;\n"})
        self.assertEqual((1, "", "take_out: b.c: it defines c 0 times, not once\n"), ran)
        self.assertEqual("int a;\n", self.path().read_text(encoding="utf-8"))

    def test_the_recipe_of_the_port_names_each_file_that_it_includes(self):
        port = pathlib.Path(self.top / "ports/linux")
        included = [line.split()[1] for line in (port / "recipe").read_text().splitlines()
                    if line.startswith("in ")]
        self.assertEqual(["tkcore/port.h", "tkcore/timekeeping_tkcore.c", "tkcore/ntp_tkcore.c"],
                         included)
        for name in included:
            self.assertTrue((port / name).is_file(), name)
