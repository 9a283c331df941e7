"""The commands of the Rattle toolchain, composed from crates.txt as one would call rustc.

It uses only documented interfaces: `rt version` and `rt doc`, the toolchain's folder rlibs, and the
flags that `rattle build --help`, `rattle check --help` and `rattle-link` list. Any toolchain of the
logic LOGIC serves; as a program, `rattle.py TOOL` ends with status 2 if the logic is another.
"""
import contextlib
import dataclasses
import fcntl
import functools
import os
import pathlib
import subprocess
import sys
import time
from concurrent import futures

ROOT = pathlib.Path(__file__).resolve().parent.parent
LOGIC = "dac8208d650f15bf"
PARTS = ("src", "specs", "proofs")
EDITS = "must-fail-together"  # the folder of a crate's wrong edits


def rt(verb):
    """Returns what `rt VERB` prints, or "" if there is no `rt`."""
    ran = subprocess.run(["sh", "-c", f"rt {verb}"], capture_output=True, text=True, check=False)
    return ran.stdout.strip()


def require_logic(tool):
    """Ends a tool with one sentence and status 2 if the toolchain has another logic."""
    version = rt("version") or "nothing"
    if f"logic {LOGIC}" not in version:
        print(f"{tool}: needs logic {LOGIC}, rt version prints {version}", file=sys.stderr)
        sys.exit(2)


@functools.cache
def kit():
    """Returns the folder of the toolchain."""
    return pathlib.Path(rt("doc")).parent


def processors():
    """Returns how many checks to run side by side: each takes up to 3 GB."""
    return min(len(os.sched_getaffinity(0)), 8)


@dataclasses.dataclass(frozen=True)
class Crate:
    """A line of crates.txt."""

    name: str
    kind: str  # "staticlib", or "" for a library or a program
    uses: tuple  # the names after the colon

    @property
    def folder(self):
        return ROOT / "crates" / self.name

    @property
    def is_program(self):
        return (self.folder / "src" / "main.rt").is_file()

    @functools.cached_property
    def below(self):
        """The crates of the repository that this one uses, also through others, lowest first."""
        own = [crates()[name] for name in self.uses if name in crates()]
        return list(dict.fromkeys(low for it in own for low in (*it.below, it)))

    def files(self):
        """Returns the files of its sources, definitions and proofs."""
        return self.folder.glob("[sp]*/**/*.*t")

    def changed(self):
        """Returns when a file of the crate, or of one below it, was last changed."""
        files = [path for it in (*self.below, self) for path in it.files()]
        return max(path.stat().st_mtime for path in files)

    def jobs(self):
        """Returns how many processes prove it: up to four, and one for each 1,500 lines.

        Each process loads the crate's libraries again, which takes some 12 s of a processor.
        """
        lines = sum(path.read_bytes().count(b"\n") for path in self.files())
        return min(max(1, lines // 1500), processors(), 4)

    def arguments(self, libraries, folder):
        """Returns rattle's arguments for the crate's files in a folder, over built libraries."""
        rlibs = kit() / "rlibs"
        places = [(it, libraries if it in crates() else rlibs) for it in ("std", *self.uses)]
        kind = [f"--crate-type={self.kind}"] if self.kind else []
        return [f"--crate-name={self.name}", f"-Ldependency={rlibs}", f"-Ldependency={libraries}",
                *(f"--extern={name}={place / name}.rlib" for name, place in places), *kind,
                f"--antt-project={kit() / 'rattle' / 'logic' / 'antt-project.json'}",
                f"{folder}/src/{'main' if self.is_program else 'lib'}.rt"]

    def run(self, command, libraries, *more, folder=None):
        """Runs `rattle COMMAND` on the crate's files, and returns its status and its output."""
        given = ["rattle", command, *self.arguments(libraries, folder or self.folder), *more]
        # (a command on a checked crate reads no logic)
        if not any(it.startswith("--crate-checked=") for it in more):
            given.append(f"--logic-built={kit() / 'logic_built'}")
        ran = subprocess.run(given, cwd=folder or self.folder, check=False, errors="replace",
                             stdin=subprocess.DEVNULL, stdout=subprocess.PIPE,
                             stderr=subprocess.STDOUT)
        return ran.returncode, ran.stdout

    def build(self, libraries):
        """Proves the crate and puts NAME.rlib, or a program's NAME, into a folder of libraries."""
        if not self.is_program:
            return self.run("build", libraries, f"--jobs={self.jobs()}", "--statements",
                            f"-o={libraries / self.name}.rlib")
        # (a program has few functions, and a second process would load its libraries again)
        made, toolchain = libraries / f"{self.name}.o", kit() / "toolchain"
        status, said = self.run("build", libraries, f"--toolchain={toolchain}", f"-o={made}")
        if status:
            return status, said
        given = ["--target", "x86_64-unknown-linux-gnu", "--toolchain", toolchain,
                 "-o", libraries / self.name, made, *sorted((kit() / "c").glob("lib*.a"))]
        ran = subprocess.run([kit() / "bin" / "rattle-link", *given], check=False, text=True,
                             stderr=subprocess.PIPE)
        return ran.returncode, ran.stderr

    def is_built(self, libraries):
        return self.is_newer(libraries / (self.name if self.is_program else f"{self.name}.rlib"))

    def is_newer(self, made):
        """Whether a file or folder was made after the crate and those below it were changed."""
        return made.exists() and made.stat().st_mtime > self.changed()

    def archive(self, libraries, backend, target, made):
        """Compiles a static library into the archive `made`. Proves it once for each target in a
        folder of libraries, for both backends."""
        checked = libraries / f"{self.name}.{target}.checked"
        if not self.is_newer(checked):
            # (each process more would load the libraries again)
            status, said = self.run("check", libraries, "--jobs=1", f"--target={target}",
                                    f"-o={checked}")
            if status:
                return status, said
        return self.compile(libraries, backend, target, made, f"--crate-checked={checked}")

    @contextlib.contextmanager
    def kept(self, libraries):
        """Gives the argument by which rattle keeps what it proves of the crate in a folder of
        libraries, where it serves each target and backend. One run at a time works there."""
        with (libraries / f"{self.name}.lock").open("w", encoding="utf-8") as lock:
            fcntl.flock(lock, fcntl.LOCK_EX)
            yield f"--incremental={libraries / self.name}.kept"

    def archive_over(self, libraries, backend, target, made):
        """Proves a static library over what is kept, and compiles it into the archive `made`."""
        with self.kept(libraries) as kept:
            return self.compile(libraries, backend, target, made, "--jobs=1", kept)

    def compile(self, libraries, backend, target, made, *more):
        return self.run("build", libraries, *more, f"--backend={backend}", f"--target={target}",
                        f"--toolchain={kit() / 'toolchain'}", f"-o={made}")

    def verdict(self, libraries):
        """Returns the file in which `prove` keeps the line of the prover's verdict."""
        return libraries / f"{self.name}.verdict"


@functools.cache
def crates():
    """Returns the crates of crates.txt by their names."""
    lines = (ROOT / "crates.txt").read_text(encoding="utf-8").splitlines()
    parts = [line.partition("#")[0].partition(":") for line in lines]
    heads = [(head.split(), uses.split()) for head, _, uses in parts if head.strip()]
    return {name: Crate(name, " ".join(kind), tuple(uses)) for (name, *kind), uses in heads}


def product():
    """Returns the crates of the product: the part of crates.txt with this heading."""
    text = (ROOT / "crates.txt").read_text(encoding="utf-8")
    lines = text.partition("# The product")[2].partition("\n#")[0].splitlines()[1:]
    return [crates()[it.partition(":")[0].split()[0]] for it in lines]


def verdict_in(said):
    """Returns the line of the verdict in what the prover printed, or ""."""
    return next((it for it in said.splitlines() if it.startswith("logic=")), "")


def prove(crate, libraries):
    """Builds a crate unless it is built, with a line that says so. Returns whether it is proved."""
    if crate.is_built(libraries):
        return True
    started = time.monotonic()
    status, said = crate.build(libraries)
    crate.verdict(libraries).write_text(verdict_in(said) + "\n", encoding="utf-8")
    what = f"{'NOT PROVED' if status else 'proved'} in {time.monotonic() - started:.0f} s"
    print(f"{said if status else ''}{crate.name} {what}", flush=True)
    return status == 0


def build_all(wanted, libraries):
    """Builds crates, each once those below it are built. Returns whether all are proved."""
    waiting, running, done = list(wanted), {}, set()
    with futures.ThreadPoolExecutor(len(waiting) or 1) as pool:
        while True:
            for it in [it for it in waiting if done.issuperset(it.below)]:
                waiting.remove(it)
                running[pool.submit(prove, it, libraries)] = it
            if not running:
                return not waiting and len(done) == len(wanted)
            ended = futures.wait(running, return_when="FIRST_COMPLETED").done
            done |= {crate for crate, is_proved in
                     [(running.pop(it), it.result()) for it in ended] if is_proved}


if __name__ == "__main__":
    require_logic(*sys.argv[1:])
