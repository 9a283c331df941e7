"""Makes the parts of release/ from the proofs: the texts of the library, of sessions and of the
program, and modules of the first two."""
import gzip
import pathlib
import subprocess
import tempfile

import rattle

from . import manifest, sources

MACHINES = ("x86_64", "aarch64")
TOOLS = ("c/text", "c/placed.py", "c/unwind/*.py", "release_text/*.py")  # what shapes a text
LINKING = ("c/module",)  # what shapes a module
ARCHIVES = {"tk_c": "tkcore", "tk_session_c": "session"}  # the name of each crate's text and module
# the crates of each part, and the tools besides
SOURCES = {"library": ([*ARCHIVES], TOOLS), "program": (["tkcore"], TOOLS),
           "module": ([*ARCHIVES], LINKING)}
COMPILERS = ("bin/rattle", "toolchain/bin/clang", "toolchain/bin/llvm-ar")
# the first processor of each kind, so that the program needs no test of the processor
FIRST = {"x86_64": "x86-64", "aarch64": "generic"}


class Failed(Exception):
    """What a part wasn't made for."""


def run(*command):
    ran = subprocess.run(command, capture_output=True, check=False)
    if ran.returncode:
        raise Failed(f"{command[0]} failed:\n{ran.stderr.decode(errors='replace').strip()}")
    return ran.stdout


def sources_of(part):
    """Returns the names of the files that a part is made from."""
    names, tools = SOURCES[part]
    return sources.found([*below(part), *(rattle.crates()[name] for name in names)], tools)


def below(part):
    """Returns the crates below those of a part, lowest first."""
    return list(dict.fromkeys(it for name in SOURCES[part][0]
                              for it in rattle.crates()[name].below))


def all_sources(parts):
    """Returns the lines of the MANIFEST on the files that these parts are made from."""
    return sources.lines({name for part in parts for name in sources_of(part)})


def different_sources(parts):
    """Returns the names of the files that aren't those of the MANIFEST with these parts, and in
    brackets those of the parts that were made from others."""
    made = [part for part in parts if part != sources.PART]
    names = {name for part in made for name in sources_of(part)}
    return [*sources.differences(parts.get(sources.PART, []), names),
            *(f"[{part}]" for part in made if sources.total(sources_of(part)) not in parts[part])]


def verdict_of(crate, status, said):
    """Returns the line of the verdict in what a build printed."""
    if status:
        raise Failed(f"{crate.name} isn't built:\n{said}")
    return rattle.verdict_in(said)


def prove_below(part, libraries):
    if not rattle.build_all(below(part), libraries):
        raise Failed(f"not all crates below {' and '.join(SOURCES[part][0])} are proved")


def begun(part, libraries, maker=("gas", "as")):
    """Proves the crates below those of a part. Returns the part's first lines."""
    prove_below(part, libraries)
    if unknown := [it.name for it in below(part) if not it.verdict(libraries).exists()]:
        raise Failed(f"{libraries} has no verdicts of {' '.join(unknown)}")
    kit = [manifest.line_of(rattle.kit() / name, f"KIT/{name}") for name in COMPILERS]
    verdicts = [f"{it.name}: {it.verdict(libraries).read_text(encoding='utf-8').strip()}"
                for it in below(part)]
    name, program = maker
    version = run(program, "--version").decode().splitlines()[0]
    return [f"kit: {rattle.rt('version')}", *kit, f"{name}: {version}",
            sources.total(sources_of(part)), *verdicts]


def compiled(name, target, libraries, tool, *words):
    """Proves and compiles an archive, and passes it to a tool of tools/c. Returns the line of the
    verdict."""
    crate = rattle.crates()[name]
    with tempfile.TemporaryDirectory() as room:
        archive = pathlib.Path(room, f"lib{name}.a")
        verdict = verdict_of(crate, *crate.archive(libraries, "llvm", target, archive))
        run(rattle.ROOT / "tools" / "c" / tool, archive, *words)
    return f"{name}: {verdict}"


def library(libraries, out):
    """Writes the texts of the archives for each machine, and returns the lines of their part."""
    lines, texts = begun("library", libraries), []
    for name, file in ARCHIVES.items():
        for machine in MACHINES:
            text = out / machine / f"{file}.s"
            text.parent.mkdir(parents=True, exist_ok=True)
            lines.append(compiled(name, f"{machine}-unknown-linux-gnu", libraries, "text", machine,
                                  text))
            texts.append(manifest.line_of(text, f"{machine}/{text.name}"))
    return lines + texts


def program_of(machine):
    """Returns the name of the program's compressed text."""
    return f"{machine}/program.s.gz"


def compiled_program(libraries, machine, made, *more):
    """Proves and compiles the program for a machine into an object file, with more of rattle's
    arguments. Returns the line of the verdict."""
    crate = rattle.crates()["tkcore"]
    built = crate.run("build", libraries, f"--toolchain={rattle.kit() / 'toolchain'}",
                      f"--target={machine}-unknown-linux-gnu", f"--cpu={FIRST[machine]}",
                      *more, f"-o={made}")
    return verdict_of(crate, *built)


def release_text(*words):
    return run("python3", "-B", rattle.ROOT / "tools" / "release_text", *words)


def program(libraries, out):
    """Writes the program's text for each machine, compressed, and returns the lines of its part."""
    crate = rattle.crates()["tkcore"]
    lines, texts = begun("program", libraries), []
    for machine in MACHINES:
        with tempfile.TemporaryDirectory() as room:
            made = pathlib.Path(room, "tkcore.o")
            lines.append(f"{crate.name}: {compiled_program(libraries, machine, made)}")
            text = release_text(made)
        packed = out / program_of(machine)
        packed.parent.mkdir(parents=True, exist_ok=True)
        packed.write_bytes(gzip.compress(text, 9, mtime=0))
        texts.append(manifest.line_of(packed, program_of(machine)))
    return lines + texts


def differences_of_program(libraries, machine, packed):
    """Compiles the program, and compares it with what gas makes of its compressed text. Returns how
    they differ, or "".
    """
    prove_below("program", libraries)
    with tempfile.TemporaryDirectory() as room:
        made, text = pathlib.Path(room, "tkcore.o"), pathlib.Path(room, "program.s")
        text.write_bytes(run("gzip", "-dc", packed))
        with rattle.crates()["tkcore"].kept(libraries) as kept:
            compiled_program(libraries, machine, made, kept)
        try:
            release_text("--compare", made, text)
        except Failed as failed:
            return str(failed)
    return ""


def module(libraries, out):
    """Writes the modules of the archives, and returns the lines of their part."""
    lines = begun("module", libraries, ("binaryen", "wasm-opt"))
    lines += [compiled(name, "wasm64-unknown-unknown", libraries, "module", out, file)
              for name, file in ARCHIVES.items()]
    names = [f"{machine}/{file}.wasm" for file in ARCHIVES.values()
             for machine in ("wasm64", "wasm32")]
    return lines + [manifest.line_of(out / name, name) for name in names]


PARTS = {"library": library, "program": program, "module": module}
