"""The Debian packages that the checks use, as tools/packages.txt lists them."""
import dataclasses
import functools
import glob
import os
import pathlib
import re
import shutil
import subprocess
import tempfile

LIST = pathlib.Path(__file__).resolve().parents[1] / "packages.txt"
INSTALL = ["install", "-y", "-q", "--no-install-recommends", "-o", "DPkg::Lock::Timeout=600"]
APT = pathlib.Path("/etc/apt")
# how the list names a source, and a package that is unpacked and not installed; where both are
SOURCE, UNPACKED, FOLDER = "source:", "deb:", "/usr/src"


@dataclasses.dataclass(frozen=True)
class Use:
    """A line of the list: a package that a check uses."""

    check: str
    package: str
    found_by: str  # a program, a path, or "-"
    part: str  # the part of the check that needs it, or "all"

    @property
    def is_needed(self):
        """Whether the whole check is left out without the package."""
        return self.part == "all"

    @property
    def is_installed(self):
        if self.found_by == "-":
            return self.package in installed()
        return any(is_there(os.path.expandvars(it)) for it in self.found_by.split("|"))


def is_there(name):
    """Whether a path exists, or a program is in PATH or where Debian has those of root."""
    if "/" in name:
        return bool(glob.glob(name))
    return bool(shutil.which(name, path=f"{os.environ['PATH']}:/usr/sbin:/sbin"))


@functools.cache
def installed():
    """Returns the names of the packages that dpkg has installed: none on another system."""
    words = ["dpkg-query", "--show", "--showformat=${db:Status-Status} ${Package}\n"]
    try:
        said = subprocess.run(words, capture_output=True, text=True, check=False).stdout
    except FileNotFoundError:
        return frozenset()
    return frozenset(it.split()[1] for it in said.splitlines() if it.startswith("installed "))


@functools.cache
def uses():
    """Returns the lines of the list."""
    lines = LIST.read_text(encoding="utf-8").splitlines()
    return [Use(*line.split(maxsplit=3)) for line in lines if line and not line.startswith("#")]


def checks():
    """Returns the names of the checks that use packages."""
    return list(dict.fromkeys(it.check for it in uses()))


def of(check):
    return [it for it in uses() if it.check == check]


def missing(check, is_needed_only=False):
    """Returns the packages of a check that aren't installed, or only those that all of it needs."""
    return list(dict.fromkeys(it.package for it in of(check) if not it.is_installed
                              and (it.is_needed or not is_needed_only)))


def named_in(check, reason):
    """Returns the packages of a check that a reason names, or none if it is another reason.

    A reason is a list of packages, or "NAME isn't installed" with a package or its program.
    """
    program, is_program, _ = reason.partition(" isn't installed")
    names = [pathlib.Path(program).name] if is_program else reason.split()
    listed = {pathlib.Path(it.found_by).name: it.package for it in of(check)}
    listed |= {it.package: it.package for it in of(check)}
    return [listed[it] for it in names] if set(names) <= set(listed) else []


def run(*words, folder=None):
    """Runs a command in a folder. Returns its status and the last lines that it printed."""
    try:
        ran = subprocess.run(words, check=False, text=True, errors="replace",
                             env={**os.environ, "DEBIAN_FRONTEND": "noninteractive"}, cwd=folder,
                             stdin=subprocess.DEVNULL, stdout=subprocess.PIPE,
                             stderr=subprocess.STDOUT)
    except FileNotFoundError:
        return 127, f"there is no {words[0]}"
    return ran.returncode, "\n".join(ran.stdout.splitlines()[-5:])


def apt_get(*words, folder=None):
    return run("apt-get", *words, folder=folder)


def unpack(name):
    """Downloads a package, and unpacks it without installing it: FOLDER/deb-NAME. Returns the status
    and the last lines of what failed."""
    with tempfile.TemporaryDirectory() as room:
        status, said = apt_get("download", "-q", name, folder=room)
        if status:
            return status, said
        return run("dpkg", "-x", *glob.glob(f"{room}/*.deb"), f"{FOLDER}/deb-{name}")


def install(names):
    """Installs packages, each alone if they can't be installed together. Yields what failed.

    apt-get installs nothing after a dpkg that was interrupted, so what that one left is configured
    first. If it can't be, apt-get fails, and says why.
    """
    run("dpkg", "--configure", "-a")
    status, said = apt_get("update", "-q")
    if status:
        yield f"apt-get update failed:\n{said}"
    sources = [it for it in names if it.startswith(SOURCE)]
    unpacked = [it for it in names if it.startswith(UNPACKED)]
    binaries = [it for it in names if it not in sources + unpacked]
    if binaries and apt_get(*INSTALL, *binaries)[0]:
        yield from failures([(name, *apt_get(*INSTALL, name)) for name in binaries])
    yield from failures([(name, *unpack(name[len(UNPACKED):])) for name in unpacked])
    if sources:
        with tempfile.TemporaryDirectory() as room:
            options = source_options(pathlib.Path(room))
            apt_get(*options, "update", "-q")
            yield from failures([(name, *apt_get(*options, "source", "-q", name[len(SOURCE):],
                                                 folder=FOLDER)) for name in sources])


def failures(results):
    """Yields a sentence for each of these results of apt-get that is a failure."""
    yield from (f"{name} can't be installed:\n{said}" for name, status, said in results if status)


def source_options(room):
    """Returns the options with which apt-get knows Debian's sources, by the system's own list."""
    stanzas = [it for path in sorted(APT.glob("sources.list.d/*.sources"))
               for it in path.read_text(encoding="utf-8").split("\n\n") if "debian-archive" in it]
    listed = room / "debian.sources"
    listed.write_text("\n\n".join(re.sub("(?m)^Types:.*", "Types: deb-src", it)
                                  for it in stanzas), encoding="utf-8")
    (room / "lists" / "partial").mkdir(parents=True)
    room.chmod(0o755)
    return ["-o", f"Dir::Etc::sourcelist={listed}", "-o", "Dir::Etc::sourceparts=/dev/null",
            "-o", f"Dir::State::lists={room / 'lists'}", "-o", "Dir::Cache::srcpkgcache=",
            "-o", "Dir::Cache::pkgcache="]
