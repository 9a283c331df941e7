# SPDX-License-Identifier: MIT OR Apache-2.0
"""The build backend of the package (PEP 517 and PEP 660), which needs only Python's library.

It makes the same bytes from the same files, with the time SOURCE_DATE_EPOCH or 1980-01-01.
"""
import ast
import base64
import gzip
import hashlib
import io
import os
import re
import tarfile
import tempfile
import time
import zipfile
from pathlib import Path

import build_library

HERE = Path(__file__).resolve().parent
# (the shared object needs no symbol of a C library, so it loads with each)
PLATFORMS = ("manylinux2014", "manylinux_2_17", "musllinux_1_1")
FIRST = 315532800  # 1980-01-01, the first time that a zip file can state


def project():
    """Returns the names and values of [project] in pyproject.toml, which are Python's literals."""
    text = (HERE / "pyproject.toml").read_text(encoding="utf-8")
    part = text.partition("[project]\n")[2].partition("\n[")[0]
    return {name: ast.literal_eval(value)
            for name, value in re.findall(r"^([\w-]+) = (.+)$", part, flags=re.M)}


def licences():
    """Returns the texts of the licences, which are in an sdist, or at the top of a clone."""
    return sorted([*HERE.glob("LICENSE-*")] or [*HERE.parents[1].glob("LICENSE-*")])


def addresses():
    """Returns the lines with the project's address: that of TKCORE_URL, or of the source package."""
    told = HERE / "PKG-INFO"
    kept = told.read_text(encoding="utf-8") if told.is_file() else ""
    given = os.environ.get("TKCORE_URL")
    return ([f"Project-URL: Source, {given}"] if given else
            re.findall(r"^Project-URL: .+$", kept.partition("\n\n")[0], re.M))


def metadata():
    given = project()
    lines = ["Metadata-Version: 2.1", f"Name: {given['name']}", f"Version: {given['version']}",
             f"Summary: {given['description']}", f"License: {given['license']}",
             f"Keywords: {','.join(given['keywords'])}", *addresses(),
             *(f"Classifier: {it}" for it in given["classifiers"]),
             f"Requires-Python: {given['requires-python']}", "Provides-Extra: numpy",
             'Requires-Dist: numpy; extra == "numpy"', "Description-Content-Type: text/markdown",
             *(f"License-File: {it.name}" for it in licences())]
    return "\n".join([*lines, "", (HERE / "README.md").read_text(encoding="utf-8")]).encode()


def modules():
    folder = HERE / "src" / "tkcore"
    return {f"tkcore/{it.name}": it.read_bytes()
            for it in sorted(folder.iterdir()) if it.suffix in (".py", ".typed")}


def moment():
    return max(int(os.environ.get("SOURCE_DATE_EPOCH", FIRST)), FIRST)


def recorded(name, content):
    total = base64.urlsafe_b64encode(hashlib.sha256(content).digest()).rstrip(b"=").decode()
    return f"{name},sha256={total},{len(content)}"


def write_wheel(folder, tag, files):
    """Writes a wheel with these files and its .dist-info. Returns its name."""
    given = project()
    name = f"{given['name']}-{given['version']}"
    about = f"{name}.dist-info"
    wheel = ["Wheel-Version: 1.0", "Generator: tkcore", "Root-Is-Purelib: false",
             *(f"Tag: py3-none-{it}" for it in tag.split("."))]
    files = {**files, **{f"{about}/licenses/{it.name}": it.read_bytes() for it in licences()},
             f"{about}/METADATA": metadata(), f"{about}/WHEEL": "\n".join([*wheel, ""]).encode()}
    record = [*(recorded(*it) for it in files.items()), f"{about}/RECORD,,", ""]
    files[f"{about}/RECORD"] = "\n".join(record).encode()
    with zipfile.ZipFile(Path(folder, f"{name}-py3-none-{tag}.whl"), "w") as made:
        for path, content in files.items():
            entry = zipfile.ZipInfo(path, time.gmtime(moment())[:6])
            entry.external_attr = (0o755 if path.endswith(".so") else 0o644) << 16
            made.writestr(entry, content, zipfile.ZIP_DEFLATED)
    return f"{name}-py3-none-{tag}.whl"


def build(target):
    try:
        return build_library.build(target)
    except build_library.Missing as missing:
        raise SystemExit(f"tkcore: {missing}") from None


def build_wheel(wheel_directory, config_settings=None, metadata_directory=None):
    with tempfile.TemporaryDirectory() as folder:
        made = Path(folder, "_tkcore.so")
        machine = build(made)
        files = {**modules(), "tkcore/_tkcore.so": made.read_bytes()}
    return write_wheel(wheel_directory, ".".join(f"{it}_{machine}" for it in PLATFORMS), files)


def build_editable(wheel_directory, config_settings=None, metadata_directory=None):
    machine = build(HERE / "src" / "tkcore" / "_tkcore.so")
    return write_wheel(wheel_directory, f"linux_{machine}",
                       {"tkcore.pth": f"{HERE / 'src'}\n".encode()})


def build_sdist(sdist_directory, config_settings=None):
    """Writes an archive with the sources, and with the library's texts and headers in c/."""
    given = project()
    name = f"{given['name']}-{given['version']}"
    own = ["pyproject.toml", "README.md", *(it.name for it in HERE.glob("*.py"))]
    own += [it.relative_to(HERE).as_posix() for folder in ("src/tkcore", "tests")
            for it in HERE.joinpath(folder).iterdir() if it.suffix in (".py", ".c", ".typed")]
    files = {it: (HERE / it).read_bytes() for it in own}
    files.update((f"c/{where}", path.read_bytes()) for where, path in build_library.sources())
    files.update((it.name, it.read_bytes()) for it in licences())
    files["PKG-INFO"] = metadata()
    packed = io.BytesIO()
    with tarfile.open(fileobj=packed, mode="w", format=tarfile.PAX_FORMAT) as made:
        for path, content in sorted(files.items()):
            entry = tarfile.TarInfo(f"{name}/{path}")
            entry.size, entry.mtime, entry.mode = len(content), moment(), 0o644
            made.addfile(entry, io.BytesIO(content))
    Path(sdist_directory, f"{name}.tar.gz").write_bytes(
        gzip.compress(packed.getvalue(), 9, mtime=moment()))
    return f"{name}.tar.gz"
