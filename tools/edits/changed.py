"""The crates that differ from a revision of git."""
import pathlib
import subprocess

import rattle


def git(*words):
    """Returns the paths that a git command prints. Raises ValueError with git's reason."""
    ran = subprocess.run(["git", *words, "-z", "--", "crates"], cwd=rattle.ROOT, check=False,
                         capture_output=True, text=True)
    if ran.returncode:
        raise ValueError(ran.stderr.strip().splitlines()[0])
    return [pathlib.PurePath(it) for it in ran.stdout.split("\0") if it]


def crates_since(base):
    """Returns the names of the crates whose files differ from the revision `base`.

    Files that aren't committed yet count, added and deleted ones too. Only sources, definitions,
    proofs and wrong edits do.
    """
    # (of a moved file both names count)
    paths = [*git("diff", "--name-only", "--no-renames", "--relative", base),
             *git("ls-files", "--others", "--exclude-standard")]
    judged = {*rattle.PARTS, rattle.EDITS}
    names = {it.parts[1] for it in paths if len(it.parts) > 3 and it.parts[2] in judged}
    return [name for name in rattle.crates() if name in names]
