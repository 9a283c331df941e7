"""The checks of CI in their order, which .ci/run runs."""
import argparse
import os
import sys

sys.dont_write_bytecode = True
import rattle  # noqa: E402
from checks.job import BESIDE, IDLE  # noqa: E402
from checks.run import Run  # noqa: E402
from checks.stops import Stops  # noqa: E402

CHECKS = ("check_docs", "must_fail", "tests/tools", "check_using", "rt ci", "check_c",
          "check_bindings", "check_program", "check_run", "check_kernel", "check_web", "check_linux")
LIMIT_SEC = 3600  # no check but the proofs takes longer, on two processors too


def check_all(run):
    """Runs all checks; those that take long only if the first ones pass.

    Packages may be installed meanwhile: a check that misses some waits for them. check_linux runs on
    the processors that the checks after `rt ci` leave idle: its guests are in virtual time.
    """
    run.check("check_docs", "tools/check_docs")
    run.check("must_fail", "tools/must_fail", "--apply")
    if run.has_failed():
        return
    # (`rt ci` proves in a copy, whose folders out/ it empties)
    proofs, libraries, built = run.copy("proofs"), run.work / "libraries", run.work / "c"
    prove(run, proofs, libraries, built)
    if not run.has_failed():
        run.start("check_program", proofs / "tools/check_program", "--libraries", libraries)
        run.start("check_linux", "tools/check_linux", nice=IDLE)
    for name in "tests/tools", "check_using", "check_c":
        run.end(name)
    if built.is_dir() or not run.has_failed("check_c"):
        run.check("check_bindings", "tools/check_bindings", "--dist", built)
    run.end("check_program")
    if run.has_failed():
        return
    os.environ["TKCORE"] = str(proofs / "crates/tkcore/out/tkcore")
    run.start("check_kernel", "tools/check_kernel", "--dist", built)
    run.start("check_web", "tools/check_web", "--libraries", libraries, "--dist", built,
              nice=BESIDE)
    run.check("check_run", "tools/check_run", "--dist", built)
    run.end("check_kernel")
    run.end("check_web")
    run.end("check_linux")


def prove(run, proofs, libraries, built):
    """Runs `rt ci`, and what needs no proof next to it as soon as the packages are installed.

    check_c starts when the libraries below both archives are proved. The kernels of check_linux are
    built on the processors that all others leave idle.
    """
    below = [libraries / f"{it.name}.rlib" for name in ("tk_c", "tk_session_c")
             for it in rattle.crates()[name].below]

    def start_all():
        run.start("tests/tools", "python3", "-B", "-m", "unittest", "discover", "-s",
                  "tests/tools", nice=BESIDE)
        run.start("check_using", "tools/check_using", nice=BESIDE)
        run.prepare("check_linux", "tools/check_linux", "--build")
        if run.has_ended("rt ci") or all(it.exists() for it in below):
            run.start("check_c", "tools/check_c", "--libraries", libraries, "--keep", built,
                      nice=BESIDE)

    def start_if_ready():
        if run.has_packages():
            start_all()

    # `rt ci`, and some wrong edits next to it
    run.start("rt ci", "tools/must_fail", "--ci", proofs, "--libraries", libraries,
              is_limited=False)
    run.end("rt ci", start_if_ready)
    start_all()


def main():
    read = argparse.ArgumentParser(prog=".ci/run")
    read.add_argument("--install", action="store_true",
                      help="install what is missing too, as with CI=true")
    given = read.parse_args()
    rattle.require_logic(".ci/run")
    is_strict = given.install or os.environ.get("CI") == "true"
    run = Run(CHECKS, rattle.ROOT, is_strict, Stops(), int(os.environ.get("CI_LIMIT", LIMIT_SEC)))
    try:
        if is_strict:
            run.install()
        check_all(run)
        run.end_installing()
        return run.report()
    finally:
        run.close()


if __name__ == "__main__":
    sys.exit(main())
