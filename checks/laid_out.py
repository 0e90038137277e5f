"""The repository with the crates of tests/ among the others, laid out in a folder of its own.

rt ci proves each crate that crates.txts names, tests included, and refuses a source file that none of them reads. So
what is only to be run stands in tests/: its files under other endings, and its lines of crates.txt in tests/lines.txt.
rt takes it once both are turned back.
"""
import contextlib
import glob
import os
import shutil
import signal
import sys
import tempfile

from kept import crates_of

ROOT = os.path.dirname(os.path.dirname(os.path.realpath(__file__)))
LINES = "tests/lines.txt"
# How names of files end in tests/, and how in a crate.
ENDINGS = {".rs": ".rt", ".proof": ".antt"}


def of_tests():
    """The names of the crates of tests/."""
    return [*crates_of(ROOT, LINES)]


def every_crate():
    """The names of all crates: those of crates.txt, and behind them those of tests/."""
    return [*crates_of(ROOT), *of_tests()]


def copy(crate, to, endings):
    """Has a folder hold the files of a crate, under other endings, and of what it held only its out/."""
    for it in os.listdir(to) if os.path.isdir(to) else ():
        if it != "out":
            (shutil.rmtree if os.path.isdir(f"{to}/{it}") else os.remove)(f"{to}/{it}")

    def copy_file(one, other):
        base, ending = os.path.splitext(other)
        shutil.copy2(one, base + endings.get(ending, ending))

    shutil.copytree(crate, to, ignore=shutil.ignore_patterns("out"), dirs_exist_ok=True, copy_function=copy_file)


def lay_out(folder):
    """Lays the repository out there as it stands, also what isn't committed. The out/ of what was laid out there before
    stays."""
    unlisted = {it.split("/")[-2] for it in glob.glob(f"{ROOT}/tests/*/src")} - {*of_tests()}
    if unlisted:
        sys.exit(f"{LINES} has no line of {', '.join(sorted(unlisted))}")
    os.makedirs(folder, exist_ok=True)
    shutil.copy2(f"{ROOT}/HANDLES", folder)
    with open(f"{folder}/crates.txt", "wb") as lines:
        for it in ("crates.txt", LINES):
            with open(f"{ROOT}/{it}", "rb") as some:
                lines.write(some.read())
    for it in crates_of(ROOT):
        copy(f"{ROOT}/crates/{it}", f"{folder}/crates/{it}", {})
    for it in of_tests():
        copy(f"{ROOT}/tests/{it}", f"{folder}/crates/{it}", ENDINGS)


def bring_back(folder):
    """Has tests/ hold what stands of its crates in a folder where the repository was laid out."""
    for it in of_tests():
        copy(f"{folder}/crates/{it}", f"{ROOT}/tests/{it}", {crate: ours for ours, crate in ENDINGS.items()})


@contextlib.contextmanager
def laid_out():
    """Lays the repository out in a new folder, and gives that. It is gone at the end, also if an interrupt or a
    signal to end comes."""
    for it in (signal.SIGTERM, signal.SIGHUP):
        if signal.getsignal(it) is signal.SIG_DFL:
            signal.signal(it, lambda number, _: sys.exit(128 + number))
    with tempfile.TemporaryDirectory(prefix="calloop-") as folder:
        lay_out(folder)
        yield folder
