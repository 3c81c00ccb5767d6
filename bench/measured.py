"""A small program of a bench script, proved, built and run by the kit in a repository of its own.

The repository is made for the time of the run, in a temporary folder: it has copies of the crates that the program stands on,
of what is kept of their proofs, and of their lines in crates.txt.
"""
import pathlib
import shutil
import subprocess
import sys
import tempfile

ROOT = pathlib.Path(__file__).resolve().parent.parent


def below(names):
    """The lines of crates.txt for these crates and those of ours that they stand on, by name."""
    lines = {}
    for line in (ROOT / "crates.txt").read_text().splitlines():
        name, colon, rest = line.partition(":")
        if colon and not line.startswith("#"):
            lines[name] = rest.split()
    found, left = {}, list(names)
    while left:
        name = left.pop()
        if name in lines and name not in found:
            found[name] = lines[name]
            left += lines[name]
    return found


def make(folder, used, source):
    """Writes the repository of the program, which stands on the crates `used`, and returns the program's folder."""
    crates = below(used)
    for name in crates:
        shutil.copytree(ROOT / "crates" / name, folder / "crates" / name)
    crates["measure"] = list(used)
    (folder / "crates.txt").write_text("".join("%s: %s\n" % (name, " ".join(rest)) for name, rest in crates.items()))
    place = folder / "crates" / "measure"
    (place / "src").mkdir(parents=True)
    (place / "src" / "main.rt").write_text(source)
    return place


def filled(program, values):
    """The program with a value in the place of each @WORD@."""
    for word, value in values.items():
        program = program.replace("@%s@" % word, str(value))
    return program


def told(used, source, given=""):
    """What the program told of what it was given: its lines, each as words."""
    folder = pathlib.Path(tempfile.mkdtemp(prefix="datalinks-bench-"))
    try:
        place = make(folder, used, source)
        run = subprocess.run(["rt", "run"], cwd=place, input=given, capture_output=True, text=True, check=False)
        if run.returncode != 0:
            sys.exit(run.stdout[-2000:] + run.stderr[-2000:] + "the program was not proved, built or run")
        return [line.split() for line in run.stdout.splitlines()]
    finally:
        shutil.rmtree(folder)
