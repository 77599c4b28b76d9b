"""What the scripts share: a copy of crates that they may change, what a command says, and the last line, which counts what passed."""
import contextlib
import shutil
import subprocess
import tempfile
from pathlib import Path

TOP = Path(__file__).resolve().parent.parent
CRATES = TOP / "crates"
TESTS = CRATES / "ndarray_tests"


@contextlib.contextmanager
def copy_of(names, *more):
    """A temporary repository of these crates, with further lines in crates.txt for new ones."""
    with tempfile.TemporaryDirectory() as top:
        lines = [it for it in (TOP / "crates.txt").read_text().splitlines() if it.partition(":")[0] in names]
        Path(top, "crates.txt").write_text("\n".join([*lines, *more]) + "\n")
        shutil.copy(TOP / "HANDLES", top)
        for name in names:
            shutil.copytree(CRATES / name, f"{top}/crates/{name}", ignore=shutil.ignore_patterns("out"))
        yield Path(top)


def put(files, sources):
    """Copies texts into a folder as sources, and gives the names of their modules."""
    sources.mkdir(parents=True, exist_ok=True)
    return [shutil.copy(file, sources / f"{file.stem}.rt").stem for file in sorted(files)]


def said_by(command, folder):
    """What a command prints, errors among it."""
    how = {"stdout": subprocess.PIPE, "stderr": subprocess.STDOUT, "text": True, "errors": "replace"}
    return subprocess.run(command.split(), cwd=folder, check=False, **how).stdout


def count(tried, wrong):
    """Prints what was wrong, and as the last line how many passed; gives the status of the script."""
    for it in [*wrong, f"{tried - len(wrong)} passed, {len(wrong)} failed"]:
        print(it)
    return int(bool(wrong) or not tried)
