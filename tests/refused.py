#!/usr/bin/env python3
"""Try the edits of tests/refused, each of which the compiler itself must refuse.

Such an edit never reaches the prover, so it is no must-fail edit. Each file names a crate,
a file of it, a text that stands there once, what to put in its place, and the error that
the check must then give. The edit is made in a copy of the crate outside the repository.
Status 1 where an edit passes, or fails with another error.
"""
import pathlib
import re
import shutil
import subprocess
import sys
import tempfile

ROOT = pathlib.Path(__file__).resolve().parent.parent


def edit_of(path):
    return dict(line.split(": ", 1) for line in path.read_text().splitlines())


def first_error(edit, folder):
    """The name of the first error of a check of the edited crate, or None."""
    crate = pathlib.Path(folder) / "crates" / edit["crate"]
    shutil.copytree(ROOT / "crates" / edit["crate"], crate, ignore=shutil.ignore_patterns("out"))
    (pathlib.Path(folder) / "crates.txt").write_text(f"{edit['crate']}:\n")
    source = crate / edit["file"]
    text = source.read_text()
    if text.count(edit["old"]) != 1:
        sys.exit(f"{edit['old']!r} stands {text.count(edit['old'])} times in {edit['file']}")
    source.write_text(text.replace(edit["old"], edit["new"]))
    run = subprocess.run(["rt", "check"], cwd=crate, capture_output=True, text=True)
    found = re.search(r"error\[([a-z0-9-]+)\]", run.stdout + run.stderr)
    return found.group(1) if run.returncode != 0 and found else None


def main():
    failed = False
    for path in sorted((ROOT / "tests/refused").glob("*.edit")):
        edit = edit_of(path)
        with tempfile.TemporaryDirectory() as folder:
            error = first_error(edit, folder)
        right = error == edit["error"]
        failed |= not right
        print(f"refused {path.stem}: {error}" if right else f"NOT REFUSED AS NAMED {path.stem}: {error}, not {edit['error']}")
    sys.exit(failed)


main()
