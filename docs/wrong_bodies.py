#!/usr/bin/env python3
"""Looks after the wrong bodies that the merge gate doesn't try, those in crates/*/wrong-bodies.

    docs/wrong_bodies.py --check    tells which of them no longer fit the code, and exits with 1 then
    docs/wrong_bodies.py NAME..     tries those of these crates on a copy of the repository: the proof has to refuse each

An edit has the form of those in crates/*/must-fail: a line 'file: PATH', and then pairs of lines 'old: TEXT' and
'new: TEXT'. Each old text stands once in the file, once the pairs before it were applied. To try one takes a proof of
its crate, and of each crate below that isn't built.
"""

import shutil
import subprocess
import sys
import tempfile
from pathlib import Path

ROOT = Path(__file__).resolve().parent.parent
CRATES = ROOT / "crates"


def misfit(edit):
    """Why the edit can't be applied, or None."""
    crate, path, text, old = edit.parent.parent, None, "", None
    for line in edit.read_text().splitlines():
        if line.startswith("file: "):
            path = crate / line[len("file: ") :].strip()
            if not path.is_file():
                return f"there is no file {path.relative_to(crate)}"
            text = path.read_text()
        elif line.startswith("old: "):
            old = line[len("old: ") :]
        elif line.startswith("new: ") and path and old:
            if text.count(old) != 1:
                return f"an old text stands {text.count(old)} times in {path.relative_to(crate)}"
            text, old = text.replace(old, line[len("new: ") :]), None
    return None if path else "it names no file"


def check():
    """Tells each edit that can't be applied, and answers whether there is none."""
    edits = sorted(CRATES.glob("*/wrong-bodies/*.edit"))
    faults = [(edit, why) for edit in edits if (why := misfit(edit))]
    for edit, why in faults:
        print(f"{edit.relative_to(ROOT)}: {why}")
    print(f"wrong bodies outside the gate: {len(edits)}, of which {len(faults)} don't fit the code")
    return not faults


def attempt(names):
    """Tries the edits of these crates on a copy, and answers whether each is refused."""
    with tempfile.TemporaryDirectory(prefix="wrong-bodies-") as room:
        copy = Path(room) / "copy"
        shutil.copytree(ROOT, copy, ignore=shutil.ignore_patterns(".git"))
        for name in names:
            crate = copy / "crates" / name
            shutil.rmtree(crate / "must-fail", ignore_errors=True)
            shutil.copytree(crate / "wrong-bodies", crate / "must-fail")
        return subprocess.run(["rt", "must-fail", *names], cwd=copy).returncode == 0


def main(words):
    if words == ["--check"]:
        return check()
    unknown = [name for name in words if not (CRATES / name / "wrong-bodies").is_dir()]
    if not words or unknown:
        sys.exit(__doc__ + "".join(f"\n{name} has no such wrong bodies" for name in unknown))
    return attempt(words)


if __name__ == "__main__":
    sys.exit(0 if main(sys.argv[1:]) else 1)
