#!/usr/bin/env python3
"""Proves one library of this checkout over the libraries that a run of `rt ci` left in another clone.

    tools/prove-one.py DONE NAME [--jobs N] [flags of `rattle build`]

DONE is a clone in which the gate has proved what NAME stands on. `OUT=FILE` in the environment says where the library goes; without it
it is made in a folder of its own and dropped. `--incremental DIR` checks with what DIR has kept of an earlier round, and makes no library.
The verdict that counts is that of `rt ci NAME`."""
import os
import pathlib
import sys
import tempfile

KIT = "/opt/rattle"


def needs_of(lines):
    """What each crate stands on, from crates.txt."""
    needs = {}
    for line in lines:
        if ":" in line and not line.startswith("#"):
            name, below = line.split(":")
            needs[name.strip()] = below.split()
    return needs


def all_below(needs, name):
    """All crates below one."""
    met, waiting = [], list(needs.get(name, []))
    while waiting:
        next_one = waiting.pop()
        if next_one not in met:
            met.append(next_one)
            waiting += needs.get(next_one, [])
    return met


def main():
    if len(sys.argv) < 3:
        sys.exit(__doc__)
    done, name, flags = pathlib.Path(sys.argv[1]).resolve(), sys.argv[2], sys.argv[3:]
    root = pathlib.Path(__file__).resolve().parent.parent
    needs = needs_of(open(root / "crates.txt"))

    def library(below):
        if below in needs:
            return done / "crates" / below / "out" / "rlib" / f"{below}.rlib"
        return pathlib.Path(KIT) / "rlibs" / f"{below}.rlib"

    command = [f"{KIT}/bin/rattle", "check" if "--incremental" in flags else "build", "--crate-name", name, "src/lib.rt"]
    command += ["--extern", f"std={KIT}/rlibs/std.rlib", "-L", f"dependency={KIT}/rlibs"]
    for below in needs[name]:
        command += ["--extern", f"{below}={library(below)}"]
    for below in sorted(all_below(needs, name)):
        if below in needs:
            command += ["-L", f"dependency={library(below).parent}"]
    command += ["--antt-project", f"{KIT}/rattle/logic/antt-project.json", "--logic-built", f"{KIT}/logic_built", "--links", f"{name}="]
    if "--jobs" not in flags:
        command += ["--jobs", "2"]
    if "--incremental" not in flags:
        out = os.environ.get("OUT") or os.path.join(tempfile.mkdtemp(), f"{name}.rlib")
        command += ["--statements", "--empty-contracts", "-o", out]
    os.chdir(root / "crates" / name)
    os.execv(command[0], command + flags)


if __name__ == "__main__":
    main()
