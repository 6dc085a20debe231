#!/usr/bin/env python3
"""The steps before proving that take no thought, after port.py and respell.py.

usage: python3 tools/prepare.py       at the top of the repository

Writes #![tactic(auto)] near the head of each crate's root file, below its first comment and above the first item, so that the check tries its
tactics, and #[derive(Clone, Copy)] where port.py wrote #[derive(Drop)]: in the older Rattle each of these types was plain and was copied.
It has git leave out what `rt` keeps in crates/*/out/. A second run writes nothing more. It also says which crates of crates.txt are called as
a library of the kit, and which lines name libc or os, which `rt ci` refuses: those are mended by hand.
"""

import os
import re
import shutil
import sys

LINE = "#![tactic(auto)]"


def prepared(text):
    if re.search(r"(?m)^#!\[tactic\(auto\)\]", text):
        return text
    lines = text.split("\n")
    at = 0
    while at < len(lines) and lines[at].startswith("//"):
        at += 1
    # A comment right above an item is that item's, unless it is the file's first line and ghost use lines follow.
    if at < len(lines) and at and lines[at].strip() and not lines[at].startswith(("ghost use", "use ", "mod ", "pub mod", "#![")):
        at = 0
    blank = [""] if at < len(lines) and lines[at].strip() else []
    return "\n".join(lines[:at] + [LINE] + blank + lines[at:])


def main():
    if not os.path.exists("crates.txt"):
        sys.exit(__doc__)
    written = 0
    for crate in sorted(os.listdir("crates")):
        for root in ("lib.rt", "main.rt"):
            path = os.path.join("crates", crate, "src", root)
            if not os.path.exists(path):
                continue
            with open(path, encoding="utf-8") as f:
                old = f.read()
            new = prepared(old)
            if new != old:
                with open(path, "w", encoding="utf-8") as f:
                    f.write(new)
                written += 1
    print(f"{written} root files have {LINE} now")
    copied = 0
    for folder, folders, files in os.walk("crates"):
        folders[:] = sorted(it for it in folders if it not in ("out", "specs", "proofs", "data"))
        for path in (os.path.join(folder, it) for it in sorted(files) if it.endswith(".rt")):
            with open(path, encoding="utf-8") as f:
                old = f.read()
            new = old.replace("#[derive(Drop)]\n", "#[derive(Clone, Copy)]\n")
            if new != old:
                with open(path, "w", encoding="utf-8") as f:
                    f.write(new)
                copied += old.count("#[derive(Drop)]\n")
    with open(".gitignore", "a+", encoding="utf-8") as f:
        f.seek(0)
        if "crates/*/out/" not in f.read().split("\n"):
            f.write("crates/*/out/\n")
    print(f"{copied} types derive Clone and Copy now")
    rt = shutil.which("rt")
    kit = os.path.dirname(os.path.dirname(os.path.realpath(rt))) if rt else ""
    rlibs = os.path.join(kit, "rlibs")
    theirs = {it[:-5] for it in os.listdir(rlibs)} if os.path.isdir(rlibs) else set()
    with open("crates.txt", encoding="utf-8") as f:
        for line in f:
            m = re.match(r"(\w+)[^:#]*:([^#]*)", line)
            if m and m[1] in theirs:
                print(f"by hand: {m[1]} is called as a library of the kit")
            if m and {"libc", "os"} & set(m[2].split()):
                print(f"by hand: {m[1]} lists {', '.join(sorted({'libc', 'os'} & set(m[2].split())))}, and rt ci refuses it where HANDLES has no Net or Processes")
    return 0


if __name__ == "__main__":
    sys.exit(main())
