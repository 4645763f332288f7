#!/usr/bin/env python3
"""Drops from the proof files of functions the imports that nothing in the file names.

usage: imports.py FOLDER..      FOLDER is a crate's folder; it reads proofs/**/Answers.antt and Invariants.antt
"""
import os
import re
import sys

NAME = re.compile(r'[^\s(){}\[\].;,@"«»]+')


def parts(item):
    """The words by which an imported name can be used: an operator's symbols, or the name."""
    word = item.split()[-1]
    return [it for it in word.split("◌") if it.strip("[]")] if "◌" in word else [word] if word.strip("[]") else []


def thinned(text):
    body = "\n".join(l for l in text.split("\n") if not l.startswith(("use ", "--")))
    words = set(NAME.findall(body))
    plain = set(re.split(r"[\s(){}\[\].;,@\"«»]+", body))
    out = []
    for line in text.split("\n"):
        m = re.match(r"use ([^{]+)\{([^}]*)\}$", line)
        if m and " as goal" not in line:
            items = [it.strip() for it in m[2].split(",")]
            kept = [it for it in items if all(p in words or p in plain for p in parts(it))]
            if not kept:
                continue
            line = f"use {m[1]}{{{', '.join(kept)}}}"
        elif re.match(r"use \S+ as (\S+)$", line) and not line.endswith(" as goal"):
            if line.split()[-1] not in words:
                continue
        out.append(line)
    return "\n".join(out)


def main(argv):
    for crate in argv:
        for folder, _, files in os.walk(os.path.join(crate, "proofs")):
            for f in files:
                if f in ("Answers.antt", "Invariants.antt"):
                    path = os.path.join(folder, f)
                    old = open(path).read()
                    new = thinned(old)
                    if new != old:
                        open(path, "w").write(new)


if __name__ == "__main__":
    main(sys.argv[1:])
