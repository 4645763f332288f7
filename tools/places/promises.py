#!/usr/bin/env python3
"""Lists what is public and differs between a commit and the files as they stand: signatures with their clauses, types, members
of impls, definitions of specs/ and theorems (proofs/Theorems), old and new one below the other.

    python3 tools/places/promises.py COMMIT
"""
import re
import subprocess
import sys

COMMIT = sys.argv[1]


def old_files():
    names = subprocess.run(["git", "ls-tree", "-r", "--name-only", COMMIT, "crates"], capture_output=True, text=True, check=True).stdout.split()
    for n in names:
        if wanted(n):
            yield n, subprocess.run(["git", "show", f"{COMMIT}:{n}"], capture_output=True, text=True, check=True).stdout


def new_files():
    names = subprocess.run(["git", "ls-files", "crates"], capture_output=True, text=True, check=True).stdout.split()
    for n in names:
        if wanted(n):
            yield n, open(n).read()


def wanted(n):
    return re.match(r"crates/\w+/(src/.*\.rt|specs/.*\.antt|proofs/Theorems.*\.antt)$", n)


def squeeze(lines):
    return re.sub(r"\s+", " ", " ".join(x.strip() for x in lines)).replace("( ", "(").replace(", )", ")").replace(",)", ")")


def items_rt(crate, text):
    lines = text.split("\n")
    where = ""
    for i, x in enumerate(lines):
        m = re.match(r"(?:#\[.*)?(impl|pub trait)\b(.*?)\s*\{$", x)
        if m:
            where = re.sub(r"^<[^>]*> ", "", m.group(2)).strip() if m.group(1) == "impl" else "trait " + m.group(2).strip()
        if x == "}":
            where = ""
        m = re.match(r"\s*pub (?:extern \"C\" )?fn (\w+)", x) or (where.startswith("trait") and re.match(r"\s+fn (\w+)", x))
        if m:
            j = i
            while j < len(lines) and not re.match(r"\s*\{$", lines[j]) and not lines[j].rstrip().endswith("{}"):
                if lines[j].rstrip().endswith(";") and j > i:
                    break
                if j == i and lines[j].rstrip().endswith("{") and not lines[j + 1].strip().startswith(("requires", "ensures")):
                    break
                j += 1
            yield f"{crate} {where + '::' if where else ''}{m.group(1)}", squeeze(lines[i:j] or [x.rstrip(" {")])
        m = re.match(r"\s+ghost (\w+)( = | ?: ?)(.*)$", x)
        if m and where:
            yield f"{crate} {where}: ghost {m.group(1)}", x.strip()
        m = re.match(r"pub (struct|enum|type|trait|const) (\w+)", x)
        if m:
            j = i
            while x.endswith("{") and lines[j] != "}":
                j += 1
            yield f"{crate} {m.group(1)} {m.group(2)}", squeeze(lines[i:j + 1])


def items_antt(crate, name, text):
    lines = text.split("\n")
    file = re.sub(r"crates/\w+/", "", name)
    i = 0
    while i < len(lines):
        m = re.match(r"(?:abbrev |unfoldable )?pub (?:record |data )?([^\s:(]+)", lines[i])
        if m and m.group(1) not in ("mod", "use"):
            j = i + 1
            while j < len(lines) and not re.match(r"(--|pub |abbrev |unfoldable |module |mod |use )", lines[j]):
                j += 1
            yield f"{crate} {file} {m.group(1)}", squeeze(y for y in lines[i:j] if not y.strip().startswith("--"))
            i = j - 1
        i += 1


def gather(files):
    found = {}
    for n, text in files:
        crate = n.split("/")[1]
        for k, v in items_rt(crate, text) if n.endswith(".rt") else items_antt(crate, n, text):
            found[k] = v
    return found


old, new = gather(old_files()), gather(new_files())
for k in sorted(old | new):
    a, b = old.get(k), new.get(k)
    if a != b:
        print(f"- {k}")
        print(f"  - old: {'none' if a is None else '`' + a + '`'}")
        print(f"  - new: {'none' if b is None else '`' + b + '`'}")
