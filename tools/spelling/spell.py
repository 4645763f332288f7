#!/usr/bin/env python3
"""Spells this repository's own definitions and lemmas as the newer Rattle does: functions, lemmas and fields in snake case, with a dash only
between two names of definitions, as in bytes_of-clamped.

usage: spell.py [--check] [FOLDER]     FOLDER is the checkout, by default the current folder

It follows port.py, which spells the library's names anew. Types, modules, names from Rust source and names that a library declares stay.
Two names that would fall together both stay, and a line 'left:' says so. It rewrites crates/*/{specs,proofs,src,must-fail} and docs/*.md.
It is for a tree that port.py has just turned: a second run there changes nothing, but later proofs answer goals whose names the check makes,
dashes and all, and those are not to be spelled anew.
"""
import os
import re
import sys
from collections import defaultdict

NAME = re.compile(r'[^\s(){}\[\].;,@"«»|`]+')
DECLARED = re.compile(r"^( *)((?:(?:pub|abbrev|unfoldable) )*)((?:[^\s:(){}]+ )+): ?")
OPENS = re.compile(r"^( *)(?:(?:pub|abbrev|unfoldable) )*(record|data|module|where)\b")
OWN = re.compile(r"Rattle\.(\w+)\.(specs|proofs)")
# words of the library that a lemma's name may join by a dash
WORDS = set("length get_or take drop set replicate map append cons nil zero suc min max add sub mul div pow eqb ltb leb cond true false any all find "
            "held put cut each move".split())
# names whose plain spelling is taken where they stand
INSTEAD = {"tooLong": "is_too_long", "listAt": "list_place_at"}
# what the generated modules declare: no name of the repository's own
GENERATED = re.compile(r"\.(declared|contracts)\b|\.(Tie|Statement|Reads|Lts|Symbol|Met|Goals|Given|TheLaws|TheVariants|TheConstants)\b")


def texts(root, *endings):
    for folder, dirs, files in os.walk(root):
        dirs[:] = sorted(d for d in dirs if d not in ("out", ".git", "target"))
        for f in sorted(files):
            if f.endswith(endings):
                yield os.path.join(folder, f)


def read(path):
    with open(path, encoding="utf-8") as f:
        return f.read()


def snake(word):
    return re.sub(r"(?<=[a-z0-9₀-₉'])([A-Z])", lambda m: "_" + m[1].lower(), word)


def imports(text):
    """The lines of use: the module's path, the items with what each is called here, and the module's alias."""
    for m in re.finditer(r"(?m)^ *(?:pub |ghost )?use ([^\s;{]+?)(?:\.?\{([^}]*)\})?(?: as (\S+?))?;?$", text):
        items = []
        for it in (m[2] or "").split(","):
            words = it.split()
            if words:
                items.append((words[0], words[-1]))
        yield m[1].rstrip("."), items, m[3]


def is_own(path, crates):
    m = OWN.match(path)
    return bool(m) and m[1] in crates and not GENERATED.search(path)


def declared(text):
    """The names that a file of specs/ or proofs/ declares, and those of them that are fields."""
    names, fields, blocks = set(), set(), []
    for line in text.split("\n"):
        if not line.strip() or line.lstrip().startswith("--"):
            continue
        depth = len(line) - len(line.lstrip())
        while blocks and depth <= blocks[-1][0]:
            blocks.pop()
        m = OPENS.match(line)
        if m:
            blocks.append((depth, m[2]))
        m = DECLARED.match(line)
        # what a function's proof answers has a name that Rattle gives
        if m and (line[m.end():].lstrip().startswith("tie.") or re.match(r"\s*pub \S+-spec : ", line)):
            continue
        if m and not re.search(r"\b(use|module|record|data)\b", m[3]):
            for n in m[3].split():
                names.add(n)
                if blocks and blocks[-1][1] == "record":
                    fields.add(n)
    return names, fields


def respelled(name, known):
    if not re.match(r"[^\W\d_]|[⊎∈×]", name) or name[0].isupper():
        return name
    parts = [snake(it) for it in name.split("-")]
    if any(not it for it in parts):
        return name
    out = parts[0]
    for a, b in zip(parts, parts[1:]):
        out += ("-" if a in known and b in known else "_") + b
    return out


class Speller:
    def __init__(self, root):
        self.crates = {c for c in os.listdir(os.path.join(root, "crates")) if os.path.isdir(os.path.join(root, "crates", c, "src"))}
        self.files = {p: read(p) for p in texts(os.path.join(root, "crates"), ".antt")}
        self.sources = {p: read(p) for p in texts(os.path.join(root, "crates"), ".rt", ".edit")}
        self.docs = {p: read(p) for p in texts(os.path.join(root, "docs"), ".md")}
        self.names, self.fields, self.by_file = set(), set(), {}
        for p, t in self.files.items():
            n, f = declared(t)
            self.by_file[p] = n
            self.names |= n
            self.fields |= f
        self.declares = defaultdict(set)
        for p, names in self.by_file.items():
            for n in names:
                self.declares[n].add(p)
        words = {snake(n) for n in self.names if "-" not in n and not n[0].isupper() and len(n) > 3 and any("/specs/" in p for p in self.declares[n])}
        self.known = words | WORDS
        self.table = self.made()

    def made(self):
        table = {n: INSTEAD.get(n) or respelled(n, self.known) for n in self.names}
        table = {a: b for a, b in table.items() if a != b}
        by_new = defaultdict(set)
        for a, b in table.items():
            by_new[b].add(a)
        # the words of each file, so that no two of one file fall together
        self.left = []
        used = defaultdict(set)
        for p, t in self.files.items():
            t = re.sub(r"(^|(?<= ))-- .*", "", t, flags=re.M)
            for m in NAME.finditer(t):
                if t[m.start() - 1] != "." or m[0] in self.fields:
                    used[m[0]].add(p)
        # in Rust source a parameter hides a word of its name; a function may have the name of the definition that it computes
        for p, t in self.sources.items():
            for w in re.findall(r"[\w-]+", t):
                if w in table:
                    used[w].add(p)
            for w in re.findall(r"\b(\w+): ", t):
                used[w].add(p)
        for b, olds in by_new.items():
            clash = len(olds) > 1
            for a in olds:
                if used[a] & (used[b] | self.declares[b]):
                    clash = True
            if clash:
                for a in olds:
                    self.left.append((a, b))
                    # a lemma keeps its dash, and only its camel case goes
                    c = snake(a)
                    if c != a and not used[a] & (used[c] | self.declares[c]):
                        table[a] = c
                    else:
                        del table[a]
        return table

    def turned(self, path, text):
        foreign, aliases = set(), set()
        own_here = self.by_file.get(path, set())
        for where, items, alias in imports(text):
            if is_own(where, self.crates):
                if alias:
                    aliases.add(alias)
                continue
            for it, called in items:
                if called not in own_here:
                    foreign.add(called)
                foreign.add(it) if it not in own_here else None
        if path.endswith(".rt"):
            return self.in_source(text)
        return self.in_logic(text, foreign - own_here, aliases)

    def in_logic(self, text, foreign, aliases):
        out = []
        for line in text.split("\n"):
            code, dashes, comment = line, "", ""
            at = re.search(r"(^| )-- ", line)
            if at:
                code, comment = line[: at.start()], line[at.start():]
            m = re.match(r" *(?:pub |ghost )?use ([^\s;{]+)", code)
            if m and not is_own(m[1].rstrip("."), self.crates):
                out.append(code + self.in_comment(comment))
                continue
            out.append(self.in_code(code, foreign, aliases) + self.in_comment(comment))
        return "\n".join(out)

    def in_code(self, code, foreign, aliases):
        def turn(m):
            w = m[0]
            if w not in self.table:
                return w
            before = code[: m.start()]
            if before.endswith("."):
                head = re.search(r"([^\s(){}.;,]+)\.$", before)
                if w in self.fields or head and head[1] in aliases or re.search(r"Rattle\.[\w.]*$", before):
                    return self.table[w]
                # a field of what an expression in parentheses gives, or of a generated place
                return w
            return w if w in foreign else self.table[w]
        return NAME.sub(turn, code)

    def in_comment(self, text):
        def turn(m):
            w = m[0].rstrip(":")
            if w in self.table and re.search(r"[a-z][A-Z]", w):
                return self.table[w] + m[0][len(w):]
            return m[0]
        text = NAME.sub(turn, text)
        return re.sub(r"`([^`\s]+)`", lambda m: "`" + self.table.get(m[1], m[1]) + "`", text)

    def in_source(self, text):
        """Clauses, ghost items and comments of Rust source, never a string."""
        def turn(m):
            w = m[0]
            return self.table[w] if w in self.table and (re.search(r"[a-z][A-Z]", w) or "-" in w) else w
        out = []
        for line in text.split("\n"):
            parts = re.split(r'("(?:[^"\\]|\\.)*")', line)
            out.append("".join(it if i % 2 else NAME.sub(turn, it) for i, it in enumerate(parts)))
        return "\n".join(out)


def once(root, check):
    it = Speller(root)
    changed = 0
    for p, t in list(it.files.items()) + list(it.sources.items()):
        new = it.in_source(t) if p.endswith((".rt", ".edit")) else it.turned(p, t)
        if new != t:
            changed += 1
            if not check:
                with open(p, "w", encoding="utf-8") as f:
                    f.write(new)
    for p, t in it.docs.items():
        new = it.in_comment(t)
        if new != t:
            changed += 1
            if not check:
                with open(p, "w", encoding="utf-8") as f:
                    f.write(new)
    for a, b in sorted(it.left):
        print(f"left: {a} and {b} would fall together; it is {it.table.get(a, a)}")
    print(f"{len(it.table)} names, {changed} files")
    return changed


def main(argv):
    check = "--check" in argv
    argv = [it for it in argv if it != "--check"]
    for _ in range(1 if check else 5):
        if not once(argv[0] if argv else ".", check):
            break
    return 0


if __name__ == "__main__":
    raise SystemExit(main(sys.argv[1:]))
