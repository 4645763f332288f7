#!/usr/bin/env python3
"""Counts, in crates/*/src, the places that docs/DESIGN-PASS.md speaks of.

    python3 tools/places/count.py          a line for each point
    python3 tools/places/count.py 3        the places of a point, one a line
"""
import collections
import glob
import re
import sys

FILES = sorted(glob.glob("crates/*/src/*.rt"))
TEXT = {f: open(f).read().split("\n") for f in FILES}
ITEM = re.compile(r"^(?:pub(?:\(crate\))? )?(struct|enum) (\w+)")
FN = re.compile(r"^\s*(?:pub(?:\(crate\))? )?(?:extern \"C\" )?fn (\w+)")
# what a case is called that holds nothing, or says only that there is nothing
EMPTY = {"Nothing", "NoComponent", "NoData", "Unread", "None", "Done", "DoesNotFit", "Clear", "Refused"}


def items(kind):
    for f, lines in TEXT.items():
        i = 0
        while i < len(lines):
            m = ITEM.match(lines[i])
            if m and m.group(1) == kind and lines[i].endswith("{"):
                j = i
                while not lines[j].startswith("}"):
                    j += 1
                yield f, i + 1, m.group(2), lines[i + 1:j]
                i = j
            i += 1


def functions():
    for f, lines in TEXT.items():
        i = 0
        while i < len(lines):
            m = FN.match(lines[i])
            if m:
                end = re.match(r"\s*", lines[i]).group(0) + "}"
                j = i
                while j < len(lines) - 1 and not (lines[j] == end or (j == i and lines[j].endswith("}"))):
                    j += 1
                yield f, i + 1, m.group(1), lines[i:j + 1]
                i = j
            i += 1


def point_1():
    for f, n, name, body in items("enum"):
        cases = {re.match(r"\s*(\w+)", x).group(1) for x in body if re.match(r"^    \w", x)}
        if cases & EMPTY:
            yield f"{f}:{n}: enum {name}: {', '.join(sorted(cases & EMPTY))}"
    for f, n, name, body in items("struct"):
        flags = [x.strip() for x in body if x.strip().endswith(": bool,")]
        if flags:
            yield f"{f}:{n}: struct {name}: {' '.join(flags)}"
    for f, n, name, body in items("struct"):
        if any(re.search(r"\bkind: (u64|usize|u8)", x) for x in body):
            yield f"{f}:{n}: struct {name}: a kind by number"
    for f, lines in TEXT.items():
        for n, x in enumerate(lines, 1):
            if re.search(r"^\s*//.*(; (n|\d+)( too)?( where|,| \w+ there)|, or \d+|else \d+\b|\d+ where|\(kind 0\)|\(\d\d\d\))", x):
                yield f"{f}:{n}: a number that says none: {x.strip()}"
    for f, n, name, body in functions():
        if re.search(r"\b\w+: bool, n: usize", " ".join(body[:12])):
            yield f"{f}:{n}: fn {name}: a flag and a value travel as parameters"


def shape(body):
    text = re.sub(r"//.*", "", "\n".join(body))
    text = re.sub(r"(?s)^\s*(?:pub(?:\(crate\))? )?fn \w+", "fn", text)
    words = collections.OrderedDict()
    keep = {"fn", "let", "mut", "if", "else", "while", "for", "in", "return", "match", "true", "false", "requires", "ensures", "result"}

    def name(m):
        w = m.group(0)
        return w if w in keep else words.setdefault(w, f"w{len(words)}")
    text = re.sub(r"[A-Za-z_][\w]*", name, text)
    text = re.sub(r"\b(0x[\w]+|\d[\w.]*)", "#", text)
    text = re.sub(r"(?s)\b(requires|ensures)\b.*?\n(?=\{|\s*\{\n)", "", text)
    return re.sub(r"\s+", " ", text)


def point_2():
    groups = collections.defaultdict(list)
    for f, n, name, body in functions():
        if len(body) >= 6:
            groups[shape(body)].append(f"{f}:{n} {name}")
    for g in groups.values():
        if len(g) > 1:
            yield "; ".join(g)
    fields = collections.defaultdict(list)
    for f, n, name, body in items("struct"):
        fields[re.sub(r": [^,]*", "", " ".join(x.strip() for x in body))].append(f"{f}:{n} struct {name}")
    for g in fields.values():
        if len(g) > 1:
            yield "; ".join(g)


def point_3():
    for f, lines in TEXT.items():
        for n, x in enumerate(lines, 1):
            if re.match(r"\s*('\w+: )?(while(?! let)|loop)\b", x):
                yield f"{f}:{n}: {x.strip()}"


def point_4():
    named = re.compile(r"^(same_\w+|comes_before|at_most|min|max|digit|number_of|\w*_code|named\w*|of_\w+|wide|whole_\w+|byte_or_zero|cut_\w+|write_two|write_four|write_eight|copy_\w+|clear|placed_bits|hex\w*|decimal|bits|print_\w+|put_digit\w*|empty_\w+|no_\w+|error_of|reply_\w+|sum|difference|product|product_by|positions|component_inputs)$")
    for f, n, name, body in functions():
        if named.match(name):
            yield f"{f}:{n}: fn {name}"


def facts():
    found = collections.defaultdict(set)
    for f, n, name, body in functions():
        text = " ".join(x.strip() for x in body)
        for m in re.finditer(r"\b(requires|ensures)(?: \w+)? \{ (.*?) \}(?= requires| ensures| \{|$)", text):
            for x in re.split(r" × ", m.group(2)):
                x = x.strip("() ")
                if len(x) > 8:
                    found[x].add(f"{f}:{n} {name}")
    return found


def point_5():
    for x, fs in sorted(facts().items(), key=lambda p: -len(p[1])):
        if len(fs) >= 3:
            yield f"{len(fs)} functions say: {x}"
    groups = collections.defaultdict(set)
    for f, n, name, body in functions():
        text = " ".join(x.strip() for x in body)
        m = re.match(r".*?fn \w+(?:<.*?>)?\((.*?)\)", text)
        ps = [p.strip() for p in m.group(1).split(", ")] if m else []
        ps = [p.strip(",") for p in ps if ":" in p]
        for size in (3, 4, 5):
            for i in range(len(ps) - size + 1):
                groups[", ".join(ps[i:i + size])].add(f"{f}:{n} {name}")
    for x, fs in sorted(groups.items(), key=lambda p: -len(p[1])):
        if len(fs) >= 3:
            yield f"{len(fs)} functions take: {x}"


def point_6():
    for f, n, name, body in items("struct"):
        arrays = [x.strip() for x in body if re.search(r": \[", x)]
        if arrays:
            yield f"{f}:{n}: struct {name}: {' '.join(arrays)}"
    for f, n, name, body in functions():
        text = " ".join(x.strip() for x in body[:14])
        m = re.match(r".*?fn \w+(?:<.*?>)?\((.*?)\)", text)
        if m and re.search(r": &?(mut )?\[[^\]]*; \d+\], \w+: usize", m.group(1)):
            yield f"{f}:{n}: fn {name}: {m.group(1)}"


def point_7():
    for f, n, name, body in functions():
        text = "\n".join(body)
        for m in re.finditer(r"match (\w+) \{", text):
            if re.search(r"=> [\w:.]+\(", text[m.end():]) and re.search(r"match (which|c|command|kind|asked|self\.asked|k) \{", m.group(0)):
                yield f"{f}:{n}: fn {name}: {m.group(0)} .. }}"


def point_8():
    for f in sorted(glob.glob("crates/*/proofs/**/*.antt", recursive=True)):
        yield f"{f}: {sum(1 for _ in open(f))} lines"


POINTS = {"1": point_1, "2": point_2, "3": point_3, "4": point_4, "5": point_5, "6": point_6, "7": point_7, "8": point_8}

if len(sys.argv) > 1:
    for line in POINTS[sys.argv[1]]():
        print(line)
else:
    for k, p in POINTS.items():
        print(f"point {k}: {len(list(p()))}")
    print("lines of proofs:", sum(sum(1 for _ in open(f)) for f in glob.glob("crates/*/proofs/**/*.antt", recursive=True)))
