#!/usr/bin/env python3
"""Turns a crate's proofs/**/Proof.antt, which answer needs in the older form, into Invariants.antt and Answers.antt.

usage: answers.py CRATE NAMES     CRATE is the crate's folder, NAMES the names.json of `rt check --generated DIR --old-names`

An answer that only says `search rules` or `omega arith` goes, since the check finds it. What it could not turn is printed as a line 'left:'.
"""
import json
import os
import re
import sys

TRIVIAL = {"search rules", "omega arith", "omega (arith)", "(omega arith)", "refl", "tt"}
TOKEN = r"[^\s(){}\[\].;,@\"«»]+"


def plain(name):
    return name.replace("-", "_")


def unnested(text):
    """The declarations of a module over a place of the proof, each as one that takes the place."""
    out, lines, i = [], text.split("\n"), 0
    while i < len(lines):
        m = re.match(r"module _ \((\w+) : tie\.([^)]*)\) where$", lines[i])
        if not m:
            out.append(lines[i])
            i += 1
            continue
        i += 1
        while i < len(lines) and (not lines[i].strip() or lines[i].startswith("  ")):
            line = lines[i][2:]
            d = re.match(r"((?:(?:pub|abbrev|unfoldable) )*)(\S+) :(?= |$)(.*)", line)
            if d and not line.startswith(("--", " ", "unfolding")):
                line = f"{d[1]}{d[2]} : ({m[1]} : tie.{m[2]}) →{d[3]}"
                name = d[2]
            else:
                d = re.match(r"(\S+)((?: \S+)*? =.*)", line)
                if d and not line.startswith((" ", "--")) and d[1] == name:
                    line = f"{d[1]} {m[1]}{d[2]}"
            out.append(line)
            i += 1
    return "\n".join(out)


class Names:
    """The places of one function, and what each old name is called now."""

    def __init__(self, table):
        self.table = table
        self.places = table["places"]
        self.by_new = {n: i for i, n in enumerate(table["places_by_name"])}
        self.parents = []
        old = {}
        for i, p in enumerate(self.places):
            self.parents.append(old.get(p[1]))
            old[p[0]] = i
        self.old = old
        self.needs = {plain(a): (b, k) for k, (a, b) in enumerate(table["needs"])}
        self.args = [(a.replace(" ", ""), b.replace(" ", "")) for a, b in (tuple(it) for each in [table.get("args") or []] for it in each)]

    def at_need(self, k):
        """The place of the k-th need, or None where Rattle settles it."""
        return self.by_new.get(self.table["asked_at"][k][1])

    def above(self, place):
        while place is not None:
            yield place
            place = self.parents[place]

    def turned(self, place, path):
        """What a path of fields from a place is called now."""
        if not path:
            return path
        head = plain(path[0])
        for q in self.above(place):
            arm = self.table["arms"][q] if self.table.get("arms") else None
            if arm:
                new, _, fields = arm
                for field, step, below in sorted(fields, key=lambda it: -len(it[2])):
                    if plain(step) == head and below and path[1 : 1 + len(below)] == below:
                        return [new, field, *path[1 + len(below):]]
            name, _, (was, now), _, changed = self.places[q]
            if was and plain(was) == head:
                rest = path[1:]
                if rest:
                    rest = [dict(map(tuple, changed)).get(rest[0], rest[0]), *rest[1:]]
                if arm and arm[0] == now or arm:
                    pass
                return [now, *rest]
        text = "." + ".".join(path)
        for a, b in self.args:
            if text == a or text.startswith(a + "."):
                text = b + text[len(a):]
                break
        return text[1:].split(".")


def chunks(text):
    """The head of a file and its declarations: (comment, signature, rest, name)."""
    lines = text.split("\n")
    head, i = [], 0
    while i < len(lines) and (not lines[i].strip() or lines[i].startswith(("--", "use ", "  ", "    "))):
        if lines[i].startswith("--") and i + 1 < len(lines) and re.match(r"(pub |abbrev |unfoldable )*\S+ :( |$)", lines[i + 1]) and not lines[i + 1].startswith("use "):
            break
        head.append(lines[i])
        i += 1
    body, decls, comment = lines[i:], [], []
    cur = None
    for line in body:
        m = re.match(r"((?:(?:pub|abbrev|unfoldable) )*)(\S+)() :(?= |$)", line)
        if line.startswith("--"):
            if cur:
                decls.append(cur)
                cur = None
            comment.append(line)
        elif m and not line.startswith(" ") and not re.match(r"(use|module|where|record|data) ", line):
            if cur:
                decls.append(cur)
            cur = {"name": m[2], "comment": comment, "lines": [line]}
            comment = []
        elif cur:
            cur["lines"].append(line)
        elif line.strip():
            cur = {"name": "", "comment": comment, "lines": [line]}
            comment = []
    if cur:
        decls.append(cur)
    for d in decls:
        while d["lines"] and not d["lines"][-1].strip():
            d["lines"].pop()
        text = "\n".join(d["lines"])
        # the signature goes on until a line of its own that begins with the name or with unfolding
        at = next((k for k, l in enumerate(d["lines"][1:], 1) if re.match(rf"(unfolding |{re.escape(d['name'])}(?![^\s(){{}}.;,]))", l)), len(d["lines"]))
        d["signature"] = "\n".join(d["lines"][:at])
        d["rest"] = "\n".join(d["lines"][at:])
    return head, decls


def sub_context(text, names, place, helpers, said, ctx="c"):
    """Turns every path that begins with a context: c, or a name that a let binds to one."""
    contexts = {ctx}
    # a name that a let binds to the arguments: they may be called otherwise now
    for m in re.finditer(r"let (\w+) = \w+(?:\.before)*\.args in", text):
        for a, b in names.args:
            if a.startswith(".args."):
                text = re.sub(rf"(?<![^\s(){{}}\[\],;]){m[1]}{re.escape(a[5:])}(?![\w-])", m[1] + b[5:], text)
    # let a = c.before.before in / let a = c.before.args in
    for m in re.finditer(rf"let (\S+) = ({TOKEN})((?:\.before)*) in", text):
        if m[2] in contexts:
            contexts.add(m[1])
    heads = "|".join(re.escape(it) for it in sorted(contexts, key=len, reverse=True))

    def turn(m):
        var, befores, path = m[1], m[2] or "", [it for it in (m[3] or "").split(".") if it]
        if not path:
            before = text[: m.start()]
            h = re.search(rf"({TOKEN})\s*$", before)
            if h and h[1] in helpers:
                return "\x00"
            return var
        return ".".join([var, *names.turned(place, path)])

    return re.sub(rf"(?<![^\s(){{}}\[\],;])({heads})((?:\.before)*)((?:\.(?!before\b){TOKEN})*)(?=[\s(){{}}\[\],;]|$)", turn, text).replace(" \x00", "")


def bound(value, lets, unfolds):
    """A term below a let for each helper that it names."""
    words, wanted = set(re.findall(TOKEN, value)), []
    more = True
    while more:
        more = False
        for name, (typ, body) in lets.items():
            if name in words and name not in wanted:
                wanted.append(name)
                words |= set(re.findall(TOKEN, body))
                more = True
    # a helper stands below those that it names
    order, names = [], set(wanted)
    while names:
        ready = [n for n in wanted if n in names and not (set(re.findall(TOKEN, lets[n][1])) & (names - {n}))]
        if not ready:
            break
        order += ready
        names -= set(ready)
    return "".join(f"let {n} : {lets[n][0]} = {lets[n][1]} in\n    " for n in order) + value, [u for n in order for u in unfolds.get(n, [])]


def tidied(text):
    """A name for the context itself goes, and so does a lemma whose fact the context has."""
    while True:
        m = re.search(r"let (\w+) = c in\s+", text)
        if not m:
            break
        text = text.replace(m[0], "", 1)
        text = re.sub(rf"(?<![^\s(){{}}\[\],;]){m[1]}(?=\.|\s+in\b)", "c", text)
    text = text.replace(".well-formed", ".well_formed")
    # the length of an array that a record holds stands there as it is
    text = re.sub(r"simp length-map at (c\.well_formed[\w.]*)", r"\1", text)
    text = re.sub(r"\(not-(true|false) _ (c\.[^\s().]+\.\1)-raw\)", r"\2", text)
    return re.sub(r"not-(true|false) _ (?:\((c\.[^\s().]+\.\1)-raw\)|(c\.[^\s().]+\.\1)-raw)", r"\2\3", text)


def main(argv):
    crate, names_file = argv[0].rstrip("/"), argv[1]
    crate_name = os.path.basename(crate)
    all_names = json.load(open(names_file))
    done = left = 0
    for folder, dirs, files in os.walk(os.path.join(crate, "proofs")):
        if "Proof.antt" not in files:
            continue
        path = os.path.relpath(folder, os.path.join(crate, "proofs"))
        table = all_names.get(f"Rattle-{crate_name}-proofs.{path.replace('/', '.')}.Lts")
        text = open(os.path.join(folder, "Proof.antt")).read()
        if table is None or "tie.close" not in text:
            print(f"left: {path}: not of the form that answers needs")
            left += 1
            continue
        names, said = Names(table), []
        head, decls = chunks(unnested(text))
        module = f"Rattle.{crate_name}.proofs.{path.replace('/', '.')}"
        comment = [l for l in head if l.startswith("--")]
        uses = [l for l in head if l.strip() and not l.startswith("--") and ".Tie as tie" not in l and ".Statement.{statement}" not in l]
        helpers, invariants, answers, others = {}, [], [], []
        for d in decls:
            d["signature"] = re.sub(r" : tie\.((?:Start|At|In|After|Then|Else)[^→)]*?) → ", r" : (c : tie.\1) → ", d["signature"], count=1)
            m = re.search(r"\(\w+ : tie\.([^\s)]+)", d["signature"])
            if m and not re.search(r": tie\.Need", d["signature"]):
                helpers[d["name"]] = m[1]
        loops = [it[0] for it in table["loops"]]
        rename_place = lambda m: "goal." + (names.table["places_by_name"][names.old[m[1]]] if m[1] in names.old else next((names.table["places_by_name"][i] for i, p in enumerate(names.places) if plain(p[0]) == plain(m[1])), m[1]))
        lets, unfolds = {}, {}
        for d in decls:
            sig, rest, name = d["signature"], d["rest"], d["name"]
            if name in helpers:
                want = helpers[name]
                place = next((i for i, p in enumerate(names.places) if plain(p[0]) == plain(want)), None)
                m = re.match(rf"(?:unfolding ([^\n]*)\n)?{re.escape(name)} (\S+)((?: \S+)*?) =\s*(.*)", rest, re.S)
                t = re.match(r"(?:abbrev )?\S+ : \((\w+) : tie\.[^)]*\)\s*(?:→ )?(.*)", sig, re.S)
                if not (m and t and place is not None):
                    said.append(f"helper {name}: cannot read")
                    continue
                typ = sub_context(t[2].strip(), names, place, helpers, said, t[1])
                body = sub_context(m[4].strip(), names, place, helpers, said, m[2])
                if t[1] != "c":
                    typ = re.sub(rf"(?<![^\s(){{}}\[\],;]){t[1]}(?=\.)", "c", typ)
                if m[2] != "c":
                    body = re.sub(rf"(?<![^\s(){{}}\[\],;]){m[2]}(?=[.\s])", "c", body)
                if m[3].strip():
                    body = f"λ {m[3].strip()}. {body}"
                lets[name] = (tidied(typ), tidied(body))
                unfolds[name] = m[1].split() if m[1] else []
        for d in decls:
            sig, rest, name = d["signature"], d["rest"], d["name"]
            typ = sig.split(" :", 1)[1].strip() if " :" in sig else ""
            if typ.startswith("tie.invariant-") or typ.startswith("tie.decreases-"):
                what, loop = re.match(r"tie\.(invariant|decreases)-(\S+)", typ).groups()
                k = next((i for i, it in enumerate(table["loops"]) if plain(it[0][0]) == plain(loop)), None)
                if k is None:
                    said.append(f"no loop {loop}")
                    continue
                (old, new), variables = table["loops"][k]
                changed = table["changed"][k]
                lhs, _, rhs = rest.partition(" =")
                params = lhs.split()[1:]
                where = [(v, f"l.initial.{v}" if c else f"l.{v}") for v, c in zip(variables, changed)]
                where += [(v, f"l.{v}") for v, c in zip(variables, changed) if c]
                if len(where) != len(params):
                    said.append(f"{typ}: {len(params)} variables, and now {variables} {changed}")
                mapped = dict(zip(params, [w[1] for w in where]))
                rhs = re.sub(rf"(?<![^\s(){{}}\[\],;])({TOKEN})(?=[\s(){{}}\[\].,;]|$)", lambda m: mapped.get(m[1], m[1]), rhs)
                goal = f"{what}-{new}"
                invariants.append((d, f"abbrev pub {goal} : goal.{goal}\n{goal} l ={rhs}"))
            elif typ.startswith("tie.Need-"):
                need = plain(re.match(r"tie\.Need-(\S+)", typ)[1])
                found = names.needs.get(need) or names.needs.get(re.sub(r"^overflow_", "", need))
                if not found:
                    alike = [k for k in names.needs if k.replace("array_read", "element_copy_out") == need.replace("array_read", "element_copy_out")]
                    found = names.needs[alike[0]] if alike else None
                body = rest
                m = re.match(rf"(unfolding [^\n]*\n)?{re.escape(name)}((?: [^=\n]+?)?) =\s*(.*)", body, re.S)
                if not m:
                    said.append(f"{need}: cannot read")
                    continue
                unfolding, params, value = m[1] or "", m[2].split(), m[3].strip()
                if value in TRIVIAL and not unfolding:
                    continue
                if not found:
                    said.append(f"need {need} is gone: {value[:200]}")
                    continue
                goal, k = found
                place = names.at_need(k)
                if goal in (table.get("settled") or []):
                    continue
                if params and params[-1] == "κs" or len(params) > 1 and params[1] == "κs":
                    params = [p for p in params if p != "κs"]
                value = sub_context(value, names, place, helpers, said, params[0] if params else "c")
                value = re.sub(r"\btie\.([^\s)]+)", rename_place, value)
                value = tidied(value)
                value, more_unfolding = bound(value, lets, unfolds)
                if more_unfolding:
                    unfolding = "unfolding " + " ".join(dict.fromkeys([*unfolding.split()[1:], *more_unfolding])) + "\n"
                if params and params[0] != "c" and value.startswith("let "):
                    said.append(f"{need}: its context is {params[0]}, and a helper's is c")
                answers.append((d, f"pub {goal} : goal.{goal}\n{unfolding}{goal} {' '.join(params)} =" + ("\n    " if "\n" in value or len(value) > 110 else " ") + value))
            elif re.match(r"pub \S+-spec$", sig.split(" :")[0]) or re.search(r"\bstatement\b", typ):
                continue
            elif name in helpers:
                continue
            else:
                others.append((d, sig + ("\n" + rest if rest else "")))
        # a lemma or word of the file that an invariant names stands with it
        words = set(re.findall(TOKEN, "\n".join(t for _, t in invariants)))
        shared = [(d, t) for d, t in others if d["name"] in words]
        more = True
        while more:
            words |= set(re.findall(TOKEN, "\n".join(t for _, t in shared)))
            new = [(d, t) for d, t in others if d["name"] in words]
            more = len(new) > len(shared)
            shared = new
        others = [it for it in others if it not in shared]
        show = lambda it: "\n".join([*it[0]["comment"], it[1]])
        if invariants:
            share = [(d, t if t.startswith(("pub ", "abbrev pub ", "unfoldable pub ")) else re.sub(r"^(abbrev |unfoldable )?", r"\1pub ", t)) for d, t in shared]
            out = "\n".join([*comment, *uses, f"use {module}.Given as goal"]) + "\n\n" + "\n\n".join(show(it) for it in share + invariants) + "\n"
            open(os.path.join(folder, "Invariants.antt"), "w").write(out)
        if answers:
            extra = [f"use {module}.Invariants.{{{', '.join(d['name'] for d, _ in shared)}}}"] if shared else []
            out = "\n".join([*comment, *uses, *extra, f"use {module}.Goals as goal"]) + "\n\n" + "\n\n".join(show(it) for it in others + answers) + "\n"
            open(os.path.join(folder, "Answers.antt"), "w").write(out)
        elif others and not invariants:
            pass
        os.remove(os.path.join(folder, "Proof.antt"))
        done += 1
        for it in said:
            print(f"left: {path}: {it}")
    print(f"{crate_name}: {done} turned, {left} left")


if __name__ == "__main__":
    main(sys.argv[1:])
