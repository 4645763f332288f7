"""answers.py < SCRIPT: the answers of document 01 to a script of the line protocol, a comment line as it stands.

Where several orders are allowed, `compile` prints one of them: the least tag first."""
import sys

from model import COUNTS, NUMBERS, Model, Refusal, number, tag_word


class Words:
    def __init__(self, line):
        self.words = line.split(' ')

    def word(self):
        return self.words.pop(0)

    def tag(self):
        w = self.word()
        return b'' if w == '.' else bytes.fromhex(w)

    def numbers(self, n):
        return [number(self.word()) for _ in range(n)]

    def component(self):
        kind = self.word()
        return kind, self.numbers(NUMBERS.get(kind, 0))


def load(w):
    m = Model()
    w.word()
    d = w.word()
    m.default = None if d == '-' else b'' if d == '.' else bytes.fromhex(d)
    w.word()
    n = int(w.word())
    for _ in range(n):
        t = w.tag()
        m.broken |= len(t) > 32 or t in m.components
        m.components[t] = w.component()
    w.word()
    k = int(w.word())
    for _ in range(k):
        t = w.tag()
        m.broken |= len(t) > 32 or t in m.lists
        count = int(w.word())
        m.lists[t] = []
        for _ in range(count):
            p = w.word()
            m.lists[t].append(None if p == '-' else b'' if p == '.' else bytes.fromhex(p))
        m.broken |= not 1 <= count <= 3 or any(p is not None and len(p) > 32 for p in m.lists[t])
    m.broken |= n > 64 or k > 128 or (m.default is not None and m.default not in m.components)
    m.broken |= any(COUNTS[c[0]] and len(m.lists.get(t, [])) != COUNTS[c[0]] for t, c in m.components.items())
    return m


def run(m, line):
    w = Words(line)
    c = w.word()
    if c == 'new':
        return Model(), 'ok'
    if c == 'load':
        return load(w), 'ok'
    m.sound()
    if c == 'add_constant':
        return m, m.add_plain(w.tag(), ('constant', w.numbers(1)))
    if c == 'add_function':
        return m, m.add_plain(w.tag(), w.component())
    if c == 'add_operation':
        t, component = w.tag(), w.component()
        given = None if w.word() == 'none' else [w.tag() for _ in range(int(w.word()))]
        return m, m.add_operation(t, component, given)
    if c == 'add_component':
        return m, m.add_component(w.tag(), w.component())
    if c == 'add_input':
        return m, m.add_input(w.tag(), w.tag(), int(w.word()))
    if c == 'remove_input':
        return m, m.remove_input(w.tag(), int(w.word()))
    if c == 'remove_component':
        return m, m.remove_component(w.tag())
    if c == 'rename_component':
        return m, m.rename_component(w.tag(), w.tag())
    if c == 'set_parameter':
        t, name, what = w.tag(), w.tag(), w.word()
        values = [w.word()] if what == 'boolean' else w.numbers(3 if what == 'vec3' else 1)
        return m, m.set_parameter(t, name, (what, values))
    if c == 'compile':
        o = m.order(w.tag())
        return m, ' '.join(['ok', str(len(o))] + [tag_word(t) for t in o])
    if c == 'evaluate_at':
        return m, m.evaluate_at(w.tag(), w.numbers(3))
    if c == 'dump':
        return m, m.dump()
    raise ValueError(line)


def main():
    m = Model()
    for line in sys.stdin.read().splitlines():
        if line.startswith('#'):
            print(line)
        elif line:
            try:
                m, answer = run(m, line)
            except Refusal as r:
                answer = r.line
            print(answer)


main()
