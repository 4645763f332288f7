"""Document 01 in Python, for the expected answers of crates/cases: written from the document, not from the code.

A model is two dicts by tag (bytes) and a default; a component is (kind, numbers). A call answers a line of the
protocol. Every number is a double, and Python's + - * / and sqrt round as IEEE 754 asks.
"""
import math
import struct

COUNTS = {'constant': 0, 'sphere': 0, 'torus': 0, 'Multiply': 2, 'Add': 2, 'Subtract': 2, 'Divide': 2, 'Lerp': 2,
          'VariableLerp': 3, 'Remap': 1, 'BooleanUnion': 2, 'BooleanIntersection': 2, 'BooleanDifference': 2,
          'Offset': 1, 'Thickness': 1}
NUMBERS = {'constant': 1, 'sphere': 4, 'torus': 5, 'Lerp': 1, 'Remap': 4, 'Offset': 1, 'Thickness': 1}
NAMES = {'sphere': ['Centre', 'Radius'], 'torus': ['Centre', 'Radius', 'Thickness'], 'Lerp': ['Factor'],
         'Remap': ['FromMin', 'FromMax', 'ToMin', 'ToMax'], 'Offset': ['Distance'], 'Thickness': ['Thickness']}


def number(bits):
    return struct.unpack('>d', bytes.fromhex(bits))[0]


def bits(x):
    return '7ff8000000000000' if x != x else struct.pack('>d', x).hex()


def tag_word(t):
    return t.hex() if t else '.'


def negative(x):
    return math.copysign(1, x) < 0


def smallest(a, b):
    if a != a: return b
    if b != b: return a
    if a == b: return a if negative(a) else b
    return a if a < b else b


def largest(a, b):
    if a != a: return b
    if b != b: return a
    if a == b: return b if negative(a) else a
    return b if a < b else a


def root(x):
    return math.sqrt(x) if x >= 0 or x != x else math.nan


def divide(a, b):
    if b != 0 or a != a or b != b:
        return a / b if b != 0 else math.nan
    if a == 0: return math.nan
    return math.copysign(math.inf, math.copysign(1, a) * math.copysign(1, b))


def compute(kind, n, p, xs):
    a, b, c = (xs + [math.nan] * 3)[:3]
    if kind == 'constant': return n[0]
    if kind == 'sphere':
        d, e, f = n[0] - p[0], n[1] - p[1], n[2] - p[2]
        return root(d * d + e * e + f * f) - n[3]
    if kind == 'torus':
        d, e, f = p[0] - n[0], p[1] - n[1], p[2] - n[2]
        g = n[3] - root(d * d + f * f)
        s = g * g + e * e - n[4] * n[4]
        return -root(-s) if s < 0 else root(s)
    if kind == 'Multiply': return a * b
    if kind == 'Add': return a + b
    if kind == 'Subtract': return a - b
    if kind == 'Divide': return divide(a, b)
    if kind == 'Lerp': return a + n[0] * (b - a)
    if kind == 'VariableLerp': return a + c * (b - a)
    if kind == 'Remap': return n[2] + divide(a - n[0], n[1] - n[0]) * (n[3] - n[2])
    if kind == 'BooleanUnion': return smallest(a, b)
    if kind == 'BooleanIntersection': return largest(a, b)
    if kind == 'BooleanDifference': return largest(a, -b)
    if kind == 'Offset': return a - n[0]
    return largest(a - n[0] / 2, -(a + n[0] / 2))


class Refusal(Exception):
    def __init__(self, n, t=b'', i=0):
        self.line = 'refused %d %s %d' % (n, tag_word(t), i)


def refuse_if(condition, n, t=b'', i=0):
    if condition:
        raise Refusal(n, t, i)


class Model:
    def __init__(self):
        self.components, self.lists, self.default, self.broken = {}, {}, None, False

    def sound(self):
        refuse_if(self.broken, 7)

    # ---- adding
    def place(self, t, component, default):
        self.components[t] = component
        self.default = default
        return 'ok ' + tag_word(t)

    def add_plain(self, t, component):
        refuse_if(len(t) > 32, 1)
        refuse_if(t in self.components, 11, t)
        refuse_if(len(self.components) >= 64, 15)
        return self.place(t, component, t)

    def add_operation(self, t, component, given):
        count = COUNTS[component[0]]
        refuse_if(len(t) > 32 or any(len(g) > 32 for g in (given or [])[:3]), 1)
        refuse_if(t in self.components, 11, t)
        refuse_if(given is not None and len(given) != count, 2, t)
        refuse_if(len(self.components) >= 64, 15)
        refuse_if(t not in self.lists and len(self.lists) >= 128, 16)
        self.lists[t] = [None] * count if given is None else list(given)
        return self.place(t, component, t)

    def add_component(self, t, component):
        refuse_if(len(t) > 32, 1)
        made, k = t, 0
        while made in self.components:
            k += 1
            made = t + b'_' + str(k).encode()
        refuse_if(len(made) > 32, 17, t)
        refuse_if(len(self.components) >= 64, 15)
        count = COUNTS[component[0]]
        if count:
            refuse_if(made not in self.lists and len(self.lists) >= 128, 16)
            self.lists[made] = [None] * count
        return self.place(made, component, t)

    # ---- wiring
    def walk(self, target, source):
        line, seen = [source], {source}
        while line:
            t = line.pop(0)
            refuse_if(t == target, 14, target)
            places = self.lists.get(t, [])
            if None in places:
                raise Refusal(13, t, places.index(None))
            for u in places:
                if u not in seen:
                    seen.add(u)
                    line.append(u)

    def add_input(self, target, source, i):
        refuse_if(len(target) > 32 or len(source) > 32, 1)
        refuse_if(target not in self.components, 12, target)
        refuse_if(source not in self.components, 12, source)
        refuse_if(target not in self.lists, 12, target)
        refuse_if(i >= len(self.lists[target]), 3, target, i)
        self.walk(target, source)
        self.lists[target][i] = source
        return 'ok'

    def remove_input(self, t, i):
        refuse_if(len(t) > 32, 1)
        refuse_if(t not in self.lists, 12, t)
        refuse_if(i >= len(self.lists[t]), 3, t, i)
        self.lists[t][i] = None
        return 'ok'

    # ---- removing and renaming
    def swap(self, old, new):
        for t in self.lists:
            self.lists[t] = [new if u == old else u for u in self.lists[t]]
        if self.default == old:
            self.default = new

    def remove_component(self, t):
        refuse_if(len(t) > 32, 1)
        refuse_if(t not in self.components, 12, t)
        del self.components[t]
        self.swap(t, None)
        return 'ok'

    def rename_component(self, old, new):
        refuse_if(len(old) > 32 or len(new) > 32, 1)
        refuse_if(new in self.components, 11, new)
        refuse_if(old not in self.components, 12, old)
        self.components[new] = self.components.pop(old)
        if old in self.lists:
            self.lists[new] = self.lists.pop(old)
        self.swap(old, new)
        return 'ok ' + tag_word(new)

    # ---- a parameter set
    def set_parameter(self, t, name, data):
        refuse_if(len(t) > 32, 1)
        refuse_if(t not in self.components, 12, t)
        kind, n = self.components[t]
        what, values = data
        n = list(n)
        name = name.decode('latin-1')
        if kind == 'constant':
            refuse_if(what != 'value', 4, t)
            n = values
        else:
            names = NAMES.get(kind, [])
            refuse_if(name not in names, 4, t)
            if name == 'Centre':
                refuse_if(what != 'vec3', 4, t)
                n[:3] = values
            else:
                refuse_if(what != 'value', 4, t)
                v = values[0]
                if kind == 'Lerp':
                    v = 0.0 if v < 0 else 1.0 if v > 1 else v
                if kind == 'Remap':
                    i = names.index(name)
                    pair = [n[0], n[1]] if i < 2 else [n[2], n[3]]
                    pair[i % 2] = v
                    refuse_if(abs(pair[0] - pair[1]) < 2.0 ** -52, 5, t)
                n[len(n) - len(names) + names.index(name)] = v
        self.components[t] = (kind, n)
        return 'ok'

    # ---- the order and the number
    def reach(self, t):
        reached, line = {t}, [t]
        while line:
            for u in self.lists.get(line.pop(), []):
                if u is not None and u not in reached:
                    reached.add(u)
                    line.append(u)
        return reached

    def order(self, t):
        refuse_if(len(t) > 32, 1)
        reached, placed = self.reach(t), []
        while len(placed) < len(reached):
            ready = [u for u in reached if u not in placed and all(v is None or v in placed for v in self.lists.get(u, []))]
            refuse_if(not ready, 14, t)
            placed.append(min(ready))
        for u in sorted(reached):
            refuse_if(u not in self.components, 12, u)
        for u in sorted(reached):
            if None in self.lists.get(u, []):
                raise Refusal(13, u, self.lists[u].index(None))
        return placed

    def evaluate_at(self, t, p):
        values = {}
        for u in self.order(t):
            kind, n = self.components[u]
            values[u] = compute(kind, n, p, [values[v] for v in self.lists.get(u, [])])
        return 'ok ' + bits(values[t])

    def dump(self):
        words = ['ok default', '-' if self.default is None else tag_word(self.default), 'components', str(len(self.components))]
        for t in sorted(self.components):
            kind, n = self.components[t]
            words += [tag_word(t), kind] + [bits(x) for x in n]
        words += ['lists', str(len(self.lists))]
        for t in sorted(self.lists):
            words += [tag_word(t), str(len(self.lists[t]))] + ['-' if u is None else tag_word(u) for u in self.lists[t]]
        return ' '.join(words)
