"""script.py: writes the script of crates/cases: document 01's run cases, and those beside them."""
import struct

ZERO, ONE = '0000000000000000', '3ff0000000000000'
ORIGIN = ' '.join([ZERO] * 3)


def bits(x):
    return struct.pack('>d', x).hex()


def tag(s):
    return s.encode().hex() if s else '.'


def say(text):
    print('#', text)


def do(*lines):
    for line in lines:
        print(line)


def point(x, y, z):
    return '%s %s %s' % (bits(x), bits(y), bits(z))


def ask(t, p=ORIGIN):
    do('evaluate_at %s %s' % (tag(t), p))


def constant(t, x):
    do('add_constant %s %s' % (tag(t), bits(x)))


def operation(t, kind, *inputs):
    given = 'inputs %d %s' % (len(inputs), ' '.join(map(tag, inputs))) if inputs else 'none'
    do('add_operation %s %s %s' % (tag(t), kind, given))


say('P1 to P10: a sphere, a torus, the root, the operations')
do('new', 'add_function %s sphere %s %s' % (tag('s'), ORIGIN, ONE), 'add_function %s torus %s %s %s' % (tag('t'), ORIGIN, bits(5), ONE))
ask('s', point(3, 4, 0))
ask('t', point(3, 0, 4))
ask('t', point(5, 1, 0))
say('P4: a sphere of radius 0 at a distance whose square is 2^-1074')
do('add_function %s sphere %s %s' % (tag('dot'), ORIGIN, ZERO))
ask('dot', point(2.0 ** -537, 0, 0))
for t, x in [('one', 1), ('m2', -2), ('m3', -3), ('two', 2), ('six', 6), ('five', 5), ('seven', 7)]:
    constant(t, x)
do('add_constant %s 7ff8000000000000' % tag('nan'))
operation('p5', 'BooleanDifference', 'one', 'm2')
operation('p6', 'BooleanDifference', 'm2', 'one')
operation('p7', 'Thickness ' + bits(2), 'm3')
operation('p8', 'Lerp ' + bits(0.25), 'two', 'six')
operation('p9', 'Remap %s %s %s %s' % (ZERO, bits(10), ZERO, ONE), 'five')
operation('p10', 'BooleanUnion', 'nan', 'seven')
for t in ['p5', 'p6', 'p7', 'p8', 'p9', 'p10']:
    ask(t)
say('a Lerp that a weighted sum would get wrong: 2^60 to 1 with factor 1')
constant('huge', 2.0 ** 60)
operation('lerp', 'Lerp ' + ONE, 'huge', 'one')
ask('lerp')

say('P11: an Add wired to itself when added; compile 14')
do('new')
operation('a', 'Add', 'a', 'a')
do('compile ' + tag('a'))
ask('a')
say('P12: an Add with both places on constant 3: order of two, number 6')
do('new')
constant('a', 3)
operation('b', 'Add', 'a', 'a')
do('compile ' + tag('b'))
ask('b')

say('the 64th component is accepted, the 65th is 15; room freed by a removal is used again')
do('new')
for i in range(64):
    constant('c%02d' % i, i)
constant('c64', 64)
do('add_component %s constant %s' % (tag('c00'), ONE), 'remove_component ' + tag('c10'))
constant('c64', 64)
ask('c64')
ask('c63')
constant('c65', 65)

say('a tag of 32 bytes is accepted, one of 33 is 1, wherever it stands')
do('new')
constant('x' * 32, 1)
constant('x' * 33, 1)
operation('a', 'Add', 'x' * 32, 'x' * 33)
do('add_input %s %s 0' % (tag('y' * 33), tag('a')), 'rename_component %s %s' % (tag('x' * 32), tag('z' * 33)))
ask('x' * 33)
say('a fourth input is not looked at: 2 and not 1')
operation('a', 'Add', 'b', 'c', 'd', 'x' * 33)
do('add_operation %s Add inputs 0' % tag('a'))

say('a base of 30 bytes is taken and the numbered name made, 31 bytes give 17; the default is the tag asked for')
do('new')
for n in [30, 31]:
    do('add_component %s constant %s' % (tag('b' * n), ONE), 'add_component %s constant %s' % (tag('b' * n), ONE))
do('dump')
say('the ninth numbered name of 30 bytes still fits, the tenth does not')
for _ in range(9):
    do('add_component %s constant %s' % (tag('b' * 30), ONE))

say('index 1 of a Union is taken, 2 gives 3; so does remove_input')
do('new')
constant('a', 1)
operation('u', 'BooleanUnion')
do('add_input %s %s 1' % (tag('u'), tag('a')), 'add_input %s %s 2' % (tag('u'), tag('a')))
do('remove_input %s 1' % tag('u'), 'remove_input %s 0' % tag('u'), 'remove_input %s 2' % tag('u'), 'dump')
say('a target without a list is 12, ahead of the index')
do('add_input %s %s 9' % (tag('a'), tag('u')), 'remove_input %s 0' % tag('a'))

say('FromMax 0 with FromMin 2^-52 is taken, with 2^-53 it gives 5')
do('new')
for t, x in [('a', 2.0 ** -52), ('b', 2.0 ** -53)]:
    operation(t, 'Remap %s %s %s %s' % (bits(x), ONE, ZERO, ONE))
    do('set_parameter %s %s value %s' % (tag(t), tag('FromMax'), ZERO))
do('dump')
say('parameters: names exactly, kinds, the clamp of Factor')
operation('l', 'Lerp ' + bits(0.5))
for name, data in [('factor', 'value ' + ONE), ('Factor', 'vec3 ' + ORIGIN), ('Factor', 'boolean 1'), ('Factor', 'value ' + bits(-3)),
                   ('Factor', 'value ' + bits(-0.0)), ('Factor', 'value ' + bits(2)), ('Factor', 'value 7ff8000000000000')]:
    do('set_parameter %s %s %s' % (tag('l'), tag(name), data), 'dump')
do('add_function %s torus %s %s %s' % (tag('t'), ORIGIN, bits(5), ONE))
for name, data in [('Centre', 'vec3 ' + point(1, 2, 3)), ('Radius', 'value ' + bits(6)), ('Thickness', 'value ' + bits(7)), ('Centre', 'value ' + ONE)]:
    do('set_parameter %s %s %s' % (tag('t'), tag(name), data))
constant('k', 1)
do('set_parameter %s %s value %s' % (tag('k'), tag('anything at all, however long it may be'), bits(9)))
do('set_parameter %s . boolean 0' % tag('k'), 'set_parameter %s . value %s' % (tag('nobody'), ONE), 'dump')

say('128 lists, the 129th is 16; a leftover list is room for its own tag')
do('new')
for r in range(2):
    for i in range(64):
        operation('%s%02d' % ('pq'[r], i), 'Offset ' + ONE)
    if r == 0:
        for i in range(64):
            do('remove_component %s' % tag('p%02d' % i))
do('remove_component %s' % tag('q00'))
operation('new', 'Offset ' + ONE)
do('add_component %s Offset %s' % (tag('new'), ONE))
constant('new', 1)
do('remove_component %s' % tag('new'))
operation('p07', 'Add')
do('remove_input %s 1' % tag('p07'), 'remove_input %s 1' % tag('p08'))

say('a record that names 65 components is 7 in every call until another is loaded')
do('load default - components 65 %s lists 0' % ' '.join('%s constant %s' % (tag('r%02d' % i), ONE) for i in range(65)))
constant('a', 1)
do('remove_component ' + tag('r00'), 'compile ' + tag('r00'), 'dump')
ask('r00')
do('new', 'dump')
say('other records that are 7: a tag twice, an operation without its list, a list of another count, a default that is not there')
for record in ['default - components 2 61 constant %s 61 constant %s lists 0' % (ONE, ONE), 'default - components 1 61 Add lists 0',
               'default - components 1 61 Add lists 1 61 1 -', 'default 62 components 1 61 constant %s lists 0' % ONE]:
    do('load ' + record)
    ask('a')
say('a record that passes, in any order, is dumped in byte order, prefix first')
do('load default 6162 components 3 62 constant %s 6162 Add . constant %s lists 2 ff 3 - 61 . 6162 2 62 .' % (ONE, bits(2)), 'dump')
ask('ab')

say('self-wiring: the source is met first, so 14 even where its list has gaps; else a gap is 13')
do('new')
operation('a', 'Add')
operation('b', 'Add')
do('add_input %s %s 0' % (tag('a'), tag('a')), 'add_input %s %s 0' % (tag('a'), tag('b')))
constant('k', 1)
do('add_input %s %s 1' % (tag('b'), tag('k')), 'add_input %s %s 0' % (tag('a'), tag('b')), 'add_input %s %s 0' % (tag('b'), tag('k')))
do('add_input %s %s 0' % (tag('a'), tag('b')), 'add_input %s %s 0' % (tag('b'), tag('a')), 'dump')
say('a walk over a cycle without target or gap ends, and the wire is taken')
do('new')
operation('loop', 'Offset ' + ONE, 'loop')
operation('t', 'Offset ' + ONE)
do('add_input %s %s 0' % (tag('t'), tag('loop')), 'compile ' + tag('t'))
say('a walk over 40 operations, each wired twice to the one before, is short')
do('new')
constant('n00', 1)
for i in range(1, 41):
    operation('n%02d' % i, 'BooleanUnion', *['n%02d' % (i - 1)] * 2)
operation('t', 'Offset ' + ONE)
do('add_input %s %s 0' % (tag('t'), tag('n40')))
ask('t')

say('a rename onto a leftover list: a constant acquires it, an operation brings its own')
do('new')
constant('k', 3)
operation('old', 'Add', 'k', 'k')
do('remove_component ' + tag('old'))
constant('c', 5)
do('rename_component %s %s' % (tag('c'), tag('old')), 'dump')
ask('old')
operation('o', 'Offset ' + ONE, 'k')
operation('left', 'Add', 'k', 'k')
do('remove_component ' + tag('left'), 'rename_component %s %s' % (tag('o'), tag('left')), 'dump')
ask('left')
say('renaming to a tag that is there is 11, of a tag that is not 12; places and the default follow')
do('rename_component %s %s' % (tag('k'), tag('left')), 'rename_component %s %s' % (tag('nobody'), tag('x')), 'rename_component %s %s' % (tag('k'), tag('k')))
do('rename_component %s %s' % (tag('k'), tag('three')), 'dump')
ask('left')
say('a constant under a leftover list answers its own number, and what the list names must be there')
do('new')
constant('k', 3)
operation('u', 'BooleanUnion', 'k', 'k')
do('remove_component ' + tag('u'))
constant('u', 9)
do('compile ' + tag('u'))
ask('u')
do('remove_component ' + tag('k'))
ask('u')
say('a removal with the tag in several places clears them all, and the default')
do('new')
constant('k', 3)
operation('v', 'VariableLerp', 'k', 'k', 'k')
operation('w', 'Add', 'v', 'k')
constant('k2', 4)
do('rename_component %s %s' % (tag('k2'), tag('z')), 'remove_component ' + tag('k'), 'dump')
ask('w')
do('remove_component ' + tag('z'), 'dump', 'remove_component ' + tag('z'))
say('the tag None is a tag like any other')
do('new')
operation('o', 'Offset ' + ONE)
constant('None', 1)
do('rename_component %s %s' % (tag('None'), tag('n')), 'dump')

say('a diamond')
do('new')
constant('a', 2)
operation('b', 'Offset ' + ONE, 'a')
operation('c', 'Multiply', 'a', 'a')
operation('d', 'Subtract', 'c', 'b')
do('compile ' + tag('d'))
ask('d')
say('all 64 components in a chain')
do('new')
constant('n00', 64)
for i in range(1, 64):
    operation('n%02d' % i, 'Offset ' + ONE, 'n%02d' % (i - 1))
do('compile ' + tag('n63'))
ask('n63')
say('all 64 components in a fan: 32 constants added in pairs')
do('new')
for i in range(32):
    constant('c%02d' % i, i)
names = ['c%02d' % i for i in range(32)]
k = 0
while len(names) > 1:
    pairs = []
    for i in range(0, len(names), 2):
        operation('s%02d' % k, 'Add', names[i], names[i + 1])
        pairs.append('s%02d' % k)
        k += 1
    names = pairs
operation('all', 'Offset ' + ONE, names[0])
ask('all')
constant('one too many', 1)
say('a cycle outside the reach does not count')
do('new')
constant('k', 1)
operation('loop', 'Add', 'loop', 'k')
operation('t', 'Add', 'k', 'k')
ask('t')
ask('loop')
say('a cycle behind an absent tag with a leftover list is 14 and not 12')
do('new')
operation('gone', 'Offset ' + ONE, 'loop')
operation('loop', 'Offset ' + ONE, 'loop')
operation('t', 'Offset ' + ONE, 'gone')
do('remove_component ' + tag('gone'))
operation('t2', 'Offset ' + ONE, 'gone')
do('compile ' + tag('t2'), 'compile ' + tag('t'))
say('several absent tags, several gaps: the least in byte order, prefix first; 12 ahead of 13')
do('new')
operation('t', 'VariableLerp', 'zz', 'z', 'b')
operation('b', 'VariableLerp', 'k', 'k', 'ab')
operation('ab', 'Add')
do('compile ' + tag('t'))
constant('z', 1)
constant('zz', 1)
do('compile ' + tag('t'))
constant('k', 1)
do('compile ' + tag('t'), 'remove_input %s 1' % tag('b'), 'add_input %s %s 0' % (tag('ab'), tag('k')))
do('compile ' + tag('t'), 'add_input %s %s 1' % (tag('ab'), tag('k')), 'compile ' + tag('t'))
ask('nobody')
ask('')

say('a list of edits that spares a form: adding, wiring outside, refused edits, renaming inside and the target itself')
do('new', 'add_function %s sphere %s %s' % (tag('wall'), ORIGIN, bits(4)), 'add_function %s torus %s %s %s' % (tag('pipe'), ORIGIN, bits(2), ONE))
operation('form', 'BooleanDifference', 'wall', 'pipe')
p = point(0.1, 0.2, 0.3)
ask('form', p)
constant('other', 5)
operation('free', 'Add', 'form', 'other')
do('remove_component ' + tag('nobody'), 'set_parameter %s %s value %s' % (tag('other'), tag('Value'), bits(7)), 'remove_input %s 1' % tag('free'))
do('rename_component %s %s' % (tag('wall'), tag('headwall')), 'rename_component %s %s' % (tag('form'), tag('job')), 'remove_component ' + tag('free'))
ask('job', p)
say('and one that does not: the nine-yard mistake, the two places of the difference swapped')
do('add_input %s %s 0' % (tag('job'), tag('pipe')), 'add_input %s %s 1' % (tag('job'), tag('headwall')))
ask('job', p)
do('set_parameter %s %s value %s' % (tag('pipe'), tag('Radius'), bits(3)))
ask('job', p)
do('remove_component ' + tag('pipe'))
ask('job', p)
