"""The most stack that each call of a static library takes: the frames along the deepest way through its functions.

    python3 tools/stack/frames.py host/target/lib/libdotterelwire.a

Reads what objdump prints of x86-64 code. A jump to another function counts as a call, so that the sum is never too small.
It ends with an error where functions recurse or call through an address, and names what is called outside the library.
"""
import re
import subprocess
import sys

FUNCTION = re.compile(r'^[0-9a-f]+ <(.+)>:$')
# a large frame is taken page by page in a loop whose end is put into r11 first
PROBED = re.compile(r'\bsub\s+\$0x([0-9a-f]+),%r11')
TAKEN = re.compile(r'\bsub\s+\$0x([0-9a-f]+),%rsp')
PUSHED = re.compile(r'\bpush\s')
GOES = re.compile(r'\b(call|jmp)\b')
TARGET = re.compile(r'R_X86_64_(?:PLT32|PC32)\s+(?:\.text\.)?([^\s.]\S*?)(?:[-+]0x[0-9a-f]+)?$')
PAGE = 0x1000


class Member:
    """One object of the archive: the frame of each function, and what each goes to."""

    def __init__(self, listing):
        self.frames, self.ways = {}, {}
        name, probing, going = None, False, False
        for line in listing.split('\n'):
            if FUNCTION.match(line):
                name = FUNCTION.match(line).group(1)
                self.frames[name], self.ways[name] = 8, set()
            elif 'call   *' in line:
                sys.exit('%s calls through an address: %s' % (name, line))
            elif PROBED.search(line):
                self.frames[name] += int(PROBED.search(line).group(1), 16)
                probing = True
            elif TAKEN.search(line):
                size = int(TAKEN.search(line).group(1), 16)
                self.frames[name] += 0 if probing and size == PAGE else size
                probing = probing and size != PAGE
            elif PUSHED.search(line):
                self.frames[name] += 8
            elif TARGET.search(line) and going:
                self.ways[name].add(TARGET.search(line).group(1))
            going = bool(GOES.search(line))

    def deepest(self, name, above=()):
        if name in above:
            sys.exit('%s calls itself' % name)
        below = [self.deepest(way, above + (name,)) for way in self.ways[name] if way in self.frames]
        return self.frames[name] + max(below, default=0)


outside = set()
listing = subprocess.run(['objdump', '-dr', '--no-show-raw-insn', sys.argv[1]], capture_output=True, text=True, check=True)
for part in re.split(r'\n\S+:\s+file format .*\n', listing.stdout)[1:]:
    member = Member(part)
    for name in sorted(member.frames):
        outside |= {way for way in member.ways[name] if way not in member.frames}
        if name.startswith('dw_'):
            print('%s: %.1f KiB' % (name, member.deepest(name) / 1024))
print('called outside:', ' '.join(sorted(outside)))
