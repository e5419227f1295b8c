"""What bin/docs does: the picture of the rooms, and whether the pages are true. Python 3 alone."""
import os
import re
import sys
import textwrap

ROOT = os.path.dirname(os.path.dirname(os.path.dirname(os.path.realpath(__file__))))
MAP = 'docs/ARCHITECTURE.md'
# Pages whose references must be declared where they point, and not passed on from another room.
EXACT = (MAP, 'docs/RULES.md')
BEGIN, END = '<!-- picture: bin/docs draws it from crates.txt -->', '<!-- end of the picture -->'
STAND_INS = {'NAME', 'ROOM', 'room'}
FOLDERS = {'crates', 'docs', 'bin', 'perf', 'examples', 'include', 'tests', 'bindings', 'release', 'specs', 'proofs', 'src', 'must-fail', 'target'}


def read(path):
    with open(os.path.join(ROOT, path), encoding='utf-8') as f:
        return f.read()


def there(path):
    return os.path.exists(os.path.join(ROOT, path))


def files_below(path, ending):
    for folder, _, names in os.walk(os.path.join(ROOT, path)):
        for name in sorted(names):
            if name.endswith(ending):
                yield os.path.relpath(os.path.join(folder, name), ROOT)


def read_rooms():
    """What crates.txt says: each room, and what it rests on. The toolchain's own libraries are left out."""
    rooms = {}
    for line in read('crates.txt').split('\n'):
        name, colon, rest = line.split('#')[0].partition(':')
        if colon:
            rooms[name.split()[0]] = rest.split()
    return {room: [d for d in on if d in rooms] for room, on in rooms.items()}


# ---- the picture

def group_of(room):
    return room.split('_')[0]


def is_law(room):
    return room.endswith('_laws')


class Picture:
    """Groups as boxes, one that rests on another above it. A group that another one parts is drawn in two boxes."""
    WIDTH, ROW = 36, 3      # characters inside a box, boxes side by side

    def __init__(self, rooms):
        self.rooms, self.reached, self.ranks = rooms, {}, {}
        self.boxes = {}         # box -> its rooms, in the order of crates.txt
        for room in rooms:
            self.boxes.setdefault(self.box_of(room), []).append(room)
        self.under = {box: {self.box_of(d) for r in inside if not is_law(r) for d in rooms[r]} - {box}
                      for box, inside in self.boxes.items()}

    def reach(self, room):
        if room not in self.reached:
            self.reached[room] = {r for d in self.rooms[room] for r in {d} | self.reach(d)}
        return self.reached[room]

    def rank(self, room):
        """How often the way down from a room leaves its group and comes back to it."""
        if room not in self.ranks:
            own = [self.rank(d) for d in self.rooms[room] if group_of(d) == group_of(room)]
            back = [self.rank(r) + 1 for d in self.rooms[room] if group_of(d) != group_of(room)
                    for r in self.reach(d) if group_of(r) == group_of(room)]
            self.ranks[room] = max([0] + own + back)
        return self.ranks[room]

    def box_of(self, room):
        rank = 0 if is_law(room) else self.rank(room)
        alike = [r for r in self.rooms if not is_law(r) and group_of(r) == group_of(room) and self.rank(r) == rank]
        return group_of(room) if rank == 0 else ' and '.join(alike)

    def below(self, box):
        return {b for u in self.under[box] for b in {u} | self.below(u)}

    def level(self, box):
        return 1 + max([0] + [self.level(u) for u in self.under[box]])

    def beneath(self, box):
        """The boxes that its rooms rest on, the highest first; not those that a room beneath rests on already."""
        near = {self.box_of(d) for r in self.boxes[box] if not is_law(r) for d in self.rooms[r]
                if not any(d in self.reach(o) for o in self.rooms[r])}
        order = list(self.boxes)
        return sorted(near - {box}, key=lambda b: (-self.level(b), order.index(b)))

    def lines(self, box):
        def wrapped(text):
            return textwrap.wrap(text, self.WIDTH - 2, subsequent_indent='  ', break_on_hyphens=False)
        laws = [r for r in self.boxes[box] if is_law(r)]
        inside = wrapped(' '.join(r for r in self.boxes[box] if r not in laws))
        inside += wrapped('on ' + (', '.join(self.beneath(box)) or 'nothing'))
        for law in laws:
            more = {self.box_of(d) for d in self.rooms[law]} - {box} - self.below(box)
            inside += wrapped(law + (', also on ' + ', '.join(sorted(more)) if more else ''))
        top = '+- %s ' % box
        return ([top + '-' * (self.WIDTH + 1 - len(top)) + '+'] + ['| ' + l.ljust(self.WIDTH - 2) + ' |' for l in inside]
                + ['+' + '-' * self.WIDTH + '+'])

    def text(self):
        rows = []
        for level in range(max(map(self.level, self.boxes)), 0, -1):
            boxes = [self.lines(b) for b in self.boxes if self.level(b) == level]
            for at in range(0, len(boxes), self.ROW):
                side = boxes[at:at + self.ROW]
                tall = max(map(len, side))
                side = [b[:-1] + ['|' + ' ' * self.WIDTH + '|'] * (tall - len(b)) + b[-1:] for b in side]
                rows += ['  '.join(b[i] for b in side) for i in range(tall)]
        return '\n'.join(rows)


def with_picture(page, rooms):
    before, begin, rest = page.partition(BEGIN)
    _, end, after = rest.partition(END)
    if not end:
        sys.exit('docs: %s has no place for the picture' % MAP)
    return '%s%s\n```\n%s\n```\n%s%s' % (before, begin, Picture(rooms).text(), end, after)


# ---- what a reference can point to

def declared_in(path):
    """The names that a file declares, and those that it passes on."""
    if path.endswith('.rt'):
        text = re.sub(r'//.*', '', read(path))
        uses = r'^[ ]*(pub )?(?:ghost )?use ([^;]*);'
        passed = [names for pub, names in re.findall(uses, text, re.M) if pub]
        text = re.sub(uses, '', text, flags=re.M)
        own = set(re.findall(r'\b(?:fn|const|struct|enum|type|mod)\s+(\w+)', text))
        own |= set(re.findall(r'^    (?:pub )?(\w+)(?:\(.*\))?[:,]', text, re.M))      # fields and cases
        leaves = [leaf for names in passed for leaf in re.findall(r'(\w+)(?:\s+as\s+(\w+))?\s*(?=[,}]|$)', names)]
        return own, {alias or name for name, alias in leaves}
    text = re.sub(r'--.*', '', read(path))
    own = set(re.findall(r'^ {0,2}(?:(?:pub|abbrev|unfoldable|data|record) )*([^\s:(){}]+)(?: \([^)]*\)| \{[^}]*\})* :(?= |$)',
                         text, re.M))
    passed = {w.split(' ')[-1] for names in re.findall(r'pub use \S+\.\{([^}]*)\}', text) for w in names.split(', ')}
    return own, passed


class Room:
    def __init__(self, name):
        folder = 'crates/' + name
        self.edits = {os.path.basename(f)[:-5] for f in files_below(folder + '/must-fail', '.edit')}
        self.src = {os.path.basename(f)[:-3]: declared_in(f) for f in files_below(folder + '/src', '.rt')}
        self.stated, self.cited = set(), set()
        for part in ('specs', 'proofs'):
            for f in files_below('%s/%s' % (folder, part), '.antt'):
                own, passed = declared_in(f)
                self.stated |= own | {os.path.basename(f)[:-5]}
                self.cited |= passed

    def has_stated(self, name, exact):
        return name in self.stated or not exact and name in self.cited

    def has_coded(self, path, exact):
        """A name, or a name behind its module or its type."""
        files = [self.src[path[0]]] if len(path) > 1 and path[0] in self.src else self.src.values()
        known = set().union(*(own if exact else own | passed for own, passed in files))
        return path[-1] in known and (len(path) == 1 or path[0] in self.src or path[0] in known)


# ---- the checks

def pages():
    yield from sorted(f for f in os.listdir(ROOT) if f.endswith('.md'))
    yield from sorted('docs/' + f for f in os.listdir(os.path.join(ROOT, 'docs')) if f.endswith('.md') and f not in ('PORT.md', 'DESIGN-PASS.md'))
    yield 'perf/README.md'


def paths_in(page, line):
    """Files that a line names, in a code span or not, and links: each with whether it is there."""
    for path in re.findall(r'(?<![\w/.-])((?:crates|docs|bin|perf|examples|include|tests|bindings)/[\w./-]*\w)', line):
        if not STAND_INS & set(path.split('/')):
            yield path, there(path)
    for link in re.findall(r'\]\(([^)#:\s]+)(?:#[^)]*)?\)', re.sub(r'`[^`]*`', '', line)):
        yield link, there(os.path.normpath(os.path.join(os.path.dirname(page), link)))


def references_in(page, line, rooms):
    """What a line names of rooms, each with whether it is there."""
    exact = page in EXACT
    for span in re.findall(r'`([^`]+)`', line):
        first = re.match(r'[a-z][a-z0-9_]*', span)
        name, rest = (first[0], span[first.end():]) if first else ('', '')
        room = rooms.get(name)
        if name in FOLDERS or name in STAND_INS or name == 'std':
            continue
        if re.fullmatch(r'/[A-Za-z][^\s/.]*', rest):
            yield span, room and room.has_stated(rest[1:], exact)
        elif re.fullmatch(r'/(src|specs|proofs|must-fail)/\S+', rest):
            yield span, there('crates/' + span) or there('crates/' + span + '.antt')
        elif re.fullmatch(r'::[\w:]+', rest):
            yield span, room and room.has_coded(rest[2:].split('::'), exact)
        elif re.fullmatch(r': [a-z0-9]+(-\w+)*', rest) and (room or '-' in rest):      # else a word and a colon
            yield span, room and rest[2:] in room.edits
        elif page == 'docs/STATEMENTS.md' and re.fullmatch(r'[a-z0-9]+([-_]\w+)+', span) and span not in rooms:
            # an edit, a theorem or a function of some room
            yield span, any(span in r.edits or span in r.stated or r.has_coded([span], False) for r in rooms.values())


def rows_of(page, heading):
    """The rows of the tables behind a heading, without their first two lines."""
    found = re.search(r'^## %s\n(.*?)(?=^## |\Z)' % re.escape(heading), page, re.M | re.S)
    tables = re.findall(r'^\|.*\n\|[-| ]+\|\n((?:\|.*(?:\n|\Z))*)', found[1], re.M) if found else []
    return [row for table in tables for row in table.split('\n') if row]


def wrong_rooms(page, rooms):
    named = [m[1] for row in rows_of(page, 'The rooms') for m in [re.match(r'\| `(\w+)` \|', row)] if m]
    for room in sorted(set(rooms) | set(named)):
        if named.count(room) != 1 or room not in rooms:
            yield 'the table of rooms has %s %d times, crates.txt %d' % (room, named.count(room), room in rooms)


def wrong_rules(page):
    rows = rows_of(page, 'Twenty rules')
    if len(rows) != 20:
        yield 'there are %d of the twenty rules' % len(rows)
    for row in rows:
        rule = row.split('|')[1].strip()
        pointed = re.findall(r'`(crates/[^`]+)` `([^`]+)`', row)
        if not 1 <= len(pointed) <= 2:
            yield '%s: it points to %d files' % (rule, len(pointed))
        for path, name in pointed:
            if not there(path) or name not in declared_in(path)[0]:
                yield '%s: %s does not declare %s' % (rule, path, name)


def check():
    rooms = {room: Room(room) for room in read_rooms()}
    wrong, seen = [], 0
    for page in pages():
        for n, line in enumerate(read(page).split('\n'), 1):
            for name, found in list(paths_in(page, line)) + list(references_in(page, line, rooms)):
                seen += 1
                if not found:
                    wrong.append('%s:%d: %s is not there' % (page, n, name))
    header = read('include/cekarum.h')
    for name in sorted(set(re.findall(r'\b(?:cekarum|CEKARUM)_\w+', read('README.md')))):
        if not re.search(r'\b%s\b' % name, header):
            wrong.append('README.md: include/cekarum.h has no %s' % name)
    page = read(MAP)
    if with_picture(page, read_rooms()) != page:
        wrong.append('%s: the picture is not that of crates.txt; bin/docs draws it' % MAP)
    wrong += ['%s: %s' % (MAP, said) for said in list(wrong_rooms(page, rooms)) + list(wrong_rules(page))]
    for said in wrong:
        print(said)
    print('docs: %d pages, %d references, %d wrong' % (len(list(pages())), seen, len(wrong)))
    return 1 if wrong else 0


def draw():
    page = read(MAP)
    with open(os.path.join(ROOT, MAP), 'w', encoding='utf-8') as f:
        f.write(with_picture(page, read_rooms()))
    return 0


if __name__ == '__main__':
    sys.exit(check() if sys.argv[1:] == ['check'] else draw())
