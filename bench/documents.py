"""Writes documents of the format in docs/POOL.md, those of a shell that got `new a` and then lines by `add a`, or that got
many names by `new`. They are of version 3, or of version 1 or 2 as shells wrote them before that."""

WIDTH = 32

# What shells write today.
TODAY = 3

# By the version of a document: the bits of a code, with what FNV-1a starts, by what it multiplies, and the last digit's depth.
WIDE_RULES = (64, 14695981039346656037, 1099511628211, 12)
RULES = {1: (32, 2166136261, 16777619, 6), 2: WIDE_RULES, TODAY: WIDE_RULES}


class Row:
    """A row: what stands before its links, the rows that these lead to, and its place once it has one."""

    __slots__ = ["head", "links", "place"]

    def __init__(self, head, links):
        self.head, self.links, self.place = head, links, None

    def text(self):
        if self.head.startswith('"c"'):
            return f"[{self.head}]"
        return f"[{self.head},[{','.join(str(link.place) for link in self.links)}]]"


def vector_row(height, links):
    return Row(f'"i",{height}' if height else '"l"', list(links))


class Vector:
    """A vector, each push of which makes the last row of each height anew beside the old one."""

    def __init__(self):
        # By heights: the links of the last row.
        self.edge = [[]]
        self.root = vector_row(0, [])

    def push(self, element):
        link, is_more = element, True
        for height, links in enumerate(self.edge):
            if not is_more:
                links[-1] = link
            elif len(links) < WIDTH:
                links.append(link)
                is_more = False
            else:
                # The full row stays in the row above, and another one begins beside it.
                self.edge[height] = links = [link]
            link = vector_row(height, links)
        if is_more:
            self.edge.append([self.root, link])
            link = vector_row(len(self.edge) - 1, self.edge[-1])
        self.root = link


def no_names():
    """A map or a set without keys."""
    return Row('"m",0,0,0', [])


def rows_of(lines, in_batch):
    """The roots after so many lines, each by an edit of its own or all in one batch."""
    name, stars = Row('"c","a"', []), no_names()
    buffer, undo = Vector(), Vector()

    def state():
        # The digit of `a` at depth 0 is 12.
        return Row('"s"', [Row('"m",0,4096,0', [Row('"p"', [name, buffer.root])]), stars])

    undo.push(Row('"s"', [no_names(), stars]))
    current = state()
    for number in range(lines):
        if number == 0 or not in_batch:
            undo.push(current)
        buffer.push(Row(f'"c","line {number} of the text"', []))
        current = state()
    return [current, no_names(), undo.root, vector_row(0, [])]


class Chain:
    """The names of one code, each with its entry's row, as rows in the order of the names."""

    def __init__(self, entries):
        self.entries = sorted(entries, key=lambda entry: entry[1])
        links = []
        for _code, _name, entry in reversed(self.entries):
            links = [Row('"k"', [entry, *links])]
        self.row = links[0]

    def having(self, entry):
        return Chain([*self.entries, entry])


class Trie:
    """A trie row over names. Each of `entries` and `nodes` is by positions; an entry is a code, a name and its row."""

    def __init__(self, rules, depth=0, entries=None, nodes=None):
        self.rules, self.depth, self.entries, self.nodes = rules, depth, entries or {}, nodes or {}
        alone, below = sorted(self.entries), sorted(self.nodes)
        sets = [sum(1 << position for position in those) for those in (alone, below)]
        links = [self.entries[position][2] for position in alone] + [self.nodes[position].row for position in below]
        self.row = Row(f'"m",{depth},{sets[0]},{sets[1]}', links)

    def having(self, entry):
        """The trie with another name: beside its way all stays the same rows."""
        position = entry[0] >> 5 * self.depth & 31
        entries, nodes = dict(self.entries), dict(self.nodes)
        if position in nodes:
            nodes[position] = nodes[position].having(entry)
        elif position in entries:
            nodes[position] = self.below(entries.pop(position), entry)
        else:
            entries[position] = entry
        return Trie(self.rules, self.depth, entries, nodes)

    def below(self, one, other):
        """What stands at a position that two names share."""
        if self.depth == self.rules[3]:
            return Chain([one, other])
        first = one[0] >> 5 * (self.depth + 1) & 31
        return Trie(self.rules, self.depth + 1, {first: one}).having(other)


def code_of(name, rules):
    """The code of a name."""
    bits, code, prime, _deepest = rules
    for byte in name.encode():
        code = (code ^ byte) * prime % 2**bits
    return code


def names_of(count, in_batch, version):
    """The roots after `new n0`, `new n1` and so on, each an edit of its own or all in one batch."""
    rules = RULES[version]
    buffers, stars, undo = Trie(rules), no_names(), Vector()
    current = Row('"s"', [buffers.row, stars])
    for number in range(count):
        if number == 0 or not in_batch:
            undo.push(current)
        name = f"n{number}"
        pair = Row('"p"', [Row(f'"c","{name}"', []), vector_row(0, [])])
        buffers = buffers.having((code_of(name, rules), name, pair))
        current = Row('"s"', [buffers.row, stars])
    return [current, no_names(), undo.root, vector_row(0, [])]


def in_order(roots):
    """The rows that the roots lead to, each behind all that it leads to. It gives each its place."""
    rows = []
    for root in roots:
        way = [] if root.place is not None else [(root, iter(root.links))]
        while way:
            row, links = way[-1]
            unseen = next((link for link in links if link.place is None), None)
            if unseen:
                way.append((unseen, iter(unseen.links)))
            else:
                way.pop()
                row.place = len(rows)
                rows.append(row)
    return rows


def written(roots, version):
    """The compact text of what the roots lead to, and how many rows it has."""
    rows = in_order(roots)
    places = ",".join(str(root.place) for root in roots)
    texts = ",".join(row.text() for row in rows)
    bits = RULES[version][0]
    history = '"history":4294967295,' if version == TODAY else ""
    return f'{{"bits":{bits},"format":"ewig-pool",{history}"roots":[{places}],"rows":[{texts}],"version":{version}}}', len(rows)


def document(lines, in_batch, version=TODAY):
    """The document after so many lines, and how many rows it has."""
    return written(rows_of(lines, in_batch), version)


def document_of_names(count, in_batch, version=TODAY):
    """The document after so many names, and how many rows it has."""
    return written(names_of(count, in_batch, version), version)
