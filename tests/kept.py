"""What a saved document has beside what the plain shell kept in it: tests/plain_shell.py by tests/pool_reader.py."""

import pool_reader
from plain_shell import Kept, State, numbered
from pool_reader import BITS, OLD, SECOND, TODAY

# A document of each version, with a name as files have: two buffers and their undo, two equal lines, and lines in which
# one cell is a line and a name, or stands twice.
DOCUMENTS = {
    "old": pool_reader.two_names(pool_reader.OLD_POSITIONS, version=OLD),
    "old2": pool_reader.two_lines(pool_reader.CELLS[1:], [1, 2], version=OLD),
    "second": pool_reader.two_lines(pool_reader.CELLS[1:2], [1, 1], version=SECOND),
    "today": pool_reader.NAME_AND_LINE, "undone": pool_reader.one_undone(history=3),
}


def told(workspace, place):
    """The buffers and the stars of a state in a document."""
    buffers = {name: workspace.lines(lines) for name, lines in workspace.buffers(place).items()}
    return buffers, workspace.stars(place)


def plain(state):
    """The same of a state of the plain shell."""
    return state.buffers, set(state.stars)


def kept_of(data, bits=BITS):
    """What the bytes of a valid document stand for."""
    return kept_in(pool_reader.read(data, bits))


def kept_in(workspace):
    """The same of what was read."""
    places = {}

    def state(place):
        if place not in places:
            buffers, stars = told(workspace, place)
            places[place] = State(buffers, frozenset(stars))
        return places[place]

    versions = {name: state(place) for name, place in workspace.versions().items()}
    histories = [[state(place) for place in places_of] for places_of in (workspace.undo, workspace.redo)]
    pool = workspace.pool
    return Kept((state(workspace.current), versions, *histories, pool.history), version=pool.version, bits=pool.bits)


def difference(spaces, workspace):
    """How what a workspace of rows has differs from what the plain shell had, or None."""
    current, versions, undo, redo, most = spaces
    if workspace.pool.history != most:
        return f"undo keeps {workspace.pool.history} states, and not {most}"
    if told(workspace, workspace.current) != plain(current):
        return "the current state differs"
    found = {name: told(workspace, place) for name, place in workspace.versions().items()}
    if found != {name: plain(state) for name, state in versions.items()}:
        return "the versions differ"
    for name, places, states in [("undo", workspace.undo, undo), ("redo", workspace.redo, redo)]:
        if [told(workspace, place) for place in places] != [plain(state) for state in states]:
            return f"{name} differs"
    return None


def whole_difference(spaces, data, bits=BITS):
    """How a whole document differs from what the plain shell had, or None."""
    try:
        workspace = pool_reader.read(data, bits)
    except pool_reader.Damaged as damage:
        return f"the document fails the test {damage}"
    if workspace.pool.version != TODAY or pool_reader.written(workspace.pool) != data:
        return "the document isn't the compact text of its rows"
    return difference(spaces, workspace)


def chain_difference(spaces, documents, bits=BITS):
    """How a chain of documents differs from what the plain shell had when its last one was written, or None."""
    try:
        pool = pool_reader.pool_of_chain(pool_reader.chain_of(documents, bits))
        before = pool_reader.chain_of(documents[:-1], bits)
    except pool_reader.Damaged as damage:
        return f"a document of the chain fails the test {damage}"
    if pool_reader.part_written(before, pool) != documents[-1]:
        return "the partial document isn't the one of its pool"
    return whole_difference(spaces, pool_reader.written(pool), bits)


def file_difference(name, wanted, files, left, bits=BITS):
    """How a file that was left differs from what the plain shell has in it, or None. A document that isn't of the shell that runs
    is compared by its bytes; a partial one whose chain isn't there any more is read alone."""
    data = left.get(name)
    if wanted is None or data is None or isinstance(wanted, bytes):
        return None if data == wanted else "it isn't what it should be"
    if wanted.bits is not None:
        return None if data == DOCUMENTS.get(name) else "it isn't the document that it was"
    if not wanted.before:
        return whole_difference(wanted.spaces, data, bits)
    file = name.rpartition(".")[0]
    names = [numbered(file, number) for number in range(len(wanted.before))]
    if tuple(files.get(it) for it in names) == wanted.before:
        return chain_difference(wanted.spaces, [left.get(it, b"") for it in [*names, name]], bits)
    try:
        pool_reader.part_of(pool_reader.value_of(data), bits)
    except pool_reader.Damaged as damage:
        return f"the partial document fails the test {damage}"
    return None


def files_difference(files, left, bits=BITS):
    """The first file that differs, and how, or None."""
    for name in sorted({*files, *left}):
        found = file_difference(name, files.get(name), files, left, bits)
        if found:
            return f"the file {name}: {found}"
    return None
