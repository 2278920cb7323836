"""Branch tables and change sets as numbers, with nothing tested but what reading them needs. For tools/table and
tools/draw."""
import os
import struct
import sys

MOST_NODES, MOST_MESH, MOST, MOST_COUNT = 4096, 256, 1_000_000, 20_000
HEADER = struct.Struct("<3sHHBI")
# A change set's own header: letters, version and sort; and the row number of an entry, before the row.
SET, NUMBER = struct.Struct("<3sHB"), struct.Struct("<H")
# A row by the table's version: node, node, length, and then weight, or kind and count. Version 3 is a clock mesh's.
ROWS = {1: struct.Struct("<HHIi"), 2: struct.Struct("<HHIHH"), 3: struct.Struct("<HHIi")}
# What each kind scores: from 24 on filler, from 32 on blocked ground.
SCORES = [1, 2, 2, 3, 3, 4, 4, 5, 6, 6, 8, 8, 10, 10, 12, 12, 14, 14, 16, 16, 18, 20, 22, 24] + 8 * [0] + 32 * [-50]


def refusals():
    """Each refusal's words, by its number."""
    with open(os.path.join(os.path.dirname(os.path.realpath(__file__)), "refusals"), encoding="utf-8") as lines:
        pairs = (line.rstrip("\n").split(" ", 1) for line in lines if not line.startswith("#"))
        return {int(number): words for number, words in pairs}


REFUSALS = refusals()
# In their place where a mesh is read too, and for a mesh.
READ, OF_MESH = {3: "version none of 1, 2 and 3"}, {4: "n is 0 or above 256", 6: "size not 12 + 12 × rows"}


class Bad(Exception):
    """What cannot be done, in words."""


def packed(version, nodes, bound, rows):
    return HEADER.pack(b"RTN", version, nodes, 0, bound) + b"".join(ROWS[version].pack(*row) for row in rows)


def pack(rows, bound):
    """The table of these rows, of version 2 where they have a kind and a count; it has one node more than rows."""
    return packed(2 if rows and len(rows[0]) == 5 else 1, len(rows) + 1, bound, rows)


def pack_mesh(rows, nodes, bound):
    """The table of a clock mesh, whose nodes the rows do not tell."""
    return packed(3, nodes, bound, rows)


def pack_changes(entries):
    """The change set of these entries, a row number and a row each, of version 2 where it has a kind and a count."""
    row = ROWS[2 if entries and len(entries[0]) == 6 else 1]
    return SET.pack(b"RTN", 1, 1) + b"".join(NUMBER.pack(entry[0]) + row.pack(*entry[1:]) for entry in entries)


def is_mesh(table):
    """Of a table whose header is good."""
    return HEADER.unpack_from(table)[1] == 3


def nodes_of(table):
    """Of a table whose header is good."""
    return HEADER.unpack_from(table)[2]


def unpack(table, meshes=False):
    """Bound and rows of a table whose header is good; a mesh's too where these are read."""
    if len(table) < HEADER.size:
        raise Bad(REFUSALS[1])
    mark, version, nodes, reserved, bound = HEADER.unpack_from(table)
    mesh = meshes and version == 3
    good = {2: mark == b"RTN", 3: version in (1, 2) or mesh, 4: 1 <= nodes <= (MOST_MESH if mesh else MOST_NODES)}
    good[5], good[6] = reserved == 0, len(table) % 12 == 0 if mesh else len(table) == 12 * nodes
    for number in good:
        if not good[number]:
            raise Bad({**REFUSALS, **(READ if meshes else {}), **(OF_MESH if mesh else {})}[number])
    return bound, list(ROWS[version].iter_unpack(table[HEADER.size:]))


def weight(row):
    """What a good row of either version weighs."""
    return row[3] if len(row) == 4 else row[4] * SCORES[row[3]]


def read(path, most=-1):
    """The bytes of a file, or of standard input where the path is '-'."""
    try:
        if path == "-":
            return sys.stdin.buffer.read(most)
        with open(path, "rb") as file:
            return file.read(most)
    except OSError as why:
        raise Bad(f"cannot read {path}: {why.strerror}") from None


def end_as(name, main):
    """Runs main; what cannot be done is a line on standard error and status 1."""
    try:
        main()
        sys.stdout.flush()
    except Bad as why:
        sys.exit(f"{name}: {why}")
    except BrokenPipeError:
        sys.stderr.close()
        sys.exit(1)
    except OSError as why:
        sys.exit(f"{name}: cannot write: {why.strerror}")
