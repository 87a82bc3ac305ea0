#!/usr/bin/env python3
"""made.py FOLDER: trees made to have long texts and to go deep, as packs of cases.

wide.pack      nests of calls, arrays, objects, blocks near depth 64, and in the innermost as many entries as 8,192 records allow
deep.pack      a nest of each sort of expression, at every depth that opens
heads.pack     composites that are written whole and begin with a comment: no parser makes such"""
import struct
import sys


def leaf(kind, text):
    return kind, text, None


def node(kind, *below):
    return kind, None, below


def flat(tree):
    """Source and list of records."""
    source, records = bytearray(), []

    def add(kind, text, below):
        at = len(records)
        records.append([kind, len(source), 0, 0])
        if below is None:
            source.extend(text.encode())
        else:
            for child in below:
                add(*child)
        records[at][2] = len(source)
        records[at][3] = len(records) - 1 - at

    add(*tree)
    pack = lambda r: struct.pack('<BII', *r[:3]) if r[0] < 0x80 else struct.pack('<BIII', *r)
    return bytes(source), b''.join(map(pack, records)), len(records)


IDENT, KEY, NUMBER, WS, BLOCK_COMMENT = 3, 8, 5, 0, 2
name = leaf(IDENT, 'k')
key = leaf(KEY, 'k')
comma = leaf(0x18, ',')
gap = leaf(WS, '\n\n')
path = lambda text='k': node(0xB0, leaf(IDENT, text))
pat = node(0xB2, path('p'))
expr = lambda below: node(0x96, below)
body = lambda *below: node(0x80, *below)
script = lambda below: body(expr(below))
block = lambda *below: node(0x81, leaf(0x12, '{'), body(*below), leaf(0x13, '}'))
array = lambda *below: node(0xC3, leaf(0x14, '['), *below, leaf(0x15, ']'))
record = lambda *below: node(0xC5, leaf(9, '#'), leaf(0x12, '{'), *below, leaf(0x13, '}'))
call = lambda *below: node(0xE6, leaf(0x10, '('), *below, leaf(0x11, ')'))
field = lambda: node(0xE5, leaf(0x26, '.'), path('b'))

NESTS = {  # each around an expression's node
    'array': lambda x: array(expr(x)),
    'object': lambda x: record(key, leaf(0x1A, ':'), expr(x)),
    'call': lambda x: node(0xE2, path('f'), call(expr(x))),
    'chain': lambda x: node(0xE2, path('a'), field(), call(), field(), call(expr(x))),
    'block': lambda x: block(expr(x)),
    'group': lambda x: node(0xC9, leaf(0x10, '('), expr(x), leaf(0x11, ')')),
    'empty group': lambda x: node(0xCA, leaf(0x16, ''), expr(x), leaf(0x16, '')),
    'closure': lambda x: node(0xE0, node(0xE1, leaf(0x24, '||')), expr(x)),
    'condition': lambda x: node(0xCB, leaf(0x32, 'if'), expr(x), block()),
    'if': lambda x: node(0xCB, leaf(0x32, 'if'), expr(name), block(expr(x))),
    'match': lambda x: node(0xD8, leaf(0x3D, 'match'), expr(name), leaf(0x12, '{'), node(0xD9, pat, leaf(0x1D, '=>'), expr(x)), leaf(0x13, '}')),
    'select': lambda x: node(0xD6, leaf(0x3B, 'select'), leaf(0x12, '{'), node(0xD7, pat, leaf(0x1C, '='), expr(name), leaf(0x1D, '=>'), expr(x)), leaf(0x13, '}')),
    'while': lambda x: node(0xCF, leaf(0x34, 'while'), expr(name), block(expr(x))),
    'loop': lambda x: node(0xD0, leaf(0x35, 'loop'), block(expr(x))),
    'for': lambda x: node(0xD1, leaf(0x36, 'for'), pat, leaf(0x31, 'in'), expr(name), block(expr(x))),
    'assign': lambda x: node(0xC2, expr(name), leaf(0x1C, '='), expr(x)),
    'unary': lambda x: node(0xC8, leaf(0x27, '!'), x),
    'binary': lambda x: node(0xC6, name, node(0xC7, leaf(0x2A, '+')), x),
    'tuple': lambda x: node(0xC4, leaf(0x10, '('), expr(x), leaf(0x11, ')')),
    'index': lambda x: node(0xE2, path('a'), node(0xE7, leaf(0x14, '['), expr(x), leaf(0x15, ']'))),
    'try': lambda x: node(0xE2, x, node(0xE3, leaf(0x25, '?'))),
    'return': lambda x: node(0xD4, leaf(0x39, 'return'), expr(x)),
    'break': lambda x: node(0xD2, leaf(0x37, 'break'), expr(x)),
    'range': lambda x: node(0xDE, name, leaf(0x1F, '..'), x),
    'mod': lambda x: block(node(0x90, node(0x9D, leaf(0x45, 'mod'), leaf(IDENT, 'm'), block(expr(x))))),
    'fn': lambda x: block(node(0x90, node(0x9A, leaf(0x42, 'fn'), leaf(IDENT, 'm'), node(0xA7, leaf(0x10, '('), leaf(0x11, ')')), block(expr(x))))),
    'let': lambda x: block(node(0x95, leaf(0x30, 'let'), pat, leaf(0x1C, '='), expr(x))),
}


def every(n, *below):
    return below * n


def commented(n, entry):
    """Comments on lines of their own, and an entry before 256 wait."""
    return [x for i in range(n) for x in ([entry] if i % 200 == 0 else [gap, leaf(BLOCK_COMMENT, '/**/')])]


FILLINGS = [
    lambda n: record(*every(n, key)),
    lambda n: record(*every(n, key, comma)),
    lambda n: record(*every(n, key, comma, gap)),
    lambda n: record(*commented(n, key)),
    lambda n: array(*every(n, expr(name))),
    lambda n: array(*every(n, expr(name), gap)),
    lambda n: array(*commented(n, expr(name))),
    lambda n: block(*every(n, node(0x97, name))),
    lambda n: block(*every(n, node(0x97, name), gap)),
]


def nested(wrap, depth, inner):
    for _ in range(depth):
        inner = wrap(inner)
    return script(inner)


def fullest(make):
    """The largest case of at most 8,192 records."""
    low, high = 1, 8192
    while low < high:
        middle = (low + high + 1) // 2
        low, high = (middle, high) if flat(make(middle))[2] <= 8192 else (low, middle - 1)
    return make(low)


def wide():
    for nest in ['array', 'object', 'call', 'chain', 'block']:
        for depth in range(17, 33):
            for filling in FILLINGS:
                yield fullest(lambda n: nested(NESTS[nest], depth, filling(n)))


def deep():
    for wrap in NESTS.values():
        for depth in range(1, 63):
            yield nested(wrap, depth, path())


def heads():
    for n, length in [(5, 6), (100, 600), (250, 250)]:
        comment = node(0x90, leaf(BLOCK_COMMENT, '/*' + 'x' * (length - 4) + '*/'))
        words = node(0x84, *every(n, comment), leaf(0x47, 'pub'))
        yield body(node(0x90, node(0x98, words, leaf(0x40, 'struct'), leaf(WS, ' '), name, node(0xA5))))


if len(sys.argv) != 2:
    sys.exit(__doc__)
for pack in [wide, deep, heads]:
    with open(f'{sys.argv[1]}/{pack.__name__}.pack', 'wb') as to:
        for tree in pack():
            source, records, _ = flat(tree)
            to.write(struct.pack('<I', len(source)) + source + struct.pack('<I', len(records)) + records + bytes(12))
