#!/usr/bin/env python3
"""Damages a journal in every way that docs/AUDIT.md lists, reads it with the static library and says which layer first knew.

audit.py            holds what it sees to the table in docs/AUDIT.md
audit.py --write    writes the table there anew

The journal has three batches under TEST. A row is one kind of damage; it may stand for many images, and then shows all that was seen.
"""
import ctypes as c
import os
import re
import subprocess
import sys
import tempfile

TOP = os.path.dirname(os.path.dirname(os.path.abspath(__file__)))
PAGE = os.path.join(TOP, 'docs', 'AUDIT.md')
BEGIN, END = '<!-- table: made by tests/audit.py -->', '<!-- end of table -->'


def structs():
    """The structs that include/pierloft.h declares, in its order, by their names there without pierloft_."""
    with open(os.path.join(TOP, 'include', 'pierloft.h'), encoding='utf-8') as header:
        text = re.sub(r'/\*.*?\*/', '', header.read(), flags=re.S)
    types = {'uint8_t': c.c_uint8, 'uint32_t': c.c_uint32, 'uint64_t': c.c_uint64, 'size_t': c.c_size_t}
    for fields, name in re.findall(r'typedef struct \{(.*?)\} (pierloft_\w+);', text, re.S):
        members = [(field, types[of] * int(length) if length else types[of])
                   for of, field, length in re.findall(r'(\w+) (\w+)(?:\[(\d+)\])?;', fields)]
        types[name] = type(name, (c.Structure,), {'_fields_': members})
    return {name[len('pierloft_'):]: of for name, of in types.items() if name.startswith('pierloft_')}


def library():
    archive = os.path.join(TOP, 'target', 'staticlib', 'libpierloft.a')
    subprocess.run(['sh', os.path.join(TOP, 'tools', 'archive'), '--if-older'], check=True, stdout=subprocess.DEVNULL)
    with tempfile.TemporaryDirectory() as folder:
        shared = os.path.join(folder, 'pierloft.so')
        subprocess.run(['cc', '-shared', '-o', shared, '-Wl,--whole-archive', archive, '-Wl,--no-whole-archive'], check=True)
        lib = c.CDLL(shared)
    dialect, reader = STRUCTS['dialect'], STRUCTS['reader']
    lib.pierloft_test.restype = dialect
    lib.pierloft_step.restype = STRUCTS['stepped']
    lib.pierloft_step.argtypes = [c.c_char_p, c.c_size_t, reader, dialect]
    lib.pierloft_kept.restype = STRUCTS['count']
    lib.pierloft_kept.argtypes = [c.c_size_t, reader]
    lib.pierloft_decode.restype = STRUCTS['entry']
    lib.pierloft_decode.argtypes = [c.c_char_p, c.c_size_t, c.c_size_t, dialect]
    lib.pierloft_xxh3_64.restype = STRUCTS['hash']
    lib.pierloft_xxh3_64.argtypes = [c.c_char_p, c.c_size_t]
    lib.pierloft_write_clear.restype = STRUCTS['reply']
    lib.pierloft_write_clear.argtypes = [c.c_char_p, c.c_size_t, dialect, STRUCTS['writer'], c.c_uint64, c.c_uint64]
    return lib


STRUCTS = structs()
LIB = library()
TEST = LIB.pierloft_test()
MAGIC = bytes(TEST.magic[:TEST.length])


def le(n, width):
    return n.to_bytes(width, 'little')


def start(count, seqno):
    return b'\x01' + le(count, 4) + le(seqno, 8)


def item(code, keyspace, key, value, value_length=None, disk_length=None):
    value_length = len(value) if value_length is None else value_length
    disk_length = len(value) if disk_length is None else disk_length
    return bytes([2, code, 0]) + le(keyspace, 8) + le(len(key), 2) + le(value_length, 4) + le(disk_length, 4) + key + value


def clear(keyspace):
    return b'\x04' + le(keyspace, 8)


def end(*entries):
    body = b''.join(entries)
    return b'\x03' + le(LIB.pierloft_xxh3_64(body, len(body)).hash, 8) + MAGIC


def batch(seqno, *entries, count=None):
    return start(len(entries) if count is None else count, seqno) + b''.join(entries) + end(*entries)


A, B = item(0, 2, b'a', b'xy'), clear(2)
C, D = item(1, 2, b'bb', b''), item(0, 3, b'c', b'zzz')
FIRST, SECOND, THIRD = batch(7, A, B), batch(8, C, D), batch(9, clear(3))
JOURNAL = FIRST + SECOND + THIRD
BOUNDS = [0, len(FIRST), len(FIRST + SECOND), len(JOURNAL)]
OUTCOMES = ['clean', 'torn', 'INSUFFICIENT', 'TOO MANY', 'MISMATCH']
FAULTS = {30: 'INCOMPLETE', 31: 'TAG', 32: 'VALUE TYPE', 33: 'COMPRESSION', 34: 'TRAILER'}


def read(image):
    """What the steps give: the batches (seqno, start), the outcome, the last valid position and the bytes to keep."""
    batches, state = [], STRUCTS['reader'](0, 0, 0)
    while True:
        at = state.position
        step = LIB.pierloft_step(image, len(image), state, TEST)
        assert step.number == 0
        state = step.reader
        if not step.accepted:
            kept = LIB.pierloft_kept(len(image), state)
            assert kept.number == 0
            return batches, step.outcome, state.position, kept.bytes
        batches.append((step.seqno, at))


def first_knows(image, outcome, valid):
    """The layer that ended the reading: the entry decoder by a fault, the batch reader by an entry out of place, its count or its checksum."""
    if outcome == 0:
        return 'none'
    if outcome in (2, 3):
        return f'batch, by the count: {outcome} {OUTCOMES[outcome]}'
    if outcome == 4:
        return 'batch, by the checksum: 4 MISMATCH'
    at = valid
    while at < len(image):
        entry = LIB.pierloft_decode(image, len(image), at, TEST)
        if entry.number:
            return f'entry: {entry.number} {FAULTS[entry.number]}'
        outside = at == valid
        if outside != (entry.tag == 1):
            return 'batch, by the order of entries: 1 torn'
        assert entry.next > at, 'an entry ends behind its first byte'
        at = entry.next
    return 'batch, by the end of the image: 1 torn'


def seen(images):
    """All that was seen over the images of one row."""
    layers, outcomes, keeps, shown = {}, set(), set(), set()
    for image in images:
        batches, outcome, valid, kept = read(image)
        layer = first_knows(image, outcome, valid)
        layers[layer] = layers.get(layer, 0) + 1
        outcomes.add(f'{outcome} {OUTCOMES[outcome]}')
        keeps.add('all' if kept == len(image) and outcome != 1 else 'up to the last valid position')
        shown.add(len(batches))
    layer = '; '.join(f'{k} ({v})' if len(layers) > 1 else k for k, v in sorted(layers.items()))
    return [str(len(images)), layer, ', '.join(sorted(outcomes)), ' or '.join(sorted(keeps)), ' or '.join(map(str, sorted(shown)))]


def flips(at, width):
    """The journal with each single bit of a field changed."""
    out = []
    for bit in range(width * 8):
        image = bytearray(JOURNAL)
        image[at + bit // 8] ^= 1 << bit % 8
        out.append(bytes(image))
    return out


def cuts(places, zeros):
    return [JOURNAL[:at] + bytes(z) for at in places for z in zeros]


def inside(low, high):
    return range(low + 1, high)


def written(image, position, zeroed):
    """The image after the library wrote a batch of one Clear at a position, behind which all was or was not set to zero first."""
    buffer = c.create_string_buffer(image[:position] + bytes(len(image) - position) if zeroed else image, len(image))
    reply = LIB.pierloft_write_clear(buffer, len(image), TEST, STRUCTS['writer'](position, 0, 0, 0), 10, 5)
    assert reply.number == 0 and reply.bytes == len(THIRD)
    return buffer.raw


# A batch that was not finished. Its Item's value is itself a batch, and begins where a batch of one Clear written over the Start would end.
PLANTED = FIRST + start(1, 8) + item(0, 2, b'k', batch(99, clear(9)))
OLD = THIRD + SECOND

I1, C1, E1 = 13, 13 + len(A), 13 + len(A + B)  # the Item, the Clear and the End of the first batch
LAW, DEC, STEP, NOT = 'cut', 'decode', 'step', 'none'
ROWS = [
    ('Cuts', None, None),
    ('cut at a batch boundary', cuts(BOUNDS, [0]), LAW),
    ('cut at a batch boundary, then 1 to 64 zeros', cuts(BOUNDS, range(1, 65)), LAW),
    ('cut inside a Start', cuts(inside(0, 13), [0]), LAW),
    ('cut behind a Start', cuts([13], [0]), LAW),
    ('cut inside an Item', cuts(inside(I1, C1), [0]), LAW),
    ('cut behind an Item', cuts([C1], [0]), LAW),
    ('cut inside a Clear', cuts(inside(C1, E1), [0]), LAW),
    ('cut inside an End', cuts(inside(E1, len(FIRST)), [0]), LAW),
    ('cut at any byte that is no boundary, then 0 to 64 zeros', cuts([n for n in range(len(JOURNAL)) if n not in BOUNDS], range(65)), LAW),
    ('One bit changed in the first batch', None, None),
    ('Start: tag', flips(0, 1), DEC),
    ('Start: count', flips(1, 4), STEP),
    ('Start: seqno', flips(5, 8), NOT),
    ('Item: tag', flips(I1, 1), DEC),
    ('Item: type', flips(I1 + 1, 1), DEC + ', ' + STEP),
    ('Item: compression', flips(I1 + 2, 1), DEC),
    ('Item: keyspace', flips(I1 + 3, 8), STEP),
    ('Item: key length', flips(I1 + 11, 2), DEC + ', ' + STEP),
    ('Item: value length', flips(I1 + 13, 4), 'anew'),
    ('Item: on-disk length', flips(I1 + 17, 4), DEC + ', ' + STEP),
    ('Item: key', flips(I1 + 21, 1), STEP),
    ('Item: value', flips(I1 + 22, 2), STEP),
    ('Clear: tag', flips(C1, 1), DEC),
    ('Clear: keyspace', flips(C1 + 1, 8), STEP),
    ('End: tag', flips(E1, 1), DEC),
    ('End: checksum', flips(E1 + 1, 8), STEP),
    ('End: magic', flips(E1 + 9, 4), DEC),
    ('Lies, each with the checksum of the entries as they are read', None, None),
    ('an on-disk length of FFFFFFFF', [start(1, 7) + item(0, 2, b'a', b'xy', disk_length=0xffffffff) + end(A)], DEC),
    ('a key length of FFFF', [start(1, 7) + A[:11] + b'\xff\xff' + A[13:] + end(A)], DEC),
    ('a value length of 9 where 2 bytes stand', [start(1, 7) + item(0, 2, b'a', b'xy', value_length=9) + end(A)], 'anew'),
    ('a value length of 9, with the checksum of the bytes as they stand', [start(1, 7) + item(0, 2, b'a', b'xy', value_length=9) + end(item(0, 2, b'a', b'xy', value_length=9))], STEP),
    ('a count one too high', [batch(7, A, B, count=3)], STEP),
    ('a count one too low', [batch(7, A, B, count=1)], STEP),
    ('a count of 0 before an entry', [batch(7, A, count=0)], STEP),
    ('a count of 4,294,967,295', [batch(7, A, B, count=0xffffffff)], STEP),
    ('Entries and batches moved', None, None),
    ('two entries swapped', [start(2, 7) + B + A + end(A, B)], STEP),
    ('an entry repeated', [start(2, 7) + A + A + B + end(A, B)], STEP),
    ('an entry dropped', [start(2, 7) + A + end(A, B)], STEP),
    ('an entry of another batch in its place', [start(2, 7) + A + C + end(A, B)], STEP),
    ('a Start dropped', [FIRST + SECOND[13:] + THIRD], STEP),
    ('a Start repeated', [start(2, 7) + FIRST], STEP),
    ('an End dropped', [start(2, 7) + A + B + SECOND], STEP),
    ('an End repeated', [FIRST + FIRST[E1:] + SECOND], STEP),
    ('two batches swapped', [SECOND + FIRST + THIRD], NOT),
    ('a batch repeated', [FIRST + FIRST + SECOND], NOT),
    ('a batch dropped', [FIRST + THIRD], NOT),
    ('Foreign bytes', None, None),
    ('one byte that is no tag, in front', [bytes([n]) + JOURNAL for n in range(256) if not 1 <= n <= 4], DEC),
    ('a text in front', [b'claims\n' + JOURNAL], DEC),
    ('a text between two batches', [FIRST + b'claims\n' + SECOND], DEC),
    ('a text behind', [JOURNAL + b'claims\n'], DEC),
    ('a text inside a batch', [FIRST[:C1] + b'claims\n' + FIRST[C1:]], DEC),
    ('a Clear between two batches', [FIRST + clear(1) + SECOND], STEP),
    ('a batch of another magic behind', [JOURNAL + FIRST[:-1] + b'\x02'], DEC),
    ('a batch with the checksum of another', [start(2, 7) + A + B + SECOND[-13:]], STEP),
    ('Old bytes behind a writer', None, None),
    ('a torn batch whose value holds a batch', [PLANTED], STEP),
    ('the same, a batch written at the last valid position', [written(PLANTED, len(FIRST), False)], NOT),
    ('the same, all behind that position set to zero first', [written(PLANTED, len(FIRST), True)], LAW),
    ('a batch written at the front of an old journal of two', [written(OLD, 0, False)], NOT),
    ('the same, all set to zero first', [written(OLD, 0, True)], LAW),
]


def table():
    lines, heading = [], ['damage', 'images', 'first knows', 'outcome', 'keep', 'batches shown', 'proof']
    for name, images, proof in ROWS:
        if images is None:
            lines += ['', f'### {name}', '', '| ' + ' | '.join(heading) + ' |', '|' + '---|' * len(heading)]
        else:
            lines.append('| ' + ' | '.join([name] + seen(images) + [proof]) + ' |')
    return '\n'.join(lines) + '\n'


def main():
    page = open(PAGE).read()
    before, rest = page.split(BEGIN)
    old, after = rest.split(END)
    new = table()
    images = sum(len(r[1]) for r in ROWS if r[1])
    if sys.argv[1:] == ['--write']:
        open(PAGE, 'w').write(before + BEGIN + '\n' + new + '\n' + END + after)
        print(f'audit: {images} images, the table is written')
        return 0
    if old.strip() != new.strip():
        for was, now in zip(old.strip().split('\n'), new.strip().split('\n')):
            if was != now:
                print(f'audit: the page says {was}\n       and this was seen {now}')
        return 1
    print(f'audit: {images} damaged images, as docs/AUDIT.md says')
    return 0


sys.exit(main())
