"""Documents of files that hurt: many blocks, many steps, many rows, and lengths that aren't so."""
from struct import pack

from documents import MOST_BYTES, MOST_ROWS, Document, filled, spelled

TYPES = {'u8': 0, 'u16': 1, 'u32': 2, 'u64': 3}
BLOCKS = MOST_ROWS // 1024
ALL_READ = b'reads: ' + b' '.join(b'%d' % k for k in range(1, BLOCKS + 1)) + b'\n'
FULL = 2**64 - 1


def header(kind, rows):
    """Block 0."""
    return (b'VXCOL001' + bytes([TYPES[kind]]) + pack('<Q', rows)).hex()


def block(digits, base, offsets=()):
    """A block of these digits and offsets, which need not be a spelling."""
    fields = sum(n << (j * digits) for j, n in enumerate(offsets))
    return (bytes([digits]) + pack('<Q', base) + fields.to_bytes(128 * digits, 'little')).hex()


def equal(number):
    """1024 equal numbers."""
    return block(0, number)


def text(blocks, steps='[]'):
    """A document of blocks, spelled in place: their list may have millions of items."""
    return '{"file":["' + '","'.join(blocks) + '"],"steps":' + (steps if isinstance(steps, str) else spelled(steps)) + '}'


def whole(kind, item):
    """A file of as many rows as there may be, of blocks that are all alike."""
    return [header(kind, MOST_ROWS)] + [item] * BLOCKS


def steps(front, item, back, size=MOST_BYTES - 1_000_000, blocks=None):
    """As many steps as `size` has room for, over blocks that need no more than a million bytes."""
    return text(blocks or whole('u8', equal(7)), filled('[' + front, item, back + ']', size).rstrip())


def last_row(rows=MOST_ROWS):
    return {'take': [rows - 1]}


def with_last(kind, item, last):
    return whole(kind, item)[:-1] + [last]


def ramp(kind, rows=MOST_ROWS):
    return {'take': {'layout': 'Primitive', 'type': kind, 'ramp': rows}}


def constant(value, rows=MOST_ROWS):
    return {'take': {'layout': 'Constant', 'type': 'u32', 'nullable': value is None, 'value': value, 'len': rows}}


def half_a_million_slices():
    """Each but the last cuts off the first row and the last one."""
    cuts = ','.join('{"slice":[1,%d]}' % (MOST_ROWS - k) for k in range(500_000))
    return text(whole('u8', equal(7)), '[' + cuts + ',{"slice":[0,1]}]')


def there_and_back():
    """A million indices, each a prime number of rows before the one ahead of it."""
    indices = ','.join(str(MOST_ROWS - 1 - 7919 * k % MOST_ROWS) for k in range(1_000_000))
    return text(whole('u8', equal(7)), '[{"take":[' + indices + ']}]')


def full_blocks():
    """Blocks of 64 digits, as many as there is room for, and how many they are."""
    numbers = [FULL, 0] + [(k * 0x9E3779B97F4A7C15) & FULL for k in range(1022)]
    item = (bytes([64]) + bytes(8) + pack('<1024Q', *numbers)).hex()
    count = (MOST_BYTES - 100) // (len(item) + 3)
    line = sum(len(str(n)) + 1 for n in numbers)
    return [header('u64', 1024 * count)] + [item] * count, count, 4 + count * line


def thirteen_digits():
    item = block(13, 5, [8191, 0] + [k * 7 % 8192 for k in range(1022)])
    count = (MOST_BYTES - 100) // (len(item) + 3)
    return text([header('u16', 1024 * count)] + [item] * count)


def every_other_run():
    runs = ','.join('[%d,%d]' % (at, at + 16) for at in range(0, MOST_ROWS, 32))
    return text(whole('u8', equal(7)), '[{"filter":{"len":%d,"runs":[%s]}}]' % (MOST_ROWS, runs))


def reads_line(count):
    return len(b'reads:' + b''.join(b' %d' % k for k in range(1, count + 1)) + b'\n')


def right(name, make, **more):
    return Document(name, make, words='file', **more)


def malformed(name, make, seconds=2, mib=256, **more):
    return Document(name, make, words='file', status=2, seconds=seconds, mib=mib, printed=0, **more)


JUNK = 'ff' * 507
BROKEN_LAST = '{"slice":[0,2]}'

DOCUMENTS = [
    # one block of many
    right('16,384 blocks, the last touched, the others empty',
          lambda: text(with_last('u8', '', equal(3)), [last_row()]),
          seconds=0.2, mib=24, front=b'u8\n3\nreads: 16384\n', printed=18),
    right('16,384 blocks, the last touched, the others of 507 bytes that are none',
          lambda: text(with_last('u8', JUNK, equal(3)), [last_row()]),
          seconds=0.5, mib=96, front=b'u8\n3\nreads: 16384\n', printed=18),
    right('16,384 blocks, the first touched a million times',
          lambda: text(whole('u8', equal(3)), spelled([constant(0, 1_000_000)])),
          seconds=0.5, mib=64, front=b'u8\n3\n', back=b'3\nreads: 1\n', printed=2_000_012),
    right('5.5 million empty blocks behind a header, none touched',
          lambda: filled('{"file":["' + header('u8', MOST_ROWS) + '",', '""', '],"steps":[{"slice":[5,5]}]}'),
          seconds=4, mib=1024, front=b'u8\nreads:\n', printed=10),

    # all rows
    right('16,777,216 rows of one digit', lambda: text(whole('u8', equal(7))),
          seconds=3, mib=512, front=b'u8\n7\n', back=ALL_READ[-4096:], printed=3 + 2 * MOST_ROWS + len(ALL_READ)),
    right('16,777,216 rows of 20 digits', lambda: text(whole('u64', equal(FULL))),
          seconds=4, mib=1024, front=b'u64\n%d\n' % FULL, printed=4 + 21 * MOST_ROWS + len(ALL_READ)),
    right('16,777,216 rows of three bits',
          lambda: text(whole('u8', block(3, 0, [k % 8 for k in range(1024)]))),
          seconds=3, mib=512, front=b'u8\n0\n1\n2\n3\n', printed=3 + 2 * MOST_ROWS + len(ALL_READ)),
    right('16 MiB of blocks of 64 bits', lambda: text(full_blocks()[0]),
          seconds=1, mib=128, front=b'u64\n%d\n0\n' % FULL,
          printed=full_blocks()[2] + reads_line(full_blocks()[1])),
    right('16 MiB of blocks of 13 bits', thirteen_digits, seconds=2, mib=256, front=b'u16\n8196\n5\n'),

    # many steps
    right('half a million slices', half_a_million_slices,
          seconds=3, mib=768, front=b'u8\n7\nreads: 489\n', printed=18 - 2),
    right('a million slices of one row',
          lambda: steps('{"slice":[0,1]},', '{"slice":[0,1]}', ''),
          seconds=6, mib=1536, front=b'u8\n7\nreads: 1\n', printed=14),
    right('400,000 filters that keep all rows',
          lambda: steps('', '{"filter":{"len":%d,"every":true}}' % MOST_ROWS, ',{"slice":[0,1]}'),
          seconds=5, mib=1024, front=b'u8\n7\nreads: 1\n', printed=14),
    right('a million filters of one row',
          lambda: steps('{"slice":[5,6]},', '{"filter":"1"}', ''),
          seconds=6, mib=1536, front=b'u8\n7\nreads: 1\n', printed=14),
    right('a million takes of one row',
          lambda: steps('{"slice":[5,6]},', '{"take":[0]}', ''),
          seconds=9, mib=2304, front=b'u8\n7\nreads: 1\n', printed=14),
    right('a hundred takes of all rows',
          lambda: text(whole('u8', equal(7)), [ramp('u32')] * 100 + [{'slice': [0, 1]}]),
          seconds=80, mib=7168, front=b'u8\n7\nreads: 1\n', printed=14),
    right('a million slices, and one past the end',
          lambda: steps('{"slice":[0,1]},', '{"slice":[0,1]}', ',' + BROKEN_LAST),
          status=1, seconds=6, mib=1536, front=b'step ', back=b': BadRange 0..2 of 1\n'),

    # many picks
    right('a million indices back through all blocks', there_and_back,
          seconds=2, mib=384, front=b'u8\n7\n', back=ALL_READ[-4096:], printed=3 + 2_000_000 + len(ALL_READ)),
    right('3.1 million nulls picked, and no block',
          lambda: steps('{"take":[', 'null', ']}'),
          seconds=2, mib=512, front=b'u8?\nnull\n', back=b'null\nreads:\n'),
    right('16,777,216 nulls picked, and no block',
          lambda: text(whole('u8', equal(7)), [constant(None)]),
          seconds=2, mib=512, front=b'u8?\nnull\n', back=b'null\nreads:\n', printed=4 + 5 * MOST_ROWS + 7),
    right('16,777,216 picks of the first 256 rows',
          lambda: text(whole('u8', equal(7)), [ramp('u8')]),
          seconds=3, mib=640, front=b'u8\n7\n', back=b'7\nreads: 1\n', printed=3 + 2 * MOST_ROWS + 9),
    right('half of 16,777,216 rows by 524,288 runs', every_other_run,
          seconds=3, mib=640, front=b'u8\n7\n', back=ALL_READ[-4096:], printed=3 + MOST_ROWS + len(ALL_READ)),

    # lengths that aren't so
    malformed('a header of 16,777,216 rows, and no block', lambda: text([header('u8', MOST_ROWS)])),
    malformed('a header of 16,777,217 rows', lambda: text([header('u8', MOST_ROWS + 1)])),
    malformed('a header of 2^64 - 1 rows', lambda: text([header('u64', FULL)])),
    malformed('all blocks there but the last', lambda: text(whole('u8', equal(7))[:-1]), mib=384),
    malformed('the last of 16,384 blocks too short', lambda: text(with_last('u8', equal(7), equal(7)[:-2])), mib=384),
    malformed('the last of 16,384 blocks too long', lambda: text(with_last('u8', equal(7), equal(7) + '00')), mib=384),
    malformed('the last of 16,384 blocks with 255 digits', lambda: text(with_last('u8', equal(7), block(255, 0)[:18])),
              mib=384),
    malformed('the last of 16,384 blocks past its type', lambda: text(with_last('u8', equal(7), equal(256))), mib=384),
    malformed('the last of 16,384 blocks past 64 bits',
              lambda: text(with_last('u64', equal(7), block(1, FULL, [0, 1]))), mib=384),
    malformed('a block of 8202 bytes behind 5 million empty ones',
              lambda: filled('{"file":["",', '""', ',"' + '00' * 8202 + '"],"steps":[]}'), seconds=4, mib=1024),
    malformed('a text of 16 MiB of digits', lambda: filled('{"file":["', '0', '"],"steps":[]}').replace('0,', '00')),
    malformed('an odd digit at the end of 16 MiB',
              lambda: filled('{"file":[', '"' + '0' * 16402 + '"', ',"0"],"steps":[]}')),

    # texts and nesting
    right('150 blocks of 8201 bytes, each digit an escape',
          lambda: text([header('u8', 1), equal(7)] + ['\\u0030' * 16402] * 150),
          seconds=2, mib=256, front=b'u8\n7\nreads: 1\n', printed=14),
    malformed('16 MiB of opening brackets', lambda: '{"file":[' + '[' * (MOST_BYTES - 9), mib=64),
    malformed('lists 127 deep', lambda: '{"file":' + '[' * 126 + ']' * 126 + ',"steps":[]}', mib=32),
    malformed('1.5 million members of other names',
              lambda: '{' + ','.join('"%x":0' % k for k in range(1_400_000)) + '}', seconds=4, mib=768),
    right('a million members `file`, of which the last counts',
          lambda: filled('{', '"file":[]', ',"file":["' + header('u8', 0) + '"],"steps":[]}'),
          seconds=3, mib=256, front=b'u8\nreads:\n', printed=10),

    # bytes
    right('16,777,216 bytes, of which most are blanks',
          lambda: text([header('u8', 0)]).ljust(MOST_BYTES), seconds=0.5, mib=64, front=b'u8\nreads:\n', printed=10),
    right('16,777,217 bytes', lambda: text([header('u8', 0)]).ljust(MOST_BYTES + 1),
          status=7, seconds=0.5, mib=64, printed=0),
]
