"""The column file, byte by byte: its header, and blocks of 1024 numbers.

Written from docs/FORMAT.md.
"""
LONGEST = 8201
MAGIC = b'VXCOL001'
TYPES = ('u8', 'u16', 'u32', 'u64')
MOST_ROWS = 16_777_216
CHUNK = 1024


def shape_in(block):
    """The type and the number of rows that a header states, or None where it is none."""
    if len(block) != 17 or block[:8] != MAGIC or block[8] >= len(TYPES):
        return None
    rows = int.from_bytes(block[9:], 'little')
    return None if rows > MOST_ROWS else (TYPES[block[8]], rows)


def fields_of(digits, packed):
    """1024 fields of so many bits, the least significant bit first."""
    every = int.from_bytes(packed, 'little')
    return [every >> j * digits & (1 << digits) - 1 for j in range(CHUNK)]


def numbers_in(block, width):
    """The 1024 numbers that a block spells, each of so many bytes, or None where it is damaged."""
    if len(block) < 9 or block[0] > 8 * width or len(block) != 9 + CHUNK // 8 * block[0]:
        return None
    base = int.from_bytes(block[1:9], 'little')
    fields = fields_of(block[0], block[9:])
    greatest = max(fields)
    if min(fields) != 0 or greatest.bit_length() != block[0] or base + greatest >= 256 ** width:
        return None
    return [base + field for field in fields]


def header(type_name, rows):
    return MAGIC + bytes([TYPES.index(type_name)]) + rows.to_bytes(8, 'little')


def spell(numbers):
    """The block of 1024 numbers."""
    base = min(numbers)
    digits = (max(numbers) - base).bit_length()
    every = sum(number - base << j * digits for j, number in enumerate(numbers))
    return bytes([digits]) + base.to_bytes(8, 'little') + every.to_bytes(CHUNK // 8 * digits, 'little')


def file_of(type_name, numbers):
    """The blocks of a file of these numbers; the last one is filled up with its last number."""
    listed = [header(type_name, len(numbers))]
    for start in range(0, len(numbers), CHUNK):
        part = numbers[start:start + CHUNK]
        listed.append(spell(part + [part[-1]] * (CHUNK - len(part))))
    return listed
