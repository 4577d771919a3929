"""Spells documents, and spoils them: a member or an item that isn't as it was, or a text that isn't.

What a spoiled document means is for the evaluator to say; some still mean what they did.
"""
import copy
import json

POOL = (None, True, False, 0, 1, 2, 3, 7, 8, 255, 256, 1023, 1024, -1, -128, 2 ** 31, 2 ** 32 - 1,
        2 ** 32, 2 ** 63 - 1, 2 ** 63, 2 ** 64 - 1, 2 ** 64, -2 ** 63, -2 ** 63 - 1, 16_777_217,
        '', '0', '1', '01', '00', 'ff', 'FFff', 'f', 'gg', '0011223344', 'u8', 'u64', 'i8', 'i64', 'f32',
        'f64', 'bool', 'null', 'utf8', 'binary', 'decimal', 'list', 'Null', 'Bool', 'Primitive', 'Decimal',
        'VarBin', 'VarBinView', 'List', 'ListView', 'FixedSizeList', 'Map', 'Struct', 'Union', 'Extension',
        'Constant', 'Dict', 'Filter', 'NonNullable', 'AllValid', 'AllInvalid', 'vortex')
NAMES = ('column', 'chunks', 'file', 'steps', 'policy', 'layout', 'type', 'values', 'ramp', 'validity',
         'len', 'offset', 'offsets', 'offset_type', 'bytes', 'views', 'buffers', 'sizes', 'size',
         'elements', 'entries', 'names', 'fields', 'type_ids', 'variants', 'children', 'id', 'name',
         'storage', 'value', 'nullable', 'codes', 'child', 'mask', 'bits', 'set', 'runs', 'every',
         'slice', 'filter', 'filter_by', 'take', 'pieces', 'starts', 'lengths', 'multipliers', 'inline',
         'prefix', 'buffer', 'precision', 'scale', 'width', 'sparse_w1', 'other', '')
NUMERALS = ('-0', '1.0', '0.0', '1e0', '0.5', '-1.5e-3', '01', '+1', '1e999', '1.', '.5', '1e', '-', '0x1',
            '18446744073709551616', '1' + '0' * 400, 'NaN', 'Infinity', 'nul', 'True')
MARKS = (b'{', b'}', b'[', b']', b'"', b',', b':', b'0', b'1', b'9', b'-', b'.', b'e', b' ', b'\n', b'\\',
         b'u', b'\x00', b'\x1f', b'\x7f', b'\xff', b'\xc3\xa9', b'\\u00e9', b'\\ud800', b'\\udc00\\ud800',
         b'\\ud83d\\ude00', b'\\n', b'\\/', b'null', b'/**/')


class Raw(str):
    """A text that stands for itself among the spelled values."""


class Members(list):
    """The members of an object, as pairs: a name may stand twice."""


def opened(value):
    """The value with its objects as lists of pairs."""
    if isinstance(value, dict):
        return Members([name, opened(member)] for name, member in value.items())
    return [opened(item) for item in value] if isinstance(value, list) else value


def places(value):
    """Each list of items or of members with the number of one of them, and the value there."""
    if isinstance(value, list):
        for i, item in enumerate(value):
            inner = item[1] if isinstance(value, Members) else item
            yield value, i, inner
            yield from places(inner)


class Spoiler:
    """Spoils and spells by the choices of a random source."""

    def __init__(self, random):
        self.random = random
        self.choice = random.choice

    def chance(self, likely):
        return self.random.random() < likely

    def any_value(self, tree):
        """A value of the pool, a list or an object of some, or a part of the document."""
        form = self.random.randrange(10)
        if form < 5:
            return self.choice(POOL)
        if form == 5:
            return Raw(self.choice(NUMERALS))
        if form == 6:
            return [self.choice(POOL) for _ in range(self.random.randrange(4))]
        if form == 7:
            return Members([self.choice(NAMES), self.choice(POOL)] for _ in range(self.random.randrange(3)))
        if form == 8 and self.chance(0.1):
            depth = 115 + self.random.randrange(20)
            return Raw('[' * depth + ']' * depth)
        return copy.deepcopy(self.choice([inner for _, _, inner in places(tree)]))

    def spoil_tree(self, tree):
        """Changes one place of a document."""
        inside, i, inner = self.choice(list(places(tree)))
        value = self.near(inner) if self.chance(0.5) else self.any_value(tree)
        if isinstance(inside, Members):
            self.spoil_member(inside, i, value)
        else:
            self.spoil_item(inside, i, value)

    def near(self, value):
        """A value that differs little."""
        if isinstance(value, bool) or value is None:
            return self.choice((not value, None, 0))
        if isinstance(value, int):
            return value + self.choice((-1, 1, -2, 2, 8, 256, -256))
        if isinstance(value, str):
            i = self.random.randrange(len(value) + 1)
            put = self.choice(('', '0', '1', 'a', 'é', ' '))
            return value[:i] + put + value[i + self.random.randrange(2):]
        if isinstance(value, list) and not isinstance(value, Members) and value:
            i = self.random.randrange(len(value))
            return self.choice((value[:i] + value[i + 1:], value[:i] + [value[i]] + value[i:],
                                value[::-1], value[:i], value + [None]))
        return self.choice(POOL)

    def spoil_member(self, inside, i, value):
        form = self.random.randrange(9)
        if form < 4:
            inside[i] = [inside[i][0], value]
        elif form == 4:
            del inside[i]
        elif form == 5:
            inside[i] = [self.choice(NAMES), inside[i][1]]
        elif form == 6:
            inside.append([self.choice(NAMES), value])
        elif form == 7:
            inside.insert(0, [inside[i][0], value])
        else:
            inside.append([inside[i][0], value])

    def spoil_item(self, inside, i, value):
        form = self.random.randrange(6)
        if form < 3:
            inside[i] = value
        elif form == 3:
            del inside[i]
        else:
            inside.insert(i, value if form == 4 else inside[i])

    def spoil_text(self, data):
        """Changes one place of a text of bytes."""
        i = self.random.randrange(len(data) + 1)
        form = self.random.randrange(7)
        if form < 2:
            return data[:i]
        if form == 2:
            return data[:i] + data[i + 1:]
        if form == 3:
            return data[:i] + self.choice(MARKS) + data[i + 1:]
        if form == 4:
            return data[:i] + self.choice(MARKS) + data[i:]
        if form == 5:
            return self.choice((b'\xef\xbb\xbf', b' ', b'\t\r\n', b'\x0c', b'x', b'[')) + data
        return data + self.choice((b' ', b'\n', b'x', b',', b'}', b'null', b'\x00', b' {}'))

    # Spelling.

    def shuffled(self, value):
        """The value with the members of each object in another order."""
        if isinstance(value, Members):
            mixed = [[name, self.shuffled(member)] for name, member in value]
            self.random.shuffle(mixed)
            return Members(mixed)
        return [self.shuffled(item) for item in value] if isinstance(value, list) else value

    def spell(self, value, plain):
        """The JSON text of a value; where it isn't plain, with blanks and escapes."""
        blank = '' if plain else self.choice(('', '', ' ', '\n', '\t\r'))
        if isinstance(value, Raw):
            return value
        if isinstance(value, Members):
            parts = [f'{self.spell(name, plain)}{blank}:{blank}{self.spell(member, plain)}'
                     for name, member in value]
            return f'{{{blank}{f"{blank},".join(parts)}{blank}}}'
        if isinstance(value, list):
            parts = [self.spell(item, plain) for item in value]
            return f'[{blank}{f"{blank},".join(parts)}{blank}]'
        if isinstance(value, str) and not plain:
            return f'"{"".join(self.escaped(character) for character in value)}"'
        return json.dumps(value, ensure_ascii=False)

    def escaped(self, character):
        """A character as it is where it may stand so, or escaped."""
        usual = json.dumps(character, ensure_ascii=False)[1:-1]
        if self.chance(0.9):
            return usual
        return ''.join(f'\\u{unit:04x}' for unit in units(character))


def units(character):
    """The units of 16 bits of a character."""
    data = character.encode('utf-16-be', 'surrogatepass')
    return [int.from_bytes(data[i:i + 2], 'big') for i in range(0, len(data), 2)]


def spelled(random, document, is_spoiled):
    """The bytes of a document, spoiled where that is wanted."""
    spoiler = Spoiler(random)
    tree = opened(document)
    by_text = is_spoiled and spoiler.chance(0.25)
    if spoiler.chance(0.3):
        tree = spoiler.shuffled(tree)
    if is_spoiled and not by_text:
        for _ in range(spoiler.choice((1, 1, 1, 2))):
            if tree:
                spoiler.spoil_tree(tree)
    data = spoiler.spell(tree, plain=not spoiler.chance(0.15)).encode('utf-8', 'surrogatepass')
    return spoiler.spoil_text(data) if by_text else data


def damage(random, listed):
    """Damages one block of a file, or the list of blocks."""
    i = random.randrange(len(listed))
    block = bytearray(listed[i])
    at = random.randrange(len(block))
    form = random.randrange(9)
    if form == 0:
        block[at] = random.randrange(256)
    elif form == 1:
        block[random.randrange(min(17, len(block)))] ^= 1 << random.randrange(8)
    elif form == 2:
        block[0] = random.choice((block[0] + 1, block[0] - 1, 8, 16, 33, 64, 65, 255)) % 256
    elif form == 3:
        del block[random.choice((at, 8, 9)):]
    elif form == 4:
        block += random.randbytes(random.choice((1, 128, 9000)))
    elif form == 5:
        block[1:9] = random.choice((bytes(8), b'\xff' * 8))
    elif form == 6:
        del listed[i]
        return
    elif form == 7:
        block = block[:1] + block[1:9] + bytes(len(block) - 9)
    else:
        listed.insert(i, listed[random.randrange(len(listed))])
        return
    listed[i] = bytes(block)
