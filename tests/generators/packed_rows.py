"""What `rows_of_bytes` must print of `vx_packed`, worked out from the definition of a spelling alone."""

M = 2 ** 64


def spell(numbers):
    base = min(numbers)
    w = (max(numbers) - base).bit_length()
    bits = sum((n - base) << (j * w) for j, n in enumerate(numbers))
    return bytes([w]) + base.to_bytes(8, "little") + bits.to_bytes(128 * w, "little")


def pack(numbers):
    return b"".join(spell(numbers[k:k + 1024]) for k in range(0, len(numbers), 1024))


def read(b, width):
    if len(b) < 9 or (b[0] <= 8 * width and len(b) < 9 + 128 * b[0]):
        return "Short"
    w, base = b[0], int.from_bytes(b[1:9], "little")
    if w > 8 * width:
        return "Width"
    if len(b) > 9 + 128 * w:
        return "Long"
    bits = int.from_bytes(b[9:], "little")
    offsets = [(bits >> (j * w)) % (1 << w) for j in range(1024)]
    if 0 not in offsets:
        return "Base"
    if max(offsets).bit_length() != w:
        return "Slack"
    if base + max(offsets) >= 1 << (8 * width):
        return "TooBig"
    return [base + o for o in offsets]


def total(items):
    return sum((i + 1) * n for i, n in enumerate(items)) % M


def told(b, width):
    got = read(b, width)
    if isinstance(got, str):
        return f", {got}, sum {total([5] * 1024)}"
    return f", numbers {got[0]} to {got[-1]}, sum {total(got)}"


def remainders(base, modulus, n):
    return [(base + j % modulus) % M for j in range(n)]


def spread(base, digits):
    top = lambda x: x >> (64 - digits) if digits else 0
    return [base + top(j * 0x9E3779B97F4A7C15 % M) for j in range(1023)] + [base + top(M - 1)]


def spelling(name, numbers, width):
    b = pack(numbers)
    head = "".join(f" {x:02x}" for x in b[:9])
    print(f"{name}: {len(b)} bytes{head}, sum {total(b)}{told(b, width)}")


def made(name, digits, base, fill, count, width):
    print(name + told(bytes([digits, base] + [0] * 7 + [fill] * count), width))


def decoder(name, b, chunk, width):
    numbers, k, rest = [], 0, b
    while rest:
        n = 9 + 128 * rest[0]
        got = read(rest[:n], width)
        if isinstance(got, str):
            print(f"{name}: chunk {k} is {got}")
            return
        numbers, k, rest = numbers + got, k + 1, rest[n:]
    line = f"{name}: {len(numbers)} numbers, empty {str(not numbers).lower()}"
    if len(numbers) >= 1024 * (chunk + 1):
        at = 1024 * chunk
        of = lambda p: " " + numbers[at + p].to_bytes(width, "little").hex()
        records = b"".join(n.to_bytes(width, "little") for n in numbers[at : at + 1024])
        line += "".join(map(of, (0, 1, 77, 1023))) + f", sum {total(records)}, alone" + "".join(map(of, (1, 77, 1023)))
    print(line)


spelling("100 and up", remainders(100, 4, 1024), 1)
print(f"e4 among its bytes from the tenth on: {pack(remainders(100, 4, 1024))[9:].count(0xe4)}")
spelling("sevens", remainders(7, 1, 1024), 1)
spelling("none", [], 8)
spelling("three chunks", remainders(40, 1500, 3072), 2)
for base, digits, width in [(9, 0, 1), (254, 1, 1), (5, 7, 1), (0, 8, 1), (5, 13, 2), (5, 31, 4),
                            (0, 32, 4), (5, 63, 8), (0, 64, 8)]:
    spelling(f"{digits} digits, spread", spread(base, digits), width)
made("nine bytes", 8, 0, 0, 0, 1)
made("a byte too few", 1, 0, 255, 127, 1)
print("eight bytes" + told(bytes([65] + [0] * 7), 1))
print("no bytes" + told(b"", 8))
made("65 digits", 65, 0, 0, 0, 1)
made("9 digits and too long", 9, 0, 0, 2000, 1)
made("9 digits, two bytes", 9, 0, 0, 1152, 2)
made("17 digits, two bytes", 17, 0, 0, 2176, 2)
made("33 digits, four bytes", 33, 0, 0, 4224, 4)
made("ten bytes", 0, 0, 0, 1, 1)
made("129 bytes of ones", 1, 0, 255, 129, 1)
made("ones", 1, 0, 255, 128, 1)
made("ones of two digits", 2, 0, 0x55, 256, 1)
made("zeros", 1, 0, 0, 128, 1)
made("a base of 255 and slack", 2, 255, 0x44, 256, 1)
made("a base of 255", 1, 255, 0xAA, 128, 1)
made("a base of 254", 1, 254, 0xAA, 128, 1)
made("a base of 255, two bytes", 1, 255, 0xAA, 128, 2)
big = pack(remainders(200, 100, 1024))
print("200 to 299" + told(big, 1))
print("200 to 299, two bytes" + told(big, 2))
two = pack(remainders(100, 4, 1024) + remainders(7, 1, 1024))
decoder("two chunks", two, 1, 1)
decoder("without the last byte", two[:-1], 1, 1)
decoder("without the last chunk", two[:-9], 0, 1)
decoder("no bytes", b"", 0, 1)
decoder("a byte more", two + b"\0", 1, 1)
wide = pack(remainders(255, 300, 2048))
decoder("two bytes as one", wide, 1, 1)
decoder("two bytes", wide, 1, 2)
decoder("four bytes", pack(remainders(70000, 77, 3072)), 2, 4)
decoder("eight bytes", pack(remainders(0x0102030405060708, 1000, 2048)), 1, 8)
filtered = remainders(1000, 3000, 3072)
kept = "".join(" " + filtered[p].to_bytes(2, "little").hex() for p in (5, 1023, 2048))
print(f"filtered:{kept}, Only(0,2), Only(2,1)")
