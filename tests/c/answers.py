#!/usr/bin/env python3
"""Prints the output that a program of examples/c or tests/c must have, from Python's libraries, test vectors or plain
arithmetic: `answers.py NAME`."""
import hashlib
import sys
import zlib

LINES = []


def put(name, word):
    LINES.append(f"{name} {word % 2 ** 64}")


def put_bytes(name, data, order):
    for at in range(0, len(data), 8):
        put(name, int.from_bytes(data[at:at + 8], order))


def signed(word, bits):
    word %= 2 ** bits
    return word - 2 ** bits if word >> bits - 1 else word


def toward_zero(a, b):
    result = abs(a) // abs(b)
    return result if (a < 0) == (b < 0) else -result


def aes128():
    # FIPS 197, appendix C.1.
    put_bytes("cipher", bytes.fromhex("69c4e0d86a7b0430d8cdb78070b4c55a"), "big")


def chacha20():
    # RFC 8439, section 2.3.2: the serialized block.
    put_bytes("stream", bytes.fromhex(
        "10f1e7e4d13b5915500fdd1fa32071c4c7d1f4c733c068030422aa9ac3d46c4e"
        "d2826446079faa0914c2d705d98b02a2b5129cd1de164eb9cbd083e8a2503c4e"), "little")


def sha256():
    put_bytes("digest", hashlib.sha256(b"abc").digest(), "big")


def sha3():
    put_bytes("digest", hashlib.sha3_256(b"abc").digest(), "little")


def crc32():
    for length in range(1, 10):
        put("crc", zlib.crc32(b"123456789"[:length]))


def xtea():
    # A published vector: key 000102..0f, plain text 4142434445464748.
    put("block", 0x497df3d072612cb5)
    put("block", 0x4142434445464748)


def product(a, b):
    return signed(a * b >> 16, 32)


def within(x, most):
    return min(max(x, -most), most)


def pid():
    place = speed = total = last = 0
    for _ in range(40):
        error = (10 << 16) - place
        total = within(total + error, 50 << 16)
        force = within(product(0x18000, error) + product(0x2000, total) + product(0x8000, error - last), 8 << 16)
        last = error
        speed += product(force - product(speed, 0xC000), 0x4000)
        place += speed >> 2
        put("actuator", force)
        put("position", place)


def kalman():
    state, variance = 0, 1 << 20
    for seen in (1049000, 1100000, 990000, 1060000, 1020000, 1048576,
                 1200000, 900000, 1048000, 1049999, 1030000, 1070000):
        variance += 1 << 10
        share = toward_zero(variance << 20, variance + (1 << 17))
        state += share * (seen - state) >> 20
        variance = ((1 << 20) - share) * variance >> 20
        put("gain", share)
        put("estimate", state)


def matrix():
    left = [[1, -2, 3, 4], [5, 6, -7, 8], [9, 10, 11, -12], [-13, 14, 15, 16]]
    right = [[2, 0, 1, -1], [3, 5, 7, 9], [-2, 4, -6, 8], [1, 1, 2, 3]]
    for row in left:
        for column in zip(*right):
            put("element", sum(a * b for a, b in zip(row, column)))


def vote():
    sensors = [1, 2, 3, 4, 5, 6, 7, 8], [1, 2, 9, 4, 5, 6, 7, 8], [1, 7, 3, 4, 5, 0, 7, 0]
    for words in zip(*sensors):
        put("voted", max(set(words), key=words.count))
    put("disagree", sum(1 << i for i, words in enumerate(zip(*sensors)) if len(set(words)) > 1))


def sorts():
    for name, words in (("inserted", [5, -3, 99, 0, 12, 7, -40, 8, 8, 1, 1000, -1, 3, 2, 77, 6]),
                        ("exchanged", [9, -8, 7, -6, 5, -4, 3, -2, 1, 0]),
                        ("heaped", [31, 41, 59, 26, 53, 58, 97, 93, 23, 84, 62, -64])):
        for word in sorted(words):
            put(name, word)


def search():
    squares = [i * i for i in range(1, 33)]
    for number in (*range(0, 1100, 49), 1024):
        put("place", squares.index(number) if number in squares else -1)


def ring():
    samples, seed = [0] * 8, 7
    for cycle in range(20):
        seed = (seed * 1103515245 + 12345) % 2 ** 32
        samples[cycle % 8] = seed >> 18
        put("mean", sum(samples) // 8)
        put("peak", max(samples))


def strings():
    words = [b"fault", b"faults", b"", b"tolerant", b"tolerance", b"fault"]
    for word in words:
        put("length", len(word))
    for one, other in zip(words, words[1:] + words[:1]):
        put("order", (one > other) - (one < other))
    put("number", 18446744073709551615)


def divide():
    numbers, parts = [2 ** 64 - 1, 12345000086415, 5, 2 ** 63], [-3, 12345, 1 << 20, 2 ** 63 - 1]
    for a, b in zip(numbers, parts):
        for bits in (64, 32):
            put("quotient", a % 2 ** bits // (b % 2 ** bits))
            put("rest", a % 2 ** bits % (b % 2 ** bits))
            if bits == 64:
                first = signed(a, 64)
                put("quotient", toward_zero(first, b))
                put("rest", first - toward_zero(first, b) * b)
        half, second, first = a % 2 ** 32 >> 1, signed(b, 32), signed(a, 32)
        put("quotient", toward_zero(half, second))
        put("rest", first - toward_zero(first, 10) * 10)
    for i in range(1, 8):
        a, b = i * 360, 84 * (9 - i)
        put("divisor", max(d for d in range(1, b + 1) if a % d == 0 and b % d == 0))


def fsm():
    # By hand, letter by letter: 0 blank, 1 name, 2 number, 3 point, 4 slash, 5 comment, 6 sign.
    states = "1111" "0" "11" "3" "2" "6" "1" "45" "5555555" "0" "222"
    for state in states:
        put("state", int(state))
    put("words", 3)
    put("signs", 1)


def bits():
    full = 2 ** 64
    for i, word in enumerate((0, 1, 2 ** 63, 0x0123456789ABCDEF, 0xFFFFFFFF00000000)):
        low = word % 2 ** 32
        text = f"{word:064b}"
        put("counts", text.count("1") + 100 * text[32:].count("1"))
        if word:
            put("counts", text.index("1") + 100 * text[::-1].index("1"))
        put("turned", int(text[i * 13:] + text[:i * 13], 2))
        put("turned", int(text[32:][i * 7:] + text[32:][:i * 7], 2))
        put("turned", signed(word, 64) >> i * 11)
        a, b, c, d = word % 256, (word >> 3) % 2 ** 32, (word >> 5) % 2 ** 16, word * 3 % full
        put("packed", a + b + c + d)
        data = bytes([a]) + b.to_bytes(4, "little") + c.to_bytes(2, "little") + d.to_bytes(8, "little")
        put("packed", data[i * 3] * 256 + data[14 - i])


def control():
    """Ten cycles: the number, the position of the body, and the force."""
    place = speed = total = last = 0
    for cycle in range(1, 11):
        error = 655360 - place
        total = within(total + error, 50 << 16)
        force = within((0x18000 * error >> 16) + (0x2000 * total >> 16) + (0x8000 * (error - last) >> 16), 8 << 16)
        last = error
        LINES.append(f"{cycle} {place} {force}")
        speed += (force - (speed * 49152 >> 16)) * 16384 >> 16
        place += speed >> 2


def results():
    words = []
    for x in range(1, 35):
        x = (x ^ x >> 3) * 5
        words.append((x ^ x << 7) + x)
    for word in words:
        put("now", word + 1)
    for word in words:
        put("later", word)


if __name__ == "__main__":
    {function.__name__: function for function in (
        aes128, bits, chacha20, control, crc32, divide, fsm, kalman, matrix, pid, results, ring, search, sha256, sha3,
        sorts, strings, vote, xtea)}[sys.argv[1]]()
    print("\n".join(LINES))
