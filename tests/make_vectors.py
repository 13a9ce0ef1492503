#!/usr/bin/env python3
"""Writes what the program `vectors` must print, by the hashes of Python's standard library.

    tests/make_vectors.py > crates/vectors/stdout
"""

import hashlib

HASHES = {"sha256": hashlib.sha256, "blake2s": hashlib.blake2s}

PUBLISHED = [
    b"",
    b"abc",
    b"abcdbcdecdefdefgefghfghighijhijkijkljklmklmnlmnomnopnopq",
    b"abcdefghbcdefghicdefghijdefghijkefghijklfghijklmghijklmn"
    b"hijklmnoijklmnopjklmnopqklmnopqrlmnopqrsmnopqrstnopqrstu",
]

LONGEST = 65535


def counting(size):
    return bytes(i % 251 for i in range(size))


def answer(name, message):
    if len(message) > LONGEST:
        return "refused 20"
    return HASHES[name](message).hexdigest()


def whole(messages):
    for name in HASHES:
        for message in messages:
            print(name, len(message), answer(name, message))


def in_parts():
    for name in HASHES:
        for cut in range(200):
            print(name, f"{cut}+{200 - cut}", answer(name, counting(200)))
        for more in (b"", b"a"):
            print(name, f"{LONGEST}+{len(more)}", answer(name, counting(LONGEST) + more))


whole(PUBLISHED)
whole([counting(size) for size in range(301)])
whole([counting(size) for size in (1000, LONGEST, LONGEST + 1)])
in_parts()
