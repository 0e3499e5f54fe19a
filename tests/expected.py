#!/usr/bin/env python3
"""Write what the programs must print, worked out by other software.

    tests/expected.py            write the file stdout of crates/vectors, crates/startup and crates/piles
    tests/expected.py --check    compare them with what would be written; status 1 where they differ

Digests and codes are Python's (hashlib, hmac), and the lines of the shipped parts are
those of sha1sum. The published values of FIPS 180 and RFC 2202 are held against Python's.
The answers of stores are those of the model in tests/stores.py.
"""
import hashlib
import hmac
import pathlib
import subprocess
import sys

import stores

ROOT = pathlib.Path(__file__).resolve().parent.parent
PARTS = ROOT / "crates/startup/data"

# Title, message and digest of each SHA-1 example of FIPS 180.
FIPS_180 = [
    ('one block, "abc"', b"abc", "a9993e364706816aba3e25717850c26c9cd0d89d"),
    ("two blocks, 448 bits", b"abcdbcdecdefdefgefghfghighijhijkijkljklmklmnlmnomnopnopq",
     "84983e441c3bd26ebaae4aa1f95129e5e54670f1"),
    ('long message, one million "a"', b"a" * 1_000_000, "34aa973cd4c4daa4f61eeb2bdbad27316534016f"),
]

# Key, message and code of each HMAC-SHA-1 case of RFC 2202.
RFC_2202 = [
    (b"\x0b" * 20, b"Hi There", "b617318655057264e28bc0b6fb378c8ef146be00"),
    (b"Jefe", b"what do ya want for nothing?", "effcdf6ae5eb2fa2d27416d5f184df9c259a7c79"),
    (b"\xaa" * 20, b"\xdd" * 50, "125d7342b9ac11cd91a39af48aa17b4f63f175d3"),
    (bytes(range(1, 26)), b"\xcd" * 50, "4c9007f4026250c6bc8414f9bf50c86c2d7235da"),
    (b"\x0c" * 20, b"Test With Truncation", "4c1a03424b55e07fe7f27be1d58bb9324a9a5a04"),
    (b"\xaa" * 80, b"Test Using Larger Than Block-Size Key - Hash Key First",
     "aa4ae5e15272d00e95705637ce8a3b55ed402112"),
    (b"\xaa" * 80, b"Test Using Larger Than Block-Size Key and Larger Than One Block-Size Data",
     "e8e99d0f45237d786d6bbaa7965c7808bbff1a91"),
]


def digest(message):
    return hashlib.sha1(message).hexdigest()


def code(key, message):
    return hmac.new(key, message, hashlib.sha1).hexdigest()


def pattern(n):
    return bytes(i % 251 for i in range(n))


def published(value, computed):
    if value != computed:
        sys.exit(f"published value {value} is not what Python computes, {computed}")
    return value


def vectors():
    for title, message, value in FIPS_180:
        yield f"FIPS 180, {title}: {published(value, digest(message))}"
    for case, (key, message, value) in enumerate(RFC_2202, 1):
        yield f"RFC 2202, case {case}: {published(value, code(key, message))}"
    for n in [*range(0, 201), *range(65526, 65547)]:
        long = pattern(n)
        whole = digest(long)
        yield f"length {n}: {whole} {whole} {code(pattern(20), long)} {code(long, pattern(50))}"


def startup():
    names = (PARTS / "parts.txt").read_text().split("\n")[:-1]
    lines = subprocess.run(["sha1sum", "--", *names], cwd=PARTS, check=True, capture_output=True, text=True).stdout
    yield from lines.splitlines()
    register = bytes(20)
    for name in names:
        register = hashlib.sha1(register + hashlib.sha1((PARTS / name).read_bytes()).digest()).digest()
    yield f"register {register.hex()}"


def main():
    differ = False
    for name, lines in (("vectors", vectors()), ("startup", startup()), ("piles", stores.lines())):
        path = ROOT / "crates" / name / "stdout"
        text = "".join(line + "\n" for line in lines)
        if "--check" not in sys.argv[1:]:
            path.write_text(text)
        elif not path.exists() or path.read_text() != text:
            differ = True
            print(f"{path.relative_to(ROOT)} is not what tests/expected.py writes", file=sys.stderr)
    sys.exit(differ)


main()
