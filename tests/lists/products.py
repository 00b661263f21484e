#!/usr/bin/env python3
"""Writes crates/replay_products/data/products.txt: answers for rows of A and the six products.

A line is COMMAND SET KIND SEED DIGEST, where SEED (16 bytes) is seedA and gives the matrices:
    row_q, as_q, sa_q, sb, bs, add, sub     the oracle's answer, each word mod q (where q is 2^15 the crate keeps bit 15 inside)
    row_w, as_w, sa_w                       words mod 2^16 (rows mod q), computed here from hashlib's SHAKE128 and whole numbers
Matrix number t of a line is, by KIND: r, the words of SHAKE128 over t and SEED; f, all 0xffff; z, all zero.
The digest is 16 bytes of SHAKE256 over the little-endian words. Rows are those numbered 0, 1, 255, 256 and n - 1, one after the other."""
import hashlib
from oracle import D, N, Oracle, digest, random, unwords, words, write

oracle = Oracle()
lines = ["# Rows of A and products: frodo-kem-rs 0.9.1's answers mod q, and an independent computation's mod 2^16 (tests/lists/products.py)."]


def matrix(kind, seed, t, size):
    if kind == "f":
        return [0xFFFF] * size
    if kind == "z":
        return [0] * size
    return unwords(hashlib.shake_128(bytes([t]) + seed).digest(2 * size))


def row(s, seed, i):
    return [w % 2 ** D[s] for w in unwords(hashlib.shake_128(i.to_bytes(2, "little") + seed).digest(2 * N[s]))]


def asked(s, *fields):
    return [w % 2 ** D[s] for w in unwords(bytes.fromhex(oracle.ask(*fields)[0]))]


for s in (1, 2, 3):
    n = N[s]
    for kind, label in (("r", "a"), ("r", "b"), ("f", "c"), ("z", "d")):
        seed = random(f"products {s} {label}", 16)

        def put(command, values):
            lines.append(f"{command} {s} {kind} {seed.hex()} {digest(words(values))}")

        def hexed(t, size):
            return words(matrix(kind, seed, t, size)).hex()

        numbers = (0, 1, 255, 256, n - 1)
        put("row_q", [w for i in numbers for w in asked(s, "row", s, seed.hex(), i)])
        put("row_w", [w for i in numbers for w in row(s, seed, i)])
        put("as_q", asked(s, "mul_as", s, seed.hex(), hexed(1, 8 * n), hexed(2, 8 * n)))
        put("sa_q", asked(s, "mul_sa", s, seed.hex(), hexed(1, 8 * n), hexed(2, 8 * n)))
        put("sb", asked(s, "mul_sb", s, hexed(1, 8 * n), hexed(2, 8 * n), hexed(3, 64)))
        put("bs", asked(s, "mul_bs", s, hexed(1, 8 * n), hexed(2, 8 * n)))
        put("add", asked(s, "add", s, hexed(1, 64), hexed(2, 64)))
        put("sub", asked(s, "sub", s, hexed(1, 64), hexed(2, 64)))
        if label in "ac":
            left, right = matrix(kind, seed, 1, 8 * n), matrix(kind, seed, 2, 8 * n)
            a = [row(s, seed, i) for i in range(n)]
            put("as_w", [(right[i * 8 + j] + sum(x * y for x, y in zip(a[i], left[j * n : j * n + n]))) % 65536 for i in range(n) for j in range(8)])
            columns = list(zip(*a))
            put("sa_w", [(right[i * n + j] + sum(x * y for x, y in zip(left[i * n : i * n + n], columns[j]))) % 65536 for i in range(8) for j in range(n)])
    print(f"set {s} done")

write("replay_products/data/products.txt", lines)
