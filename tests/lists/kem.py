#!/usr/bin/env python3
"""Writes crates/replay_kem/data/kem.txt: the oracle's answers for whole calls, 20 seeds a set, and the margins of the same seeds.

    SET SEED MSG SALT PK SK CT SS             keys, ciphertext and secret, as in published.txt: three digests and the secret whole
    open SET SEED MSG SALT KIND PLACE BITS SS MSG      what decapsulation gives after damage
    margin SET SEED MSG SALT SIZE KEPT        the largest size of a centred entry of S'E + E'' - E'S, and whether the message comes back

KIND is 0, no damage; 1 or 2, the byte at PLACE of the ciphertext or of the secret key with BITS exclusive-ored in; 3 or 4, every byte of
it replaced by SHAKE128 over SEED. PLACE and SIZE are two bytes, big-endian; KEPT is one, 01 or 00. A digest is 16 bytes of SHAKE256.
The crate has no margin: sizes are computed here from the FrodoKEM standard proposal (2023), with hashlib's SHAKE and whole numbers. Only the public key is the oracle's. KEPT is
what the oracle's decapsulation of the undamaged ciphertext says, and is held against the entries (docs/RULES.md, 4.11.4)."""
import hashlib
from oracle import B, D, N, Oracle, SECRET, SEED_SE, digest, random, unwords, write

# docs/RULES.md, 4.5: the tables of the noise, without the last entry, which is left out.
TABLE = {
    1: [4643, 13363, 20579, 25843, 29227, 31145, 32103, 32525, 32689, 32745, 32762, 32766],
    2: [5638, 15915, 23689, 28571, 31116, 32217, 32613, 32731, 32760, 32766],
    3: [9142, 23462, 30338, 32361, 32725, 32765],
}


def shake(s, data, size):
    return (hashlib.shake_128 if s == 1 else hashlib.shake_256)(data).digest(size)


def sample(s, word):
    size = sum(entry < word // 2 for entry in TABLE[s])
    return -size if word % 2 else size


def noise(s, front, seed_se, count):
    return [sample(s, word) for word in unwords(shake(s, bytes([front]) + seed_se, 2 * count))]


def centred_entries(s, seed, pk, msg, salt):
    """docs/RULES.md, 4.11: S'E + E'' - E'S. S is stored transposed, E row by row; S', E' and E'' row by row."""
    n, q, secret = N[s], 2 ** D[s], SECRET[s]
    drawn = noise(s, 0x5F, seed[secret : secret + SEED_SE[s]], 16 * n)
    columns_s = [drawn[j * n : j * n + n] for j in range(8)]
    columns_e = [drawn[8 * n + j :: 8] for j in range(8)]
    pkh = shake(s, pk, secret)
    drawn = noise(s, 0x96, shake(s, pkh + msg + salt, SEED_SE[s] + secret)[: SEED_SE[s]], 16 * n + 64)
    rows_s = [drawn[i * n : i * n + n] for i in range(8)]
    rows_e = [drawn[(8 + i) * n : (8 + i) * n + n] for i in range(8)]

    def product(row, column):
        return sum(x * y for x, y in zip(row, column, strict=True))

    entries = [product(rows_s[i], columns_e[j]) + drawn[16 * n + 8 * i + j] - product(rows_e[i], columns_s[j]) for i in range(8) for j in range(8)]
    return [(entry + q // 2) % q - q // 2 for entry in entries]


def margin(s, seed, pk, sk, ct, msg, salt):
    """SIZE and KEPT."""
    entries, h = centred_entries(s, seed, pk, msg, salt), 2 ** (D[s] - B[s] - 1)
    back = oracle.ask("decaps", s, sk.hex(), ct.hex())[1] == msg.hex()
    if back != all(-h <= entry < h for entry in entries):
        raise SystemExit(f"set {s} seed {seed.hex()}: the entries say that the message {'is lost' if back else 'comes back'}, and the oracle has it {'back' if back else 'lost'}")
    return f"{max(abs(entry) for entry in entries).to_bytes(2, 'big').hex()} {back:02x}"


oracle = Oracle()
lines = ["# Whole calls: frodo-kem-rs 0.9.1's answers, honest and after damage, and margins by an independent computation (tests/lists/kem.py)."]

for s in (1, 2, 3):
    n, d, secret = N[s], D[s], SECRET[s]
    c1, c2 = d * n, d * 8
    pk_size, s_at = 16 + d * n, secret + 16 + d * n
    pkh_at = s_at + 16 * n
    for k in range(20):
        seed, msg, salt = (random(f"kem {s} {k} {what}", size) for what, size in (("seed", secret + SEED_SE[s] + 16), ("msg", secret), ("salt", SEED_SE[s])))
        pk, sk, after = (bytes.fromhex(x) for x in oracle.ask("keygen", s, seed.hex()))
        if any(after):
            raise SystemExit(f"set {s} seed {k}: the crate left the seed")
        ct, ss = (bytes.fromhex(x) for x in oracle.ask("encaps", s, pk.hex(), msg.hex(), salt.hex()))
        front = f"{s} {seed.hex()} {msg.hex()} {salt.hex()}"
        lines.append(f"{front} {digest(pk)} {digest(sk)} {digest(ct)} {ss.hex()}")
        lines.append(f"margin {front} {margin(s, seed, pk, sk, ct, msg, salt)}")

        def place(label, start, size):
            return start + int.from_bytes(random(f"{label} {s} {k}", 4), "big") % size

        damage = [(0, 0, 0), (1, place("c1", 0, c1), 1 << k % 8), (1, place("c2", c1, c2), 1 << (k + 3) % 8), (1, place("salt", c1 + c2, len(salt)), 1 << (k + 5) % 8),
                  (2, place("s", 0, secret), 0xFF), (2, place("seedA", secret, 16), 1), (2, place("B", secret + 16, pk_size - 16), 0x40),
                  (2, s_at + 2 * place("S", 0, 8 * n) + 1, 0x80), (2, s_at + 2 * place("low S", 0, 8 * n), 1), (2, place("pkh", pkh_at, secret), 0x10),
                  (3, 0, 0), (4, 0, 0)]
        for kind, at, bits in damage:
            key, sealed = bytearray(sk), bytearray(ct)
            where = at.to_bytes(2, "big")
            if kind in (1, 2):
                (sealed if kind == 1 else key)[at] ^= bits
            elif kind == 3:
                sealed = hashlib.shake_128(seed).digest(len(ct))
            elif kind == 4:
                key = hashlib.shake_128(seed).digest(len(sk))
            got, message = oracle.ask("decaps", s, bytes(key).hex(), bytes(sealed).hex())
            (alone,) = oracle.ask("decaps_ss", s, bytes(key).hex(), bytes(sealed).hex())
            if alone != got:
                raise SystemExit(f"set {s} seed {k} damage {kind}: the crate's two decapsulations part")
            lines.append(f"open {front} {kind} {where.hex()} {bits:02x} {got} {message}")
    print(f"set {s} done")

write("replay_kem/data/kem.txt", lines)
