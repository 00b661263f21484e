#!/usr/bin/env python3
"""Writes crates/replay_parts/data/parts.txt: the oracle's answers for sampling, message coding and packing, and margins of noise.

    sample SET DIGEST           all 65,536 words, each sampled
    decode SET DIGEST           all 65,536 words, 64 at a time, each decoded
    pack SET WORDS BYTES        eight words
    unpack SET BYTES WORDS      the bytes of eight words
    encode SET MSG DIGEST       a message's 64 words
    one_sample SET WORD WORD, one_decode SET WORD GROUP      the numbers of docs/RULES.md, 5, checked here against it
    margin SET NOISE SIZE,KEPT  64 words of noise: their largest size, two bytes, the higher first, and whether they are kept, a byte

A digest is 16 bytes of SHAKE256. The crate has no margin: a size is computed here, and noise is kept where the oracle decodes each of four messages from that message's words with the noise
added. Of noise around an end of the range that is held against docs/RULES.md, 4.11.4."""
from oracle import B, D, Oracle, SECRET, digest, random, text, unwords, words, write

# docs/RULES.md, 5: marked and unmarked
DECODE = {1: {4095: 0, 4096: 1, 28671: 3, 28672: 0}, 2: {61439: 7, 61440: 0}, 3: {2047: 0, 2048: 1, 63487: 15, 63488: 0}}
SAMPLE = {1: {9286: 0, 9288: 1, 9289: 65535, 1: 0, 65532: 11, 65535: 65524}, 2: {65535: 65526}, 3: {65535: 65530}}
PACK = {1: {(1, 0, 0, 0, 0, 0, 0, 0): "0002" + "00" * 13, (0, 0, 0, 0, 0, 0, 0, 1): "00" * 14 + "01", (0x7FFF,) * 8: "ff" * 15, (0x8000,) + (0,) * 7: "00" * 15},
        2: {(0x1234,) + (0,) * 7: "1234" + "00" * 14}, 3: {}}
ENCODE = {1: {"1b00": [24576, 16384, 8192, 0, 0, 0, 0, 0]}, 2: {"88c6fa": [0, 8192, 16384, 24576, 32768, 40960, 49152, 57344]}, 3: {"21": [4096, 8192]}}

# the worst entry of the noise: its size, and whether it is kept
MARGIN = {1: {-4096: (4096, True), 4096: (4096, False), -4097: (4097, False), 4095: (4095, True)}, 2: {-4096: (4096, True), 4096: (4096, False), -4097: (4097, False), 4095: (4095, True)},
          3: {-2048: (2048, True), 2048: (2048, False), -2049: (2049, False), 2047: (2047, True)}}

oracle = Oracle()
lines = ["# frodo-kem-rs 0.9.1's answers for sampling, message coding and packing, and margins of noise (tests/lists/parts.py)."]


def same(what, found, said):
    if found != said:
        raise SystemExit(f"{what}: the oracle says {found}, the rules {said}")


def group(s, word):
    """The group that a word is decoded to: the lowest of a message whose first word it is."""
    (message,) = oracle.ask("decode", s, words([word] + [0] * 63).hex())
    return bytes.fromhex(message)[0] % 2 ** B[s]


def kept(s, entries):
    """Whether the oracle decodes each of four messages from its words with this noise added: all or none."""
    messages = [bytes(SECRET[s]), bytes([255]) * SECRET[s], random(f"margin {s} a", SECRET[s]), random(f"margin {s} b", SECRET[s])]
    noise = words(e % 2 ** D[s] for e in entries).hex()
    back = {oracle.ask("decode", s, oracle.ask("add", s, noise, oracle.ask("encode", s, m.hex())[0])[0])[0] == m.hex() for m in messages}
    (answer,) = back
    return answer


def around(s):
    """Noise, 64 entries each: with a worst entry around an end of the range, alone at some place and among others; with two such entries; all alike; and random."""
    q, h = 2 ** D[s], 2 ** (D[s] - B[s] - 1)
    drawn = [[w % h - h // 2 for w in unwords(random(f"margin {s} {k}", 128))] for k in range(10)]
    for k, worst in enumerate([*MARGIN[s], 1, -1, -q // 2, q // 2 - 1]):
        for place in (0, 63, 7 * k + 3):
            yield [worst if t == place else 0 for t in range(64)]
        yield [worst if t == 5 * k else e for t, e in enumerate(drawn[k])]
    for one, other in ((-h, h - 1), (h - 1, -h), (-h, h), (h, -h), (-h, -h - 1), (-h - 1, -h)):
        yield [one if t == 8 else other if t == 55 else e for t, e in enumerate(drawn[9])]
    for alike in (*MARGIN[s], 0):
        yield [alike] * 64
    yield from drawn


for s in (1, 2, 3):
    every = list(range(65536))
    (sampled,) = oracle.ask("sample", s, words(every).hex())
    lines.append(f"sample {s} {digest(bytes.fromhex(sampled))}")
    decoded = b"".join(bytes.fromhex(oracle.ask("decode", s, words(every[i : i + 64]).hex())[0]) for i in range(0, 65536, 64))
    lines.append(f"decode {s} {digest(decoded)}")
    for word, is_ in SAMPLE[s].items():
        same(f"set {s} sample {word}", unwords(bytes.fromhex(sampled))[word], is_)
        lines.append(f"one_sample {s} {words([word]).hex()} {words([is_]).hex()}")
    for word, is_ in DECODE[s].items():
        same(f"set {s} decode {word}", group(s, word), is_)
        lines.append(f"one_decode {s} {words([word]).hex()} {is_:02x}")

    # eight words: those of docs/RULES.md, 5, all alike, one bit alone, random
    eights = list(PACK[s]) + [(v,) * 8 for v in (0, 1, 0x7FFF, 0x8000, 0xFFFF)]
    eights += [tuple(1 << bit if k == place else 0 for k in range(8)) for place in range(8) for bit in range(16)]
    eights += [tuple(unwords(random(f"pack {s} {k}", 16))) for k in range(100)]
    for eight in eights:
        (packed,) = oracle.ask("pack", s, words(eight).hex())
        if eight in PACK[s]:
            same(f"set {s} pack {eight}", packed, PACK[s][eight])
        lines.append(f"pack {s} {words(eight).hex()} {packed}")
    size = D[s]
    streams = [bytes(size), bytes([255]) * size] + [bytes(1 << bit if k == place else 0 for k in range(size)) for place in range(size) for bit in range(8)]
    streams += [random(f"unpack {s} {k}", size) for k in range(100)]
    for stream in streams:
        lines.append(f"unpack {s} {stream.hex()} {oracle.ask('unpack', s, stream.hex())[0]}")

    # messages: those of docs/RULES.md, 5, all alike, one bit alone, random
    n = SECRET[s]
    messages = [bytes.fromhex(front) + bytes(n - len(front) // 2) for front in ENCODE[s]] + [bytes(n), bytes([255]) * n]
    messages += [bytes(1 << bit if k == place else 0 for k in range(n)) for place in range(n) for bit in range(8)]
    messages += [random(f"encode {s} {k}", n) for k in range(100)]
    for message in messages:
        encoded = bytes.fromhex(oracle.ask("encode", s, message.hex())[0])
        for front, is_ in ENCODE[s].items():
            if message == bytes.fromhex(front) + bytes(n - len(front) // 2):
                same(f"set {s} encode {front}", unwords(encoded)[: len(is_)], is_)
        lines.append(f"encode {s} {message.hex()} {digest(encoded)}")

    h = 2 ** (D[s] - B[s] - 1)
    for entries in around(s):
        size, answer = max(abs(e) for e in entries), kept(s, entries)
        same(f"set {s} noise {entries}", answer, all(-h <= e < h for e in entries))
        worst = [e for e in entries if abs(e) == size]
        if len(worst) == 1 and worst[0] in MARGIN[s]:
            same(f"set {s} worst entry {worst[0]}", (size, answer), MARGIN[s][worst[0]])
        lines.append(f"margin {s} {words(e % 2 ** D[s] for e in entries).hex()} {size.to_bytes(2, 'big').hex()}{answer:02x}")

write("replay_parts/data/parts.txt", lines)
