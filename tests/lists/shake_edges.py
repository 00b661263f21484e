#!/usr/bin/env python3
"""Writes crates/replay_shake/data/edges.txt: SHAKE answers around each block's edge, made by Python's hashlib.

One a line: 128 or 256, the input, 2688 bytes of output; '-' is empty. The input of n bytes is 0, 7, 14, .. mod 251, so that no two
places of a block hold the same byte by chance. SHAKE's shorter outputs are fronts of longer ones, so one long output a line serves
every output length."""
import hashlib
import pathlib

LENGTHS = [0, 1, 135, 136, 137, 167, 168, 169, 271, 272, 273, 335, 336, 337, 2688]
TO = pathlib.Path(__file__).resolve().parents[2] / "crates/replay_shake/data/edges.txt"

lines = ["# SHAKE around each block's edge, by Python's hashlib (tests/lists/shake_edges.py): 128 or 256, input, 2688 bytes of output. '-' is empty."]
for name, function in (("128", hashlib.shake_128), ("256", hashlib.shake_256)):
    for n in LENGTHS:
        data = bytes(7 * k % 251 for k in range(n))
        lines.append(f"{name} {data.hex() or '-'} {function(data).hexdigest(2688)}")
TO.write_text("\n".join(lines) + "\n")
print(f"{TO.name}: {len(lines) - 1} lines")
