#!/usr/bin/env python3
"""Writes crates/lms_vectors/stdin and stdout from the files of vectors/: the program's records, and the expected answer to each.

A record starts with C (check) or K (make a key, then sign). Every operand has its length before it, in two bytes. C: name, key,
message, signature. K: name, seed, identifier, a byte with the number of records to sign, and for each name, leaf, randomizer, message.
"""
import pathlib
import re

root = pathlib.Path(__file__).resolve().parent.parent
stdin, stdout = bytearray(), []


def operand(data):
    stdin.extend(len(data).to_bytes(2, "big") + data)


def data(text):
    return b"" if text == "-" else bytes.fromhex(text)


def records(name):
    """Each record's fields, with the parameters of its making from the comment before it."""
    made = None
    for line in (root / "vectors" / name).read_text().splitlines():
        if line.startswith("#"):
            made = dict(re.findall(r"(\w+)=(\w+)", line))
        elif line.strip():
            yield line.split(), made
            made = None


keys = {}
for file in ("rfc8554-lms-lines.txt", "bc-vectors.txt"):
    for (expect, name, key, message, signature), made in records(file):
        stdin += b"C"
        for part in (name.encode(), data(key), data(message), data(signature)):
            operand(part)
        stdout.append(f"{name} {expect}")
        if made and (made.get("lms"), made.get("ots")) == ("6", "4"):
            keys.setdefault((made["SEED"], made["I"], key), []).append((name, made["q"], made["C"], message, signature))

for (seed, identifier, key), signed in keys.items():
    stdin += b"K"
    operand(b"key")
    operand(data(seed))
    operand(data(identifier))
    stdin.append(len(signed))
    stdout.append(f"key {key}")
    for name, leaf, randomizer, message, signature in signed:
        for part in (name.encode(), int(leaf).to_bytes(4, "big"), data(randomizer), data(message)):
            operand(part)
        stdout.append(f"{name} {signature}")

(root / "crates/lms_vectors/stdin").write_bytes(stdin)
(root / "crates/lms_vectors/stdout").write_text("\n".join(stdout) + "\n")
