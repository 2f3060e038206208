#!/usr/bin/env python3
"""Compares what gcm_vectors seals with AES-256-GCM of Python's `cryptography`.

Build the program first (`rt run` in crates/gcm_vectors), then run this with no arguments.
"""

import hashlib
import pathlib
import subprocess
import sys

PROGRAM = pathlib.Path(__file__).resolve().parent.parent / "crates/gcm_vectors/out/gcm_vectors"
TEXT_LENGTHS = (0, 1, 15, 16, 17, 4096, 65536)
AAD_LENGTHS = (0, 1, 16, 20)


def some_bytes(name, length):
    """As many bytes as are asked for, which the name determines."""
    return hashlib.shake_256(name.encode()).digest(length)


def main():
    try:
        from cryptography.hazmat.primitives.ciphers.aead import AESGCM
    except ImportError:
        print("skipped: Python has no module `cryptography`")
        return 0
    if not PROGRAM.exists():
        print(f"{PROGRAM} is missing: run `rt run` in crates/gcm_vectors first")
        return 1

    lines, wanted = [], []
    for text_length in TEXT_LENGTHS:
        for aad_length in AAD_LENGTHS:
            name = f"{text_length}/{aad_length}"
            key, iv = some_bytes("key " + name, 32), some_bytes("iv " + name, 12)
            aad, text = some_bytes("aad " + name, aad_length), some_bytes("text " + name, text_length)
            sealed = AESGCM(key).encrypt(iv, text, aad)
            lines.append(",".join(part.hex() for part in (key, iv, aad, text)))
            wanted.append(f"{sealed[:text_length].hex()},{sealed[text_length:].hex()}")

    run = subprocess.run([PROGRAM], input="\n".join(lines) + "\n", capture_output=True, text=True, check=True)
    found = run.stdout.splitlines()
    differing = [line[:100] for line, want, got in zip(lines, wanted, found) if want != got]
    if len(found) != len(wanted) or differing:
        print(f"FAILED: {len(found)} of {len(wanted)} lines, {len(differing)} of them differ: {differing}")
        return 1
    print(f"{len(wanted)} texts agree")
    return 0


if __name__ == "__main__":
    sys.exit(main())
