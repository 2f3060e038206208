#!/usr/bin/env python3
"""Prints the expected values of src/tests.rt: `python3 crates/launch_digest/tests/measurement.py`.

They come from Python's hashlib alone, field by field after the table of PAGE_INFO (SEV-SNP firmware ABI 56860, 8.17).
"""

import hashlib
import struct

NORMAL, ZERO, UNMEASURED = 1, 3, 4


def page_info(digest, page_type, imi, perms, gpn, start, step):
    """PAGE_INFO of a page whose word i is start + i * step."""
    vmpl1, vmpl2, vmpl3 = perms
    words = [(start + i * step) % 2**64 for i in range(512)]
    page = b"".join(struct.pack("<Q", word) for word in words)
    contents = hashlib.sha384(page).digest() if page_type == NORMAL else bytes(48)
    fields = struct.pack("<HBBBBBBQ", 0x0070, page_type, imi, vmpl3, vmpl2, vmpl1, 0, gpn * 4096)
    return digest + contents + fields


# Two NORMAL pages of zero words, at gpn 0 and 1: each PAGE_INFO, and the digest after each.
TWO_PAGES = [(NORMAL, 0, (0, 0, 0), 0, 0, 0), (NORMAL, 0, (0, 0, 0), 1, 0, 0)]

# The page of each launch of one page: type, IMI flag, permissions of VMPL1 to VMPL3, gpn, first word, step.
SINGLE_PAGES = [
    (NORMAL, 0, (0, 0, 0), 0, 0, 1),
    (NORMAL, 1, (0, 0, 0), 0, 0, 1),
    (NORMAL, 0, (1, 2, 4), 0, 0, 0),
    (NORMAL, 0, (15, 7, 3), 0x12345, 0x0123456789ABCDEF, 7),
    (NORMAL, 1, (0, 0, 15), 2**36 - 1, 2**64 - 1, 0),
    (ZERO, 0, (0, 0, 0), 0, 0, 0),
    (ZERO, 0, (0, 0, 0), 0, 0, 1),
    (ZERO, 1, (8, 4, 2), 0x80000, 0, 0),
    (UNMEASURED, 0, (0, 0, 0), 0, 0, 0),
    (UNMEASURED, 0, (5, 0, 10), 2**36 - 1, 7, 3),
]


def main():
    digest = bytes(48)
    for page in TWO_PAGES:
        info = page_info(digest, *page)
        assert len(info) == 112
        digest = hashlib.sha384(info).digest()
        print("PAGE_INFO", info[:48].hex(), info[48:96].hex(), info[96:].hex())
        print("digest   ", digest.hex())
    for page in SINGLE_PAGES:
        print(page, hashlib.sha384(page_info(bytes(48), *page)).hexdigest())


if __name__ == "__main__":
    main()
