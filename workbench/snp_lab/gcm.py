"""AES-256 in Galois/counter mode of a page's bytes (FIPS 197, SP 800-38D), as docs/MODEL.md, "Sealing", has it."""
from __future__ import annotations

import importlib
from collections.abc import Callable, Sequence
from functools import lru_cache
from typing import Any

WORDS = 512
PAGE_BYTES = 8 * WORDS
REDUCTION = 0xE1 << 120


def sbox_and_rounds() -> tuple[list[int], list[list[int]]]:
    """The S-box, and the tables that take a byte of the state through it and a column's mixing."""
    powers, logs, value = [0] * 256, [0] * 256, 1
    for k in range(255):
        powers[k], logs[value] = value, k
        value ^= (value << 1) ^ (0x11B if value & 0x80 else 0)
        value &= 0xFF
    box = []
    for byte in range(256):
        inverse = 0 if byte == 0 else powers[(255 - logs[byte]) % 255]
        made = 0x63
        for shift in range(5):
            made ^= (inverse << shift | inverse >> (8 - shift)) & 0xFF
        box.append(made)
    twice = [(made << 1) ^ (0x11B if made & 0x80 else 0) for made in box]
    first = [double << 24 | made << 16 | made << 8 | double ^ made for made, double in zip(box, twice)]
    return box, [[(one >> 8 * k | one << (32 - 8 * k)) & 0xFFFFFFFF for one in first] for k in range(4)]


SBOX, MIXED = sbox_and_rounds()


def substituted(word: int) -> int:
    return SBOX[word >> 24] << 24 | SBOX[word >> 16 & 255] << 16 | SBOX[word >> 8 & 255] << 8 | SBOX[word & 255]


def round_keys(key: bytes) -> list[int]:
    """The key schedule of AES-256: 60 words."""
    words = [int.from_bytes(key[4 * k:4 * k + 4], 'big') for k in range(8)]
    constant = 1
    for k in range(8, 60):
        last = words[-1]
        if k % 8 == 0:
            last = substituted((last << 8 | last >> 24) & 0xFFFFFFFF) ^ constant << 24
            constant <<= 1
        elif k % 8 == 4:
            last = substituted(last)
        words.append(words[k - 8] ^ last)
    return words


def encrypted(keys: Sequence[int], block: int) -> int:
    """One block of 128 bits through the cipher."""
    columns = [block >> 96 - 32 * k & 0xFFFFFFFF ^ keys[k] for k in range(4)]
    one, two, three, four = MIXED
    for at in range(4, 56, 4):
        a, b, c, d = columns
        columns = [one[a >> 24] ^ two[b >> 16 & 255] ^ three[c >> 8 & 255] ^ four[d & 255] ^ keys[at],
                   one[b >> 24] ^ two[c >> 16 & 255] ^ three[d >> 8 & 255] ^ four[a & 255] ^ keys[at + 1],
                   one[c >> 24] ^ two[d >> 16 & 255] ^ three[a >> 8 & 255] ^ four[b & 255] ^ keys[at + 2],
                   one[d >> 24] ^ two[a >> 16 & 255] ^ three[b >> 8 & 255] ^ four[c & 255] ^ keys[at + 3]]
    made = 0
    for k in range(4):
        a, b, c, d = (columns[(k + shift) % 4] for shift in range(4))
        made = made << 32 | (SBOX[a >> 24] << 24 | SBOX[b >> 16 & 255] << 16 | SBOX[c >> 8 & 255] << 8 | SBOX[d & 255]) ^ keys[56 + k]
    return made


@lru_cache(maxsize=64)
def prepared(key: bytes) -> tuple[list[int], list[list[int]]]:
    """The round keys, and for each byte of a block its multiples of the hash subkey."""
    keys = round_keys(key)
    multiple, tables = encrypted(keys, 0), []
    for _ in range(16):
        table = [0] * 256
        for bit in range(7, -1, -1):
            table[1 << bit] = multiple
            multiple = multiple >> 1 ^ (REDUCTION if multiple & 1 else 0)
        for byte in range(1, 256):
            lowest = byte & -byte
            table[byte] = table[lowest] ^ table[byte ^ lowest]
        tables.append(table)
    return keys, tables


def hashed(tables: list[list[int]], data: bytes) -> int:
    """GHASH of whole blocks."""
    value = 0
    for at in range(0, len(data), 16):
        value ^= int.from_bytes(data[at:at + 16], 'big')
        value = sum_of(tables, value.to_bytes(16, 'big'))
    return value


def sum_of(tables: list[list[int]], block: bytes) -> int:
    made = 0
    for table, byte in zip(tables, block):
        made ^= table[byte]
    return made


def bytes_of(words: Sequence[int]) -> bytes:
    return b''.join(word.to_bytes(8, 'little') for word in words)


def words_of(data: bytes) -> list[int]:
    return [int.from_bytes(data[at:at + 8], 'little') for at in range(0, len(data), 8)]


def start_of(counter: int) -> int:
    """The first counter block: four zero bytes, the counter, and the number 1."""
    return int.from_bytes(bytes(4) + counter.to_bytes(8, 'little') + b'\0\0\0\1', 'big')


class OfModule:
    """By this module alone."""
    name = 'this module'

    @staticmethod
    def crypted(key: bytes, counter: int, words: Sequence[int]) -> list[int]:
        keys, _ = prepared(key)
        start, data = start_of(counter), bytes_of(words)
        made = bytearray()
        for k in range(PAGE_BYTES // 16):
            stream = encrypted(keys, start + 1 + k)
            made += (int.from_bytes(data[16 * k:16 * k + 16], 'big') ^ stream).to_bytes(16, 'big')
        return words_of(bytes(made))

    @staticmethod
    def tag_of(key: bytes, counter: int, asid: int, gpn: int, cipher: Sequence[int]) -> bytes:
        keys, tables = prepared(key)
        data = asid.to_bytes(8, 'little') + gpn.to_bytes(8, 'little') + bytes_of(cipher)
        lengths = (128).to_bytes(8, 'big') + (8 * PAGE_BYTES).to_bytes(8, 'big')
        return (hashed(tables, data + lengths) ^ encrypted(keys, start_of(counter))).to_bytes(16, 'big')


class OfLibrary:
    """By `cryptography`, which is about a thousand times as fast."""
    name = '`cryptography`'

    def __init__(self) -> None:
        module = importlib.import_module('cryptography.hazmat.primitives.ciphers.aead')
        self.cipher: Callable[[bytes], Any] = module.AESGCM

    def sealed(self, key: bytes, counter: int, asid: int, gpn: int, words: Sequence[int]) -> bytes:
        """The page's bytes encrypted, and the tag behind them."""
        data = asid.to_bytes(8, 'little') + gpn.to_bytes(8, 'little')
        made: bytes = self.cipher(key).encrypt(bytes(4) + counter.to_bytes(8, 'little'), bytes_of(words), data)
        return made

    def crypted(self, key: bytes, counter: int, words: Sequence[int]) -> list[int]:
        return words_of(self.sealed(key, counter, 0, 0, words)[:PAGE_BYTES])

    def tag_of(self, key: bytes, counter: int, asid: int, gpn: int, cipher: Sequence[int]) -> bytes:
        return self.sealed(key, counter, asid, gpn, self.crypted(key, counter, cipher))[PAGE_BYTES:]


def library() -> OfLibrary | None:
    """`cryptography`, where it is installed."""
    try:
        return OfLibrary()
    except ImportError:
        return None


of_module = OfModule()
of_library = library()


def crypted(key: bytes, counter: int, words: Sequence[int]) -> list[int]:
    """The words of a page encrypted, or decrypted, which is the same."""
    return (of_library or of_module).crypted(key, counter, words)


def tag_of(key: bytes, counter: int, asid: int, gpn: int, cipher: Sequence[int]) -> bytes:
    """The tag of a page's ciphertext, which an ASID and a guest page number go with."""
    return (of_library or of_module).tag_of(key, counter, asid, gpn, cipher)
