"""Texts as lines and words, and complaints about them that name the file and the line."""
from __future__ import annotations

import re
import sys
from collections.abc import Iterator
from dataclasses import dataclass
from typing import NoReturn

DECIMAL = re.compile(r'(?:0|[1-9][0-9]*)\Z')
HEX = re.compile(r'0x[0-9a-f]{1,16}\Z')

# Bytes that editors and mail put into texts, and that no text of `snp` may have.
NAMED_BYTES = {'\r': 'a carriage return', '\t': 'a tab', '\ufeff': 'a byte order mark', '\0': 'a zero byte',
               '\u00a0': 'a no-break space'}


class Complaint(Exception):
    """Something wrong with an input or a command, told without a trace of Python."""

    def __init__(self, message: str, name: str | None = None, line: int | None = None) -> None:
        super().__init__(message)
        self.message = message
        self.name = name
        self.line = line

    def __str__(self) -> str:
        place = ''.join(f'{part}:' for part in (self.name, self.line) if part is not None)
        return f'{place} {self.message}' if place else self.message


@dataclass(frozen=True)
class Line:
    """A line of a text, by the name of its file and its number from 1."""
    name: str
    number: int
    text: str

    @property
    def words(self) -> list[str]:
        return self.text.split(' ')

    @property
    def is_passed_over(self) -> bool:
        return not self.text or self.text.startswith('#')

    def fail(self, message: str) -> NoReturn:
        raise Complaint(message, self.name, self.number)

    def check_bytes(self) -> None:
        """Complains of bytes that no line may have, by their name."""
        for char in self.text:
            if char in NAMED_BYTES:
                ending = ' at its end; save the text with line feeds alone' if char == '\r' and self.text.endswith(char) else ''
                self.fail(f'this line has {NAMED_BYTES[char]}{ending}')
            if not ' ' <= char <= '~':
                self.fail(f'this line has {char!r}, which is outside of printable ASCII')
        if '' in self.words:
            self.fail('this line has a leading, trailing or doubled space')


def read_bytes(name: str) -> bytes:
    """All of a file, or of standard input where its name is `-`."""
    try:
        if name == '-':
            return sys.stdin.buffer.read()
        with open(name, 'rb') as file:
            return file.read()
    except OSError as fault:
        raise Complaint((fault.strerror or 'it can\'t be read').lower(), shown(name)) from None


def shown(name: str) -> str:
    return 'standard input' if name == '-' else name


def read_text(name: str) -> str:
    return read_bytes(name).decode('utf-8', 'replace')


def lines_of(text: str, name: str) -> list[Line]:
    """The lines of a text. A last line without its line feed is complained of, since `snp` refuses it."""
    parts = text.split('\n')
    if parts[-1]:
        raise Complaint('the last line has no line feed at its end', name, len(parts))
    return [Line(name, k + 1, part) for k, part in enumerate(parts[:-1])]


def told_lines(text: str, name: str) -> Iterator[Line]:
    """The lines that say something, each with its bytes checked."""
    for line in lines_of(text, name):
        if line.is_passed_over:
            continue
        line.check_bytes()
        yield line


def number_of(word: str) -> int | None:
    """The number that a word is, as scenarios have numbers."""
    if DECIMAL.match(word):
        value = int(word)
    elif HEX.match(word):
        value = int(word, 16)
    else:
        return None
    return value if value < 1 << 64 else None


def decimal_of(word: str) -> int | None:
    """The number that a word is, where it is decimal."""
    return int(word) if DECIMAL.match(word) else None


def need_number(line: Line, word: str, what: str, least: int = 0, most: int = (1 << 64) - 1) -> int:
    """The number of a word that should be one, within its range."""
    value = number_of(word)
    if value is None:
        line.fail(f'{what} should be a number (decimal, or 0x and 1 to 16 lower-case digits, below 2^64), and is `{word}`')
    if not least <= value <= most:
        line.fail(f'{what} should be {least} to {most}, and is {word}')
    return value


def hex_of(value: int) -> str:
    return f'0x{value:x}'


def page_of(gpn: int) -> str:
    """A guest page number as it is told: as the report has it, but for one digit."""
    return str(gpn) if gpn < 10 else hex_of(gpn)
