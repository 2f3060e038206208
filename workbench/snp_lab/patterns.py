"""Patterns of report lines: word by word, `*` for any one word or part of a word, `...` for any words, also none."""
from __future__ import annotations

import re


def pattern_of(text: str) -> re.Pattern[str]:
    """The pattern that a text says; it fits whole lines."""
    parts = []
    words = text.split()
    for k, word in enumerate(words):
        space = ' ' if k else ''
        if word == '...':
            parts.append(f'(?:{space}[^ ]+)*' if k else '(?:[^ ]+(?: (?=[^ ])|$))*')
        else:
            before = '' if k == 1 and words[0] == '...' else space
            parts.append(before + '[^ ]*'.join(re.escape(part) for part in word.split('*')))
    return re.compile(''.join(parts) + r'\Z')


def names_a_number(text: str) -> bool:
    """Whether a pattern of an event line says its number, so that it depends on the order of independent events."""
    first = text.split()[0] if text.split() else ''
    return any(char.isdigit() for char in first)
