"""The words of frames as scenario and report tell them: plain ones, those of metadata pages by their entries, and sealed ones.

Ciphertexts and tags are computed when they are asked for, so that a report with many sealed pages is followed fast.
"""
from __future__ import annotations

from collections.abc import Sequence
from dataclasses import dataclass, field
from typing import Union

from . import gcm
from .gcm import WORDS

ENTRY_WORDS, ENTRIES = 8, 64
GUEST_PAGE, METADATA_PAGE = 1, 2
# The guest page number that the entry of a metadata page has.
METADATA_GPN = 1 << 63


@dataclass
class Words:
    """Words by their places; the others are zero. `was` is the ciphertext that stood there before some of them were written."""
    known: dict[int, int] = field(default_factory=dict)
    was: Sealed | None = None

    def word(self, index: int) -> int:
        return self.known.get(index, 0)

    def all(self) -> list[int]:
        return [self.word(index) for index in range(WORDS)]

    def copy(self) -> Words:
        return Words(dict(self.known), self.was)


@dataclass(frozen=True)
class Entry:
    """An entry of a metadata page that is in use, or a root. Its tag is that of what was sealed, or as it was read."""
    kind: int
    vmsa: bool
    validated: bool
    asid: int
    gpn: int
    permissions: tuple[int, int, int, int]
    counter: int
    sealed: Sealed | None = None
    read_tag: bytes = b''

    @property
    def tag(self) -> bytes:
        return self.sealed.tag if self.sealed is not None else self.read_tag

    @property
    def words(self) -> list[int]:
        """The eight words of the entry."""
        data = bytes((1, self.kind, self.vmsa, self.validated)) + self.asid.to_bytes(4, 'little') + self.gpn.to_bytes(8, 'little')
        data += bytes(most & 15 for most in self.permissions) + bytes(4) + self.counter.to_bytes(8, 'little') + self.tag
        return gcm.words_of(data + bytes(16))


def entry_from(words: Sequence[int]) -> Entry | None:
    """The entry that eight words say; none where it isn't in use."""
    data = gcm.bytes_of(words)
    if data[0] != 1:
        return None
    return Entry(data[1], data[2] != 0, data[3] != 0, int.from_bytes(data[4:6], 'little'), int.from_bytes(data[8:16], 'little'),
                 (data[16], data[17], data[18], data[19]), int.from_bytes(data[24:32], 'little'), None, data[32:48])


@dataclass
class Table:
    """The entries in use of a metadata page. `raw` has its words where they may have more than these entries."""
    entries: dict[int, Entry] = field(default_factory=dict)
    raw: list[int] | None = None

    def put(self, place: int, entry: Entry | None) -> None:
        if entry is None:
            self.entries.pop(place, None)
        else:
            self.entries[place] = entry
        if self.raw is not None:
            self.raw[ENTRY_WORDS * place:ENTRY_WORDS * (place + 1)] = [0] * ENTRY_WORDS if entry is None else entry.words

    def word(self, index: int) -> int:
        return self.all()[index]

    def all(self) -> list[int]:
        if self.raw is not None:
            return list(self.raw)
        made: list[int] = []
        for place in range(ENTRIES):
            made += self.entries[place].words if place in self.entries else [0] * ENTRY_WORDS
        return made

    def copy(self) -> Table:
        return Table(dict(self.entries), None if self.raw is None else list(self.raw))


def table_from(words: list[int]) -> Table:
    """A metadata page by its words."""
    told = ((place, entry_from(words[ENTRY_WORDS * place:ENTRY_WORDS * (place + 1)])) for place in range(ENTRIES))
    return Table({place: entry for place, entry in told if entry is not None}, list(words))


@dataclass(eq=False)
class Sealed:
    """The ciphertext of a page: what it was made of, and the event of its compute."""
    key: bytes
    counter: int
    asid: int
    gpn: int
    plain: Content
    frame: int
    event: int
    made: list[int] | None = None
    made_tag: bytes | None = None

    def all(self) -> list[int]:
        if self.made is None:
            self.made = gcm.crypted(self.key, self.counter, self.plain.all())
        return self.made

    @property
    def tag(self) -> bytes:
        if self.made_tag is None:
            self.made_tag = gcm.tag_of(self.key, self.counter, self.asid, self.gpn, self.all())
        return self.made_tag

    def word(self, index: int) -> int:
        return self.all()[index]

    def copy(self) -> Sealed:
        return self


Content = Union[Words, Table, Sealed]


@dataclass
class Memory:
    """What stands in each frame; frames that aren't named have zero words."""
    frames: dict[int, Content] = field(default_factory=dict)

    def at(self, frame: int) -> Content:
        return self.frames.get(frame) or Words()

    def word(self, frame: int, index: int) -> int:
        content = self.frames.get(frame)
        return 0 if content is None or not 0 <= index < WORDS else content.word(index)

    def write(self, frame: int, index: int, value: int) -> None:
        content = self.frames.get(frame)
        if not isinstance(content, Words):
            was = content if isinstance(content, Sealed) else None
            content = Words({} if content is None else dict(enumerate(content.all())), was)
            self.frames[frame] = content
        content.known[index] = value

    def put(self, frame: int, content: Content) -> None:
        self.frames[frame] = content

    def clear(self, frames: range) -> None:
        """Zero words in each frame of a range."""
        if len(frames) == 1:
            self.frames.pop(frames.start, None)
            return
        for frame in [frame for frame in self.frames if frame in frames]:
            del self.frames[frame]

    def table(self, frame: int) -> Table:
        """The metadata page of a frame."""
        content = self.frames.get(frame)
        if not isinstance(content, Table):
            content = Table() if content is None else table_from(content.all())
            self.frames[frame] = content
        return content
