"""Shorter scenarios in, plain ones out. The short form stands in comments of what comes out."""
from __future__ import annotations

import re
from collections.abc import Callable
from dataclasses import dataclass, field

from . import order
from .entries import LARGE
from .program import Program
from .scenario import ACCESSES, FORMS, FRAMES_OF, OPERANDS
from .texts import Complaint, Line, hex_of, lines_of, number_of

NAME = re.compile(r'[a-z][a-z0-9_]*\Z')
CALL = re.compile(r'([a-z]+)\(([^()]*)\)\Z')
RANGE = re.compile(r'([^.]+)\.\.([^.]+)\Z')
MAP = re.compile(r'map (\S+) root (\S+): (\S+) -> (\S+)( 2m)?( read-only)?\Z')
SECTIONS = {'snp': 0, 'regions': 1, 'frame': 2, 'guest': 3, 'page': 4, 'word': 5, 'map': 5, 'actor': 6, 'order': 7, 'end': 8}
KEY = '0' * 64
MOST_TRIES = 64
# What stands for the number of a frame that no line gives, of one frame and of the first of 512, until all others are known.
UNNUMBERED = {'': -1, '2m': -2}
KEPT_WORDS = frozenset('''snp regions frame guest page word map root actor order end opened new firmware asid iv key of at valid invalid cpu host
fw vmpl npt flat gcr3 la57 skip if ok bad value retry tries read'''.split()) | frozenset(OPERANDS)


@dataclass
class Entry:
    """A line of the short text with the comments above it, and what becomes of it."""
    line: Line
    comments: list[str]
    plain: list[str] = field(default_factory=list)

    @property
    def first(self) -> str:
        return self.line.words[0]


@dataclass
class Draft:
    """A scenario in the making."""
    name: str
    top: list[str] = field(default_factory=list)
    entries: list[Entry] = field(default_factory=list)
    frames: dict[str, int] = field(default_factory=dict)
    used: set[int] = field(default_factory=set)
    tables: dict[tuple[int, int], int] = field(default_factory=dict)
    leaves: dict[tuple[int, int], tuple[int, int]] = field(default_factory=dict)
    highest: int = 0

    def free_range(self) -> int:
        """The first frame of 512 that no line names, for a page of 2 MB."""
        taken = {frame // LARGE for frame in self.used}
        region = next(region for region in range(1, len(taken) + 2) if region not in taken)
        self.use_all(range(LARGE * region, LARGE * (region + 1)))
        return LARGE * region

    # Words

    def value(self, line: Line, word: str) -> int:
        """The number that a word says: a number, a named frame, or a call such as `leaf(1,0x0)`."""
        number = number_of(word)
        if number is not None:
            return number
        if word in self.frames:
            return self.frames[word]
        found = CALL.match(word)
        if found is None:
            line.fail(f"`{word}` is neither a number nor a named frame; `frame {word if NAME.match(word) else 'NAME'} 9` would name one")
        call = CALLS.get(found.group(1))
        if call is None:
            line.fail(f"`{found.group(1)}` is no call: {', '.join(CALLS)} are")
        return call(self, line, [self.value(line, part) for part in found.group(2).split(',')])

    def plain_word(self, line: Line, word: str) -> str:
        """A word of a line as it stands in a plain scenario."""
        if word in self.frames:
            return str(self.frames[word])
        if NAME.match(word) and word not in KEPT_WORDS:
            self.value(line, word)
        return hex_of(self.value(line, word)) if CALL.match(word) else word

    def use(self, frame: int) -> None:
        self.used.add(frame)
        self.highest = max(self.highest, frame)

    def use_all(self, frames: range) -> None:
        self.used.update(frames)
        self.highest = max(self.highest, frames.stop - 1)

    def free_frame(self, behind: int) -> int:
        """The first frame behind another that no line names."""
        frame = behind + 1
        while frame in self.used:
            frame += 1
        self.use(frame)
        return frame

    def span(self, line: Line, word: str) -> range:
        """`0x0..0x7`, or one number."""
        found = RANGE.match(word)
        first, last = (self.value(line, part) for part in (found.groups() if found else (word, word)))
        if last < first:
            line.fail(f'`{word}` goes backwards')
        if last - first >= 1 << 16:
            line.fail(f'`{word}` has more than 65536 pages')
        return range(first, last + 1)


def call_addr(draft: Draft, line: Line, parts: list[int]) -> int:
    need_parts(line, 'addr(FRAME,INDEX)', parts, 2, 2)
    return 4096 * parts[0] + 8 * parts[1]


def call_entry(draft: Draft, line: Line, parts: list[int]) -> int:
    """Bits 0 to 2 (present, writable, user), or the bits that are given."""
    need_parts(line, 'entry(FRAME)', parts, 1, 2)
    return 4096 * parts[0] + (parts[1] if len(parts) == 2 else 7)


def call_large(draft: Draft, line: Line, parts: list[int]) -> int:
    """Bits 0 to 2 (present, writable, user) and 7 (a page of 2 MB)."""
    need_parts(line, 'large(FRAME)', parts, 1, 1)
    return 4096 * parts[0] + 0x87


def call_private(draft: Draft, line: Line, parts: list[int]) -> int:
    """Bits 0 and 1 (present, writable) and 51 (private)."""
    need_parts(line, 'private(PAGE)', parts, 1, 1)
    return 4096 * parts[0] + 3 + (1 << 51)


def call_shared(draft: Draft, line: Line, parts: list[int]) -> int:
    """Bits 0 and 1 (present, writable)."""
    need_parts(line, 'shared(PAGE)', parts, 1, 1)
    return 4096 * parts[0] + 3


def call_leaf(draft: Draft, line: Line, parts: list[int]) -> int:
    need_parts(line, 'leaf(ROOT,PAGE)', parts, 2, 2)
    place = draft.leaves.get((parts[0], parts[1]))
    if place is None:
        line.fail(f'no `map` line with root {parts[0]} has page {hex_of(parts[1])}')
    return 4096 * place[0] + 8 * place[1]


BITS = {'entry': 'bits 0 (present), 1 (writable) and 2 (user)', 'large': 'bits 0 (present), 1 (writable), 2 (user) and 7 (a page of 2 MB)',
        'private': 'bits 0 (present), 1 (writable) and 51 (private)', 'shared': 'bits 0 (present) and 1 (writable)'}
CALLS: dict[str, Callable[[Draft, Line, list[int]], int]] = {
    'addr': call_addr, 'entry': call_entry, 'large': call_large, 'leaf': call_leaf, 'private': call_private,
    'shared': call_shared}


def need_parts(line: Line, form: str, parts: list[int], least: int, most: int) -> None:
    if not least <= len(parts) <= most:
        line.fail(f'this should be `{form}`')


def take_apart(text: str, name: str) -> Draft:
    """The lines of a short text, each with the comments above it."""
    draft = Draft(name)
    comments: list[str] = []
    for line in lines_of(text, name):
        if line.is_passed_over:
            comments.append(line.text)
            continue
        line.check_bytes()
        draft.entries.append(Entry(line, comments if draft.entries else []))
        if len(draft.entries) == 1:
            draft.top = comments
        comments = []
    if comments and draft.entries:
        draft.entries[-1].comments += comments
    return draft


def read_names(draft: Draft) -> None:
    """The named frames; those without a number get one when all others are known."""
    for entry in (entry for entry in draft.entries if entry.first == 'frame'):
        words = entry.line.words
        if len(words) not in (2, 3):
            entry.line.fail('`frame NAME F` names frame F, `frame NAME` one that no other line names, and `frame NAME 2m` the first of 512')
        if not NAME.match(words[1]) or words[1] in KEPT_WORDS or words[1] in CALLS:
            entry.line.fail(f"`{words[1]}` can't be a name: names are lower-case letters, digits and `_`, and no words of scenarios")
        if words[1] in draft.frames:
            entry.line.fail(f'`{words[1]}` is named twice')
        unnumbered = UNNUMBERED.get(' '.join(words[2:]))
        draft.frames[words[1]] = draft.value(entry.line, words[2]) if unnumbered is None else unnumbered
        if unnumbered is None:
            draft.use(draft.frames[words[1]])


def frame_words(entry: Entry) -> tuple[list[str], bool]:
    """The words of a line that name frames, and whether the line is of pages of 2 MB."""
    words = entry.line.words
    if entry.first in ('page', 'word') and len(words) > 1:
        return [words[1]], entry.first == 'page' and '2m' in words
    if entry.first == 'map':
        found = MAP.match(entry.line.text)
        return ([found.group(2), found.group(4)], False) if found else ([], False)
    if entry.first == 'actor' and 'npt' in words[:-1]:
        return [words[words.index('npt') + 1]], False
    named = [words[place] for place in FRAMES_OF.get(entry.first, ()) if place < len(words)]
    return named, entry.first == 'psmash' or entry.first == 'rmpupdate' and '2m' in words


def note_frames(draft: Draft) -> None:
    """Marks the frames that lines name, so that none of them becomes a table."""
    is_host = False
    for entry in draft.entries:
        words, line = entry.line.words, entry.line
        is_host = 'host' in words if entry.first == 'actor' else is_host
        named, is_large = frame_words(entry)
        for word in named:
            if draft.frames.get(word, 0) >= 0 and not CALL.match(word):
                frames = draft.span(line, word)
                if frames.stop <= 1 << 20:
                    draft.use_all(range(frames.start, frames.stop + (LARGE - 1 if is_large else 0)))
        if entry.first == 'map' and (found := MAP.match(line.text)) is not None and found.group(5):
            note_large_map(draft, line, found.group(4))
        if is_host and entry.first in ACCESSES and len(words) > 1 and number_of(words[1]) is not None:
            draft.used.add((number_of(words[1]) or 0) >> 12)
    for name in [name for name, frame in draft.frames.items() if frame == UNNUMBERED['2m']]:
        draft.frames[name] = draft.free_range()
    for name in [name for name, frame in draft.frames.items() if frame == UNNUMBERED['']]:
        draft.frames[name] = draft.free_frame(7)


def note_large_map(draft: Draft, line: Line, word: str) -> None:
    """The frames of a page of 2 MB that is mapped, where its first one is known already."""
    if draft.frames.get(word, 0) >= 0:
        first = draft.value(line, word)
        draft.use_all(range(first, first + LARGE))


def next_table(draft: Draft, line: Line, table: int, index: int, is_leaf_level: bool) -> tuple[int, list[str]]:
    """The table below a word, and the line that makes it where it isn't there."""
    lines: list[str] = []
    below = draft.tables.get((table, index))
    if below is None:
        below = 4096 * draft.free_frame(table) + 7
        draft.tables[table, index] = below
        lines.append(f'word {table} {index} {hex_of(below)}')
    if not below & 1 or is_leaf_level and below & 0x80:
        line.fail(f'word {index} of frame {table} is {hex_of(below)}, which leads to no table')
    return below >> 12 & (1 << 36) - 1, lines


def map_page(draft: Draft, line: Line, root: int, gpn: int, entry: int, level: int = 1) -> list[str]:
    """The words that map one page by an entry at a level, with the tables that it needs and that aren't there."""
    lines: list[str] = []
    table = root
    for above in range(4, level, -1):
        table, made = next_table(draft, line, table, gpn // 512 ** (above - 1) % 512, above == 2)
        lines += made
    pages = range(gpn, gpn + 512 ** (level - 1))
    twice = next((page for page in pages if (root, page) in draft.leaves), None)
    if twice is not None:
        line.fail(f'page {hex_of(twice)} is mapped twice under root {root}')
    index = gpn // 512 ** (level - 1) % 512
    draft.leaves.update(((root, page), (table, index)) for page in pages)
    draft.tables[table, index] = entry
    return lines + [f'word {table} {index} {hex_of(entry)}']


def write_map(draft: Draft, entry: Entry) -> None:
    line = entry.line
    found = MAP.match(line.text)
    if found is None:
        line.fail('a map is `map GUEST root FRAME: PAGES -> FRAMES`, as `map 1 root 1: 0x0..0x7 -> 64..71`, and may end with `2m` '
                  'and `read-only`')
    guest, root = draft.value(line, found.group(1)), draft.value(line, found.group(2))
    declared = [draft.value(other.line, other.line.words[1]) for other in draft.entries
                if other.first == 'guest' and len(other.line.words) > 1]
    if guest not in declared:
        line.fail(f"guest {guest} isn't declared")
    pages, frames = draft.span(line, found.group(3)), draft.span(line, found.group(4))
    if len(pages) != len(frames):
        line.fail(f'{len(pages)} pages are mapped to {len(frames)} frames')
    bits = 5 if found.group(6) else 7
    if found.group(5):
        if len(pages) > 1 or pages[0] % LARGE or frames[0] % LARGE:
            line.fail('a map of 2 MB has the first page and the first frame alone, each a multiple of 512')
        entry.plain += map_page(draft, line, root, pages[0], 4096 * frames[0] + bits + 0x80, 2)
        return
    for gpn, frame in zip(pages, frames):
        entry.plain += map_page(draft, line, root, gpn, 4096 * frame + bits)


def write_guest(draft: Draft, entry: Entry) -> None:
    """A guest line, with the counter 0 and a key of zeros where they are left out."""
    words = entry.line.words
    if len(words) in (5, 7) and words[3] == 'asid' and 'key' not in words:
        words = words + ([] if len(words) == 7 else ['iv', '0']) + ['key', KEY]
    entry.plain = [' '.join(words[:1] + [draft.plain_word(entry.line, word) if k < 7 else word for k, word in enumerate(words[1:])])]


def write_page(draft: Draft, entry: Entry) -> None:
    """A page line, or one for each of several frames; what is left out is `4k valid 0 0 0`."""
    line, words = entry.line, entry.line.words
    if len(words) < 6 or words[2] != 'of' or words[4] != 'at':
        line.fail('a page is `page FRAMES of GUEST at PAGE`, with `4k valid 0 0 0` behind it or another end')
    words = words + ['4k', 'valid', '0', '0', '0'][len(words) - 6:]
    frames, first = draft.span(line, words[1]), draft.span(line, words[5])
    if len(first) not in (1, len(frames)):
        line.fail(f'{len(frames)} frames are {len(first)} pages')
    if len(frames) > 1 and words[6] == '2m':
        line.fail('a page of 2 MB is told by the first of its frames alone')
    if len(frames) == 1:
        entry.plain = [' '.join(words[:1] + [draft.plain_word(line, word) for word in words[1:]])]
        return
    for k, frame in enumerate(frames):
        entry.plain.append(f"page {frame} of {draft.plain_word(line, words[3])} at {hex_of(first[0] + k)} {' '.join(words[6:])}")


def write_update(draft: Draft, entry: Entry) -> None:
    """An RMPUPDATE, also one that is told as `rmpupdate F free`, `rmpupdate F firmware` or `rmpupdate F of G at P`."""
    line, words = entry.line, entry.line.words
    retries = words[-2:] if len(words) > 2 and words[-2] == 'retry' else []
    words = words[:len(words) - len(retries)]
    if len(words) < 3 or words[2] not in ('free', 'of', 'firmware'):
        write_plain(draft, entry)
        return
    if words[2:] == ['firmware']:
        entry.plain = [' '.join(['rmpupdate', draft.plain_word(line, words[1]), '4k', '1', '0', '0', '1'] + retries)]
        return
    ends = words[3:] if words[2] == 'free' else words[6:]
    is_right = words[2] == 'free' or words[2] == 'of' and len(words) >= 6 and words[4] == 'at'
    if not is_right or ends not in ([], ['2m'], ['immutable'], ['2m', 'immutable']) or words[2] == 'free' and 'immutable' in ends:
        line.fail('this should be `rmpupdate F free`, `rmpupdate F firmware` or `rmpupdate F of GUEST at PAGE`, with `2m` or `immutable` behind it')
    size = '2m' if '2m' in ends else '4k'
    frame = draft.plain_word(line, words[1])
    asked = ['0', '0', '0', '0']
    if words[2] == 'of':
        asked = ['1', asid_of(draft, line, words[3]), draft.plain_word(line, words[5]), '1' if 'immutable' in ends else '0']
    entry.plain = [' '.join(['rmpupdate', frame, size] + asked + retries)]


def write_launch(draft: Draft, entry: Entry) -> None:
    """A launched page, whose type and permissions are `1 0 0 0 0` where they are left out, or one for each of several frames."""
    line, words = entry.line, entry.line.words
    retries = words[-2:] if len(words) > 2 and words[-2] == 'retry' else []
    words = words[:len(words) - len(retries)]
    if len(words) not in (3, 8):
        line.fail('this should be `launch_update GUEST FRAMES`, with `1 0 0 0 0` behind it or another type, flag and permissions')
    ends = words[3:] or ['1', '0', '0', '0', '0']
    frames = [str(frame) for frame in draft.span(line, words[2])] if RANGE.match(words[2]) else [draft.plain_word(line, words[2])]
    entry.plain = [' '.join(['launch_update', draft.plain_word(line, words[1]), frame] + ends + retries) for frame in frames]


def asid_of(draft: Draft, line: Line, word: str) -> str:
    """The ASID of a guest, from its line."""
    guest = draft.value(line, word)
    declared = (other.line.words for other in draft.entries if other.first == 'guest')
    found = next((words[4] for words in declared if len(words) > 4 and number_of(words[1]) == guest), None)
    if found is None:
        line.fail(f"guest {guest} isn't declared")
    return found


def note_word(draft: Draft, entry: Entry) -> None:
    """A `word` line as a part of tables that a map may go on with."""
    words = entry.line.words
    if len(words) == 4:
        frame, index, word = (draft.value(entry.line, part) if not part.startswith('leaf(') else -1 for part in words[1:])
        draft.tables[frame, index] = word


def write_plain(draft: Draft, entry: Entry) -> None:
    words = entry.line.words
    entry.plain = [' '.join(words[:1] + [draft.plain_word(entry.line, word) for word in words[1:]])]


def write_tries(draft: Draft, entry: Entry) -> None:
    """An access that is made again where a fault ends it: copies, each behind a skip over all that are left if the last one was good."""
    line, words = entry.line, entry.line.words
    many = number_of(words[-1]) if words[-2] == 'tries' else None
    if many is None or not 2 <= many <= MOST_TRIES or len(words) - 2 != OPERANDS[words[0]] + 1:
        line.fail(f'`tries N` ends an access, and N is 2 to {MOST_TRIES}, as in `load 0x10 tries 3`')
    if words[0] == 'cas':
        line.fail('a `cas` that finds another word is bad too, and would be made again: `tries` is for other accesses')
    plain = ' '.join(words[:1] + [draft.plain_word(line, word) for word in words[1:-2]])
    for left in range(many - 1, 0, -1):
        entry.plain += [plain, f'skip {2 * left - 1} if ok']
    entry.plain.append(plain)


def section(entry: Entry, before: int) -> int:
    """The part of a scenario that a line belongs to; items belong to the actors."""
    return SECTIONS.get(entry.first, SECTIONS['actor'] if before >= 0 else -1)


def write_entries(draft: Draft) -> None:
    """The plain lines of each entry but those of the order."""
    read_names(draft)
    note_frames(draft)
    for entry in draft.entries:
        if entry.first == 'word':
            note_word(draft, entry)
    for entry in draft.entries:
        if entry.first == 'map':
            write_map(draft, entry)
    for entry in draft.entries:
        if entry.first == 'guest':
            write_guest(draft, entry)
        elif entry.first == 'page':
            write_page(draft, entry)
        elif entry.first == 'rmpupdate':
            write_update(draft, entry)
        elif entry.first == 'launch_update':
            write_launch(draft, entry)
        elif entry.first in ACCESSES and 'tries' in entry.line.words:
            write_tries(draft, entry)
        elif entry.first not in ('map', 'frame', 'order'):
            write_plain(draft, entry)


def completed(draft: Draft) -> list[Entry]:
    """The entries in the order of a scenario, with `snp`, `regions` and `end` where they are left out."""
    firsts = [entry.first for entry in draft.entries]
    made = list(draft.entries)

    def add(text: str) -> None:
        made.append(Entry(Line(draft.name, 0, text), [], [text]))

    old = next((entry for entry in draft.entries if entry.line.text == 'snp 1'), None)
    deep = next((entry for entry in draft.entries if entry.first == 'actor' and 'la57' in entry.line.words), None)
    if old is not None and deep is not None:
        deep.line.fail(f'`la57` is a word of version 2, and line {old.line.number} says `snp 1`: say `snp 2`, or leave that line out')
    if 'snp' not in firsts:
        add(f"snp {2 if any('la57' in entry.line.words for entry in draft.entries) else 1}")
    if 'regions' not in firsts:
        add(f'regions {draft.highest // 512 + 1}')
    if 'end' not in firsts:
        add('end')
    for entry in made:
        if entry.first not in SECTIONS and entry.first not in OPERANDS and entry.first != 'skip':
            entry.line.fail(f'`{entry.first}` begins no line of a scenario, short or plain')
    return sorted(made, key=lambda entry: SECTIONS.get(entry.first, SECTIONS['actor']))


def bits_of(line: Line) -> list[tuple[str, str]]:
    """The words of a line that are entries of tables, with the bits that they set beside the frame or page."""
    calls = [(word, CALL.match(word)) for word in line.words]
    if line.words[0] not in ('word', *FORMS):
        return []
    return [(word, BITS[found.group(1)]) for word, found in calls if found is not None and found.group(1) in BITS
            and not (found.group(1) == 'entry' and ',' in word)]


def text_of(entries: list[Entry]) -> list[str]:
    """The lines of entries, each with its short form in a comment where that differs."""
    lines: list[str] = []
    for entry in entries:
        lines += entry.comments
        if entry.plain != [entry.line.text]:
            lines.append('# ' + entry.line.text)
            lines += [f'#   {word} sets {bits}' for word, bits in bits_of(entry.line)]
        lines += entry.plain
    return lines


def written(text: str, name: str, program: Callable[[], Program]) -> str:
    """The plain scenario of a short one. The program is asked only where the order is by items."""
    draft = take_apart(text, name)
    if not draft.entries:
        raise Complaint('there is no line in this text', name)
    write_entries(draft)
    entries = completed(draft)
    head = draft.top + text_of([entry for entry in entries if entry.first not in ('order', 'end')])
    ordered = [entry for entry in entries if entry.first == 'order']
    for entry, plain in zip(ordered, order.Planner(head, name, program).plain([entry.line for entry in ordered])):
        entry.plain = plain
    return '\n'.join(head + text_of([entry for entry in entries if entry.first in ('order', 'end')])) + '\n'
