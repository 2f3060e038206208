"""Scenarios as `snp` reads them.

The reader follows the rules of docs/FORMATS.md, so that it can say of a text that `snp` refuses what would mend it; `snp` alone
decides what is a scenario.
"""
from __future__ import annotations

import difflib
from collections.abc import Callable, Iterable
from dataclasses import dataclass, field
from itertools import groupby

from .texts import Complaint, Line, hex_of, need_number, number_of, told_lines

ORDER_WORDS = 16
ORDER_LIMIT = 262144
MOST_REGIONS, MOST_GUESTS, MOST_ACTORS, MOST_ATTEMPTS = 16, 8, 32, 8192
EXCHANGES = ('swap', 'cas', 'xor')
WRITES = ('store',) + EXCHANGES

# The form of each item behind its word, and the least and most of each operand; `A` is an address, a multiple of 8, and the last
# words of some items may be `retry N`.
ANY = (1 << 64) - 1
GUEST, FLAG, PERMISSIONS, GPN, ENTRY = (1, 8), (0, 1), (0, 15), (0, (1 << 36) - 1), (0, 63)
FORMS: dict[str, tuple[str, dict[str, tuple[int, int]]]] = {
    'load': ('A', {}), 'store': ('A V', {}), 'swap': ('A V', {}), 'cas': ('A OLD NEW', {}), 'xor': ('A V', {}),
    'pvalidate': ('VA S B', {'B': FLAG}), 'rmpadjust': ('VA S T M W', {'T': (0, 255), 'M': (0, 255), 'W': FLAG}),
    'rmpupdate': ('F S B ASID P I', {'B': FLAG, 'ASID': (0, 1023), 'P': GPN, 'I': FLAG}), 'psmash': ('F', {}),
    'gctx_create': ('G F', {'G': GUEST}), 'activate': ('G ASID', {'G': GUEST, 'ASID': (0, 1023)}), 'launch_start': ('G', {'G': GUEST}),
    'launch_update': ('G F T I X Y Z', {'G': GUEST, 'T': (0, 255), 'I': FLAG, 'X': PERMISSIONS, 'Y': PERMISSIONS, 'Z': PERMISSIONS}),
    'launch_finish': ('G', {'G': GUEST}), 'md_init': ('F', {}), 'page_move': ('G SRC DST', {'G': GUEST}),
    'swap_out': ('G SRC DST MD E', {'G': GUEST, 'E': ENTRY}), 'swap_in': ('G SRC DST MD E', {'G': GUEST, 'E': ENTRY}),
    'page_reclaim': ('F', {}), 'md_out': ('G SRC DST MD E', {'G': GUEST, 'E': ENTRY}), 'md_in': ('G SRC DST MD E', {'G': GUEST, 'E': ENTRY}),
    'md_root_out': ('G SRC DST', {'G': GUEST}), 'md_root_in': ('G SRC DST', {'G': GUEST}),
}
OPERANDS = {word: len(form.split()) for word, (form, _) in FORMS.items()}
# The parts of a text in their order; items belong to their actors.
SECTIONS = {'snp': 0, 'regions': 1, 'guest': 2, 'page': 3, 'word': 4, 'actor': 5, 'order': 6, 'end': 7}
SECTION_NAMES = ('`snp`', '`regions`', '`guest` lines', '`page` lines', '`word` lines', 'actors with their items', '`order` lines', '`end`')
# Which operands of an item, counted from 1, are frames.
FRAMES_OF = {'rmpupdate': (1,), 'psmash': (1,), 'gctx_create': (2,), 'launch_update': (2,), 'md_init': (1,), 'page_move': (2, 3),
             'swap_out': (2, 3, 4), 'swap_in': (2, 3, 4), 'page_reclaim': (1,), 'md_out': (2, 3, 4), 'md_in': (2, 3, 4),
             'md_root_out': (2, 3), 'md_root_in': (2, 3)}
ACCESSES = ('load',) + WRITES
RETRIED = tuple(word for word in OPERANDS if word not in ACCESSES)
# The items of each role but for accesses and skips.
ROLE_NAMES = {'cpu': 'a guest\'s processor', 'host': 'a processor of the hypervisor', 'fw': 'firmware'}
ROLE_OF = {'pvalidate': 'cpu', 'rmpadjust': 'cpu', 'rmpupdate': 'host', 'psmash': 'host'}


@dataclass(frozen=True)
class Guest:
    number: int
    asid: int
    is_opened: bool
    counter: int
    key: bytes


@dataclass(frozen=True)
class Page:
    """A page that is a guest's at the opening."""
    frame: int
    guest: int
    gpn: int
    is_large: bool
    is_valid: bool
    permissions: tuple[int, int, int, int]


@dataclass(frozen=True)
class Item:
    """A line of a script: its text, its first word, and its operands as numbers (sizes as 4 and 2)."""
    text: str
    word: str
    operands: tuple[int, ...]
    retries: int = 0
    test: str = ''

    @property
    def writes(self) -> bool:
        return self.word in WRITES

    @property
    def frames(self) -> range:
        """The frames that an RMPUPDATE or PSMASH is of."""
        is_large = self.word == 'psmash' or self.operands[1] == 2
        return range(self.operands[0], self.operands[0] + (512 if is_large else 1))


@dataclass
class Actor:
    number: int
    role: str
    guest: int = 0
    vmpl: int = 0
    table: int = 0
    paging: str = 'flat'
    first_page: int = 0
    items: list[Item] = field(default_factory=list)

    @property
    def title(self) -> str:
        """What the actor is, in words."""
        if self.role == 'host':
            return 'processor of the hypervisor'
        if self.role == 'fw':
            return 'firmware'
        return f'processor of guest {self.guest}, VMPL{self.vmpl}'


@dataclass
class Scenario:
    name: str
    version: int = 1
    regions: int = 0
    guests: dict[int, Guest] = field(default_factory=dict)
    pages: list[Page] = field(default_factory=list)
    words: dict[tuple[int, int], int] = field(default_factory=dict)
    actors: dict[int, Actor] = field(default_factory=dict)
    schedule: list[tuple[int, int]] = field(default_factory=list)

    @property
    def frames(self) -> int:
        return self.regions * 512


def fixed(line: Line, place: int, *choices: str) -> str:
    word = line.words[place]
    if word not in choices:
        line.fail(f"word {place + 1} should be {' or '.join(f'`{choice}`' for choice in choices)}, and is `{word}`")
    return word


def count(line: Line, form: str) -> None:
    """Complains of a line that has another number of words than its form."""
    if len(line.words) != len(form.split()):
        line.fail(f'`{form}` has {len(form.split())} words, and this line has {len(line.words)}')


def close_word(word: str, others: list[str]) -> str:
    """A question behind a word that is nearly another one."""
    near = difflib.get_close_matches(word, others, 1, 0.75)
    return f'; is it `{near[0]}`?' if near else ''


@dataclass
class Reader:
    """Reads a text line by line, and remembers where what may stand once was said."""
    scenario: Scenario
    actor: Actor | None = None
    section: int = -1
    section_line: int = 0
    asids: dict[int, int] = field(default_factory=dict)
    owners: list[tuple[range, int]] = field(default_factory=list)
    gpns: list[tuple[int, range, int]] = field(default_factory=list)
    attempts: int = 0

    def read(self, line: Line) -> None:
        first = line.words[0]
        if any(word.startswith('#') for word in line.words):
            line.fail('a comment stands on a line of its own: `#` begins none behind other words')
        self.check_section(line, first)
        if first in READERS:
            READERS[first](self, line)
        elif self.actor is None:
            known = first in FORMS or first == 'skip'
            what = (f'`{first}` is an item, and no `actor` line stands above it' if known else
                    f'`{first}` begins no line of a scenario{close_word(first, list(SECTIONS) + list(FORMS))}')
            line.fail(what)
        else:
            self.add_item(line)

    def check_section(self, line: Line, first: str) -> None:
        """Complains of a line whose part of the text is over, or hasn't begun."""
        section = SECTIONS.get(first, SECTIONS['actor'] if self.actor is not None else self.section)
        if self.section < 0 and first != 'snp':
            line.fail(f'the first line is `snp 1` (or `snp 2`), and it is missing: this line is `{line.text[:60]}`')
        if self.section == 0 and first != 'regions':
            line.fail(f'the second line is `regions N`, the size of memory in parts of 512 frames, and this line is `{line.text[:60]}`')
        if section < self.section:
            line.fail(f'{SECTION_NAMES[section]} come before {SECTION_NAMES[self.section]}, which begin in line {self.section_line}')
        if section == self.section and first in ('snp', 'regions'):
            line.fail(f'`{first}` stands once, and line {self.section_line} has it already')
        if first in SECTIONS and section > self.section:
            self.section, self.section_line = section, line.number

    def read_snp(self, line: Line) -> None:
        count(line, 'snp V')
        self.scenario.version = int(fixed(line, 1, '1', '2'))

    def read_regions(self, line: Line) -> None:
        count(line, 'regions N')
        self.scenario.regions = need_number(line, line.words[1], 'the count of regions', 1, MOST_REGIONS)

    def read_guest(self, line: Line) -> None:
        count(line, 'guest G opened asid A iv N key K')
        words, guests = line.words, self.scenario.guests
        number = need_number(line, words[1], 'the guest')
        if number != len(guests) + 1:
            line.fail(f'guests are numbered from 1 on: this one should be {len(guests) + 1}')
        kind = fixed(line, 2, 'opened', 'new')
        fixed(line, 3, 'asid')
        asid = need_number(line, words[4], 'the ASID', 1, 1023)
        fixed(line, 5, 'iv')
        counter = need_number(line, words[6], 'the counter')
        fixed(line, 7, 'key')
        if len(words[8]) != 64 or set(words[8]) - set('0123456789abcdef'):
            line.fail(f'a key is 64 lower-case hex digits, and this one has {len(words[8])} characters')
        if asid in self.asids:
            line.fail(f'the ASID {asid} stands twice: line {self.asids[asid]} gives it to another guest')
        if len(guests) == MOST_GUESTS:
            line.fail(f'a scenario has at most {MOST_GUESTS} guests')
        self.asids[asid] = line.number
        guests[number] = Guest(number, asid, kind == 'opened', counter, bytes.fromhex(words[8]))

    def read_page(self, line: Line) -> None:
        count(line, 'page F of G at P S valid X Y Z')
        words, scenario = line.words, self.scenario
        size = 512 if words[6] == '2m' else 1
        frame = self.frame(line, words[1], 'the frame')
        fixed(line, 2, 'of')
        guest = need_number(line, words[3], 'the guest')
        fixed(line, 4, 'at')
        gpn = need_number(line, words[5], 'the guest page number', 0, (1 << 36) - 1)
        fixed(line, 6, '4k', '2m')
        if frame % size or gpn % size:
            line.fail(f"a page of 2 MB begins at multiples of 512, and {'the frame' if frame % size else 'the page number'} is none")
        valid = fixed(line, 7, 'valid', 'invalid')
        most = [need_number(line, word, 'the permissions', 0, 15) for word in words[8:]]
        if guest not in scenario.guests:
            line.fail(self.undeclared(guest))
        if not scenario.guests[guest].is_opened:
            line.fail(f'guest {guest} is `new`: it has no pages until it is launched, and only one that is `opened` has `page` lines')
        for frames, other in self.owners:
            if frames.start < frame + size and frame < frames.stop:
                line.fail(f'frame {max(frame, frames.start)} stands twice: it is of the page in line {other} already')
        for owner, gpns, other in self.gpns:
            if owner == guest and gpns.start < gpn + size and gpn < gpns.stop:
                line.fail(f'page {hex_of(max(gpn, gpns.start))} of guest {guest} stands twice: line {other} has it already')
        self.owners.append((range(frame, frame + size), line.number))
        self.gpns.append((guest, range(gpn, gpn + size), line.number))
        scenario.pages.append(Page(frame, guest, gpn, size == 512, valid == 'valid', (15, most[0], most[1], most[2])))

    def undeclared(self, guest: int) -> str:
        many = len(self.scenario.guests)
        return f"guest {guest} isn't declared: " + (f'guests 1 to {many} are' if many else 'there is no `guest` line')

    def frame(self, line: Line, word: str, what: str) -> int:
        value = need_number(line, word, what)
        if value >= self.scenario.frames:
            line.fail(f'{what} {word} is outside memory, which has frames 0 to {self.scenario.frames - 1}')
        return value

    def read_word(self, line: Line) -> None:
        count(line, 'word F I V')
        frame = self.frame(line, line.words[1], 'the frame')
        index = need_number(line, line.words[2], "the word's place", 0, 511)
        self.scenario.words[frame, index] = need_number(line, line.words[3], 'the word')

    def read_actor(self, line: Line) -> None:
        words, scenario = line.words, self.scenario
        if len(words) < 3:
            line.fail('an actor is `actor N host`, `actor N fw` or `actor N cpu G vmpl V npt F flat`')
        number = need_number(line, words[1], 'the actor')
        if number != len(scenario.actors) + 1:
            line.fail(f'actors are numbered from 1 on: this one should be {len(scenario.actors) + 1}')
        actor = Actor(number, fixed(line, 2, 'cpu', 'host', 'fw'))
        if actor.role != 'cpu':
            count(line, f'actor N {actor.role}')
        else:
            self.read_processor(line, actor)
        if len(scenario.actors) == MOST_ACTORS:
            line.fail(f'a scenario has at most {MOST_ACTORS} actors')
        scenario.actors[number] = self.actor = actor

    def read_processor(self, line: Line, actor: Actor) -> None:
        words = line.words
        if len(words) not in (9, 10):
            line.fail('a processor is `actor N cpu G vmpl V npt F flat`, or ends with `gcr3 P` or `la57 P`')
        actor.guest = need_number(line, words[3], 'the guest')
        fixed(line, 4, 'vmpl')
        actor.vmpl = need_number(line, words[5], 'the VMPL', 0, 3)
        fixed(line, 6, 'npt')
        actor.table = self.frame(line, words[7], 'the frame of the nested table')
        actor.paging = fixed(line, 8, *(('flat',) if len(words) == 9 else ('gcr3', 'la57')))
        if actor.paging == 'la57' and self.scenario.version == 1:
            line.fail('`la57` is a word of version 2: let the text begin with `snp 2`, or say `gcr3`')
        if len(words) == 10:
            actor.first_page = need_number(line, words[9], 'the page of the first table', 0, (1 << 36) - 1)
        if actor.guest not in self.scenario.guests:
            line.fail(self.undeclared(actor.guest))

    def add_item(self, line: Line) -> None:
        assert self.actor is not None
        item = read_item(line, self.actor)
        if item.word in ACCESSES and self.actor.role == 'host' and item.operands[0] >= 4096 * self.scenario.frames:
            line.fail(f'the address {line.words[1]} is outside memory, which ends below {hex_of(4096 * self.scenario.frames)}')
        self.attempts += 1 + item.retries
        if self.attempts > MOST_ATTEMPTS:
            line.fail(f'a scenario has at most {MOST_ATTEMPTS} attempts, the retries among them')
        self.actor.items.append(item)

    def read_order(self, line: Line) -> None:
        if not 2 <= len(line.words) <= ORDER_WORDS + 1:
            line.fail('an `order` line has 1 to 16 words behind `order`')
        for word in line.words[1:]:
            actor, times, many = word.partition('*')
            if not is_decimal(actor) or times and not is_decimal(many):
                hint = '; `snp-lab write` makes plain orders of such words' if word.endswith('!') or '@' in word else ''
                line.fail(f'`{word}` is neither an actor nor an actor with its count, as `1*6`{hint}')
            if times and not 1 <= int(many) <= ORDER_LIMIT:
                line.fail(f'the count of `{word}` should be 1 to {ORDER_LIMIT}')
            self.scenario.schedule.append((int(actor), int(many) if times else 1))

    def read_end(self, line: Line) -> None:
        count(line, 'end')


READERS: dict[str, Callable[[Reader, Line], None]] = {
    'snp': Reader.read_snp, 'regions': Reader.read_regions, 'guest': Reader.read_guest, 'page': Reader.read_page, 'word': Reader.read_word,
    'actor': Reader.read_actor, 'order': Reader.read_order, 'end': Reader.read_end}


def is_decimal(word: str) -> bool:
    return word.isascii() and word.isdecimal() and (word == '0' or not word.startswith('0'))


def read_skip(line: Line) -> Item:
    words = line.words
    if len(words) not in (4, 5):
        line.fail('a skip is `skip N if ok`, `skip N if bad` or `skip N if value V`')
    many = need_number(line, words[1], 'the count', 1, 8192)
    fixed(line, 2, 'if')
    if len(words) == 4:
        return Item(line.text, 'skip', (many,), test=fixed(line, 3, 'ok', 'bad'))
    fixed(line, 3, 'value')
    return Item(line.text, 'skip', (many, need_number(line, words[4], 'the value')), test='value')


def read_item(line: Line, actor: Actor) -> Item:
    words = line.words
    if words[0] == 'skip':
        return read_skip(line)
    if words[0] not in FORMS:
        line.fail(f'`{words[0]}` is no item of {ROLE_NAMES[actor.role]}{close_word(words[0], list(FORMS) + list(SECTIONS))}')
    roles = ('cpu', 'host') if words[0] in ACCESSES else (ROLE_OF.get(words[0], 'fw'),)
    if actor.role not in roles:
        line.fail(f'`{words[0]}` is no item of {ROLE_NAMES[actor.role]}, which actor {actor.number} is: it is one of {ROLE_NAMES[roles[0]]}')
    retries = 0
    if len(words) >= 3 and words[-2] == 'retry':
        if words[0] not in RETRIED:
            line.fail(f'`{words[0]}` has no retries')
        retries = need_number(line, words[-1], 'the count of retries', 1, 255)
        words = words[:-2]
    form, ranges = FORMS[words[0]]
    names = form.split()
    if len(words) != len(names) + 1:
        line.fail(f'`{words[0]} {form}` has {len(names)} operands, and this line has {len(words) - 1}')
    return Item(line.text, words[0], tuple(operand(line, name, word, ranges) for name, word in zip(names, words[1:])), retries)


def operand(line: Line, name: str, word: str, ranges: dict[str, tuple[int, int]]) -> int:
    """The number of an operand, by its name in the form of its item; a size is 4 or 2."""
    if name == 'S':
        if word not in ('4k', '2m'):
            line.fail(f'the size should be `4k` or `2m`, and is `{word}`')
        return 4 if word == '4k' else 2
    value = need_number(line, word, f'{name} of `{line.words[0]} {FORMS[line.words[0]][0]}`', *ranges.get(name, (0, ANY)))
    if name == 'A' and value % 8:
        line.fail(f'the address {word} is no multiple of 8, as words stand at')
    return value


def parse(text: str, name: str) -> Scenario:
    """A scenario from its text."""
    reader = Reader(Scenario(name))
    ended = 0
    for line in told_lines(text, name):
        if ended:
            line.fail(f'nothing may stand behind `end`, which is line {ended}')
        reader.read(line)
        ended = line.number if line.words[0] == 'end' else 0
    if not ended:
        raise Complaint("the text ends without its line `end`", name, text.count('\n') + 1)
    if not text.rstrip('\n').endswith('end') or text.endswith('\n\n'):
        raise Complaint(f'nothing may stand behind `end`, which is line {ended}, not even a comment or an empty line', name, ended + 1)
    return reader.scenario


def runs_of(actors: Iterable[int]) -> list[tuple[int, int]]:
    """Actors as runs, each as long as possible."""
    return [(actor, len(list(same))) for actor, same in groupby(actors)]


def order_lines(runs: list[tuple[int, int]], short: bool = False) -> list[str]:
    """The `order` lines of runs; where they are to be short, one event is `A` in place of `A*1`."""
    words = [f'{actor}' if short and many == 1 else f'{actor}*{many}' for actor, many in runs]
    return ['order ' + ' '.join(words[k:k + ORDER_WORDS]) for k in range(0, len(words), ORDER_WORDS)]


def without_order(text: str) -> list[str]:
    """The lines of a scenario's text up to its `order` lines or its `end`, without comments behind them."""
    kept: list[str] = []
    for line in text.split('\n'):
        if line == 'end' or line.startswith('order '):
            break
        kept.append(line)
    return kept


def with_order(text: str, runs: list[tuple[int, int]]) -> str:
    """The scenario's text with these `order` lines in place of its own."""
    return '\n'.join(without_order(text) + order_lines(runs) + ['end']) + '\n'


def is_number(word: str) -> bool:
    return number_of(word) is not None
