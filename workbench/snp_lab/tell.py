"""Each event of a report in words: what was done, how it ended, which row of which table decided, and who gets the fault."""
from __future__ import annotations

from collections.abc import Callable
from dataclasses import dataclass, field
from typing import Optional

from . import codes, commands, seals, updates
from .codes import Row
from .entries import Facts
from .machine import Attempt, Watch, entry_frame
from .report import Event
from .scenario import ACCESSES, Actor, Item, Scenario
from .texts import hex_of, number_of, page_of

Decision = tuple[Optional[Row], str]


@dataclass
class Told:
    """What is said of one event."""
    event: Event
    item: str
    who: str
    words: list[str] = field(default_factory=list)
    outcome: str = ''
    decided: str = ''
    because: str = ''
    receiver: str = ''
    misfit: str = ''

    @property
    def lines(self) -> list[str]:
        """The explanation as lines of text."""
        event = self.event
        again = f', attempt {event.attempt}' if event.attempt else ''
        lines = [f'event {event.number}: actor {event.actor} ({self.who}), item {event.item} `{self.item}`{again}', '  ' + event.text]
        lines += ['  ' + words for words in self.words]
        named = (('outcome', self.outcome), ('decided by', self.decided), ('because', self.because), ('goes to', self.receiver),
                 ('misfit', self.misfit))
        return lines + [f'  {name}: {text}' for name, text in named if text]


def nested_index(gpn: int, level: int) -> int:
    return (gpn >> 9 * (level - 1)) % 512


def bits_words(word: int, names: tuple[tuple[int, str], ...]) -> str:
    return ', '.join(name if word >> place & 1 else 'not ' + name for place, name in names)


APART = 'report and scenario don\'t belong together'
# How an access ends that is let through.
ANSWERS = {'load': 'load', 'store': 'store', 'swap': 'swap', 'xor': 'swap', 'cas': 'cas'}
NESTED_NAMES = ((0, 'present'), (1, 'writable'), (2, 'user'))
GUEST_NAMES = ((0, 'present'), (1, 'writable'))


def quoted(expected: str) -> str:
    """What an event should have ended with."""
    return f'`{expected}`' if expected else 'let through'


def deeds_of(item: Item, actor: Actor) -> tuple[str, ...]:
    """The kinds of events that an item may have."""
    if item.word == 'skip':
        return ('skip',)
    if actor.role == 'host':
        return ('host',) if item.word in ACCESSES else ('lock', 'commit')
    if actor.role == 'fw':
        return 'lock', 'lockg', 'compute', 'commit', 'commitg'
    return ('begin', 'npt', 'gpt', 'data') if item.word in ACCESSES else ('begin', 'npt', 'gpt', 'lock', 'commit')


class Teller:
    """Tells the events of one report one after the other."""

    def __init__(self, scenario: Scenario) -> None:
        self.watch = Watch(scenario)
        self.scenario = scenario

    def tell(self, event: Event) -> Told:
        """What is to be said of the next event."""
        actor, item = self.watch.actor_of(event), self.watch.item_of(event)
        told = Told(event, item.text if item else '?', actor.title if actor else 'not in this scenario')
        if actor is None or item is None:
            told.misfit = f'the scenario has no item {event.item} of actor {event.actor}: {APART}'
            return told
        if event.kind not in deeds_of(item, actor):
            told.misfit = f'`{item.word}` has no such event: {APART}'
            return told
        if event.attempt > item.retries:
            told.misfit = f'`{item.word}` has {item.retries} retries, and this is attempt {event.attempt}, from 0: {APART}'
        attempt = self.watch.open_attempt(event)
        DEED_WORDS[event.kind](self, told, attempt, actor, item)
        if event.outcome:
            told.outcome = codes.outcome_words(event.outcome, event.kind) + retry_words(event, item)
            self.decide(told, attempt, actor, item)
        if item.word in updates.INSTRUCTIONS:
            self.decide_update(told, attempt, item)
        if item.word in commands.COMMANDS:
            self.decide_command(told, attempt, item)
        self.watch.take(event)
        return told

    def decide(self, told: Told, attempt: Attempt, actor: Actor, item: Item) -> None:
        """Which row decided, why, and who gets the fault."""
        event = told.event
        told.receiver = receiver(event)
        decision: Decision | None = None
        if event.kind == 'npt':
            decision = self.nested_decision(told, event, attempt, item)
        elif event.kind == 'gpt' and event.deed[3] != '-':
            decision = self.guest_decision(told, event, item)
        elif event.kind in ('data', 'gpt', 'host'):
            decision = self.check_decision(told, event, attempt, actor, item)
        elif event.kind == 'begin':
            decision = self.begin_decision(told, event, actor, item)
        elif event.kind == 'lock':
            decision = self.lock_decision(event, attempt, actor, item)
        elif event.kind == 'commit' and event.outcome[2:] == ('cf', '1'):
            decision = None, f'Validated was {item.operands[2]} already'
        if decision is not None:
            told.decided = str(decision[0]) if decision[0] is not None else ''
            told.because = decision[1]

    # Walks

    def nested_decision(self, told: Told, event: Event, attempt: Attempt, item: Item) -> Decision | None:
        """The row of a nested walk that ended an attempt at a read."""
        decision = self.nested_row(event, attempt, item)
        writes = item.writes or not attempt.is_final
        code = 4 | (2 if writes else 0) | (0x100000000 if attempt.is_final else 0x200000000)
        code |= 0x400000000 if attempt.is_private or not attempt.is_final else 0
        code |= 0 if decision is None or decision[0] is codes.NESTED_NOT_PRESENT else 1
        expected = 'let through' if decision is None else f'`npf 0x{code:x}`'
        if expected.strip('`') != event.answer:
            told.misfit = f'by the scenario this should be {expected}: {APART}'
            return None
        return decision

    def nested_row(self, event: Event, attempt: Attempt, item: Item) -> Decision | None:
        """The first row of a nested walk that applies to the word that was read, and why."""
        word = int(event.deed[2], 0)
        below = self.frame_below(word, attempt)
        facts = self.watch.facts_of(event.frame)
        if not word & 1:
            is_hidden = facts is not None and facts.assigned
            zero = (f': {self.watch.entry_words(event.frame)}, so that the walker reads 0 '
                    f'there{self.watch.change_words(event.frame)}') if is_hidden else ''
            return codes.NESTED_NOT_PRESENT, f'the word {event.deed[2]} has bit 0 clear{zero}'
        if below >= self.scenario.frames:
            return codes.NESTED_NOT_PRESENT, (f'frame {below}, which the word {event.deed[2]} names, is outside memory, which has '
                                              f'{self.scenario.frames} frames')
        if not word & 4:
            return codes.NESTED_USER, f'the word {event.deed[2]} has bit 2 clear'
        if word & 2 or attempt.is_final and not item.writes:
            return None
        why = 'the walk is of a guest table\'s address' if not attempt.is_final else f'`{item.word}` writes'
        return codes.NESTED_WRITE, f'the word {event.deed[2]} has bit 1 clear, and {why}'

    def frame_below(self, word: int, attempt: Attempt) -> int:
        below = entry_frame(word)
        if attempt.level == 2 and word & 0x80 and attempt.gpn is not None:
            return below - below % 512 + attempt.gpn % 512
        return below

    def guest_decision(self, told: Told, event: Event, item: Item) -> Decision | None:
        """The row of a guest walk that ended an attempt at a table's word."""
        word = int(event.deed[3], 0)
        write = 2 if item.writes else 0
        if not word & 1:
            expected, decision = f'pf 0x{write:x}', (codes.GUEST_NOT_PRESENT, f"the guest's own entry {event.deed[3]} has bit 0 clear")
        else:
            expected = 'pf 0x3' if write and not word & 2 else ''
            decision = codes.GUEST_WRITE, f"the guest's own entry {event.deed[3]} has bit 1 clear, and the access writes"
        if expected != event.answer:
            told.misfit = f'by the scenario this should be {quoted(expected)}: {APART}'
            return None
        return decision

    # Checks of the RMP

    def check_decision(self, told: Told, event: Event, attempt: Attempt, actor: Actor, item: Item) -> Decision | None:
        """The row of the RMP's table that refused or hid an access; none where it passed."""
        facts = self.watch.facts_of(event.frame)
        if facts is None:
            return None, self.watch.entry_words(event.frame)
        if event.kind == 'host' or event.kind == 'data' and event.deed[3] == 's':
            row = self.open_row(facts, item, codes.HOST if event.kind == 'host' else codes.SHARED)
        else:
            is_read = event.kind == 'gpt'
            row = self.private_row(facts, event.place[0], attempt.leaf_is_large, actor, not is_read and item.writes,
                                   is_read or item.word != 'store')
        expected = self.expected(row, event, item)
        passed = event.outcome[0] not in ('npf', 'pf', 'vc', 'opaque')
        if (expected is None) != passed or expected is not None and expected != event.outcome:
            told.misfit = f"by the scenario this should be {quoted(' '.join(expected or ()))}: {APART}"
            return None
        if row is None:
            return self.origin(told, event, item)
        return row, self.check_words(row, facts, event, actor, item) + self.watch.change_words(event.frame)

    def private_row(self, facts: Facts, gpn: int, leaf_is_large: bool, actor: Actor, is_write: bool, is_read: bool) -> Row | None:
        needs = (1 if is_read else 0) | (2 if is_write else 0)
        refused = (not facts.assigned or facts.asid != self.scenario.guests[actor.guest].asid, facts.gpn != gpn, facts.immutable,
                   not facts.is_large and leaf_is_large, not facts.validated, facts.permissions[actor.vmpl] & needs != needs)
        return next((row for row, applies in zip(codes.PRIVATE, refused) if applies), None)

    @staticmethod
    def open_row(facts: Facts, item: Item, table: list[Row]) -> Row | None:
        return None if not facts.assigned else table[0 if item.writes else 1]

    def expected(self, row: Row | None, event: Event, item: Item) -> tuple[str, ...] | None:
        """The outcome that a row gives."""
        if row is None:
            return None
        if row in (codes.SHARED[1], codes.HOST[1]) and not item.writes:
            return ('opaque',)
        if event.kind == 'host':
            return 'pf', '0x80000003'
        if row is codes.PRIVATE[4]:
            return 'vc', '0x404'
        code = 0x80000005 | (0x200000002 if event.kind == 'gpt' else 0x100000000 | (2 if item.writes else 0))
        code |= 0 if event.kind == 'data' and event.deed[3] == 's' else 0x400000000
        code |= 0x1000000000 if row is codes.PRIVATE[5] else 0
        return 'npf', f'0x{code:x}'

    def check_words(self, row: Row, facts: Facts, event: Event, actor: Actor, item: Item) -> str:
        entry = self.watch.entry_words(event.frame)
        guest = actor.guest
        if row is codes.PRIVATE[0]:
            return f'{entry}, and the access is of guest {guest}'
        if row is codes.PRIVATE[1]:
            return f'{entry}, and page {page_of(event.place[0])} was asked'
        if row is codes.PRIVATE[3]:
            return f'{entry}, a page of 4 KB, and the nested leaf is of 2 MB'
        if row is codes.PRIVATE[5]:
            return (f"{entry}, where VMPL{actor.vmpl} has the permissions {facts.permissions[actor.vmpl]}, and `{item.word}` needs "
                    f"{'bit 0' if event.kind == 'gpt' or item.word == 'load' else 'bit 1' if item.word == 'store' else 'bits 0 and 1'}")
        if event.kind in ('host', 'data') and row in codes.HOST + codes.SHARED:
            loads = 'the access loads: what a machine would show is no word of the guest'
            return f"{entry}, and {'the access writes' if item.writes else loads}"
        return entry

    def origin(self, told: Told, event: Event, item: Item) -> Decision | None:
        """Where a word that was read comes from."""
        if event.kind == 'gpt':
            return None
        if event.outcome[0] != ANSWERS.get(item.word):
            told.misfit = f"`{item.word}` doesn't end so: {APART}"
        if event.outcome[0] not in ('load', 'swap', 'cas'):
            return None
        key = (event.frame, event.place[1])
        written = self.watch.last_write.get(key)
        refill = self.watch.refill_words(event.frame, -1 if written is None else written)
        stands = hex_of(self.watch.memory.word(*key))
        if event.outcome[1] != stands:
            told.misfit = f'by the scenario this word should be {stands}: {APART}'
        if refill:
            return None, refill
        if written is not None:
            return None, f'event {written} wrote this word'
        if key in self.scenario.words:
            return None, 'the word is that of the opening'
        return None, 'nobody wrote this word since the opening' if event.outcome[1] == '0x0' else ''

    # Begins, locks and contexts

    def begin_decision(self, told: Told, event: Event, actor: Actor, item: Item) -> Decision | None:
        if event.outcome[0] == 'offline':
            return codes.OFFLINE, f"guest {actor.guest} is {self.watch.states.get(actor.guest, '?')}"
        address = item.operands[0]
        low = 56 if actor.paging == 'la57' else 47
        top = address >> low
        if event.outcome[0] == 'gp' and top not in (0, (1 << 64 - low) - 1):
            return codes.CANONICAL, f"bits 63:{low} of 0x{address:x} aren't all equal"
        if event.outcome[0] == 'gp' and item.word == 'pvalidate' and actor.vmpl:
            return codes.BEGIN['vmpl'], f'PVALIDATE is for VMPL0 alone, and this is VMPL{actor.vmpl}'
        if event.outcome[0] != 'rc' or item.word in ACCESSES:
            told.misfit = f'by the scenario this should go on: {APART}'
            return None
        if address % (4096 * (512 if item.operands[1] == 2 else 1)):
            return codes.BEGIN['align'], f"0x{address:x} isn't a multiple of {'2 MB' if item.operands[1] == 2 else '4 KB'}"
        if item.word != 'rmpadjust':
            return None
        return codes.BEGIN['target' if event.outcome[1] == '2' else 'mask'], (f'target VMPL {item.operands[2]}, mask {item.operands[3]}, by '
                                                                              f'VMPL{actor.vmpl}')

    def lock_decision(self, event: Event, attempt: Attempt, actor: Actor, item: Item) -> Decision | None:
        if item.word in updates.INSTRUCTIONS:
            return None
        return None if item.word in commands.COMMANDS else self.validate_words(event, attempt, actor, item)

    def decide_command(self, told: Told, attempt: Attempt, item: Item) -> None:
        """The row that refused a lock or a compute of a command; an event that the scenario doesn't give is a misfit."""
        event = told.event
        refusal: commands.Refusal | None = None
        due = commands.deeds_of(item)[len(attempt.events):len(attempt.events) + 1]
        if event.kind in ('lock', 'lockg', 'compute') and ' '.join(event.deed) in due:
            refusal = commands.refusal_of(self.watch, event, attempt, item)
        if refusal is not None and refusal.answer == event.answer:
            told.decided, told.because = str(refusal.row), refusal.because
        elif event.outcome and not event.is_good and event.kind in ('lock', 'lockg', 'compute'):
            told.decided = str(commands.row_of_status(event) or '')
        fault = commands.fault(self.watch, event, attempt, item, refusal)
        if fault:
            told.misfit = f'by the scenario this should be {fault}: {APART}'

    def decide_update(self, told: Told, attempt: Attempt, item: Item) -> None:
        """The row of RMPUPDATE or PSMASH that refused a lock; a lock or commit that the scenario doesn't give is a misfit."""
        event = told.event
        if event.kind == 'commit':
            fault = updates.commit_fault(self.watch, event, attempt, item)
        else:
            refusal, known = updates.refusal_of(self.watch, item), updates.are_known(self.watch, item)
            fault = updates.lock_fault(event, attempt, item, refusal, known)
            if refusal is not None and refusal.answer == event.answer:
                told.decided, told.because = str(refusal.row), refusal.because
            elif event.outcome and not known:
                told.decided = str(updates.row_of_status(event, item) or '')
        if fault:
            told.misfit = f'by the scenario this should be {fault}: {APART}'

    def held_words(self, frame: int, holder: str) -> str:
        """Who holds the lock of a frame's page, and since when."""
        held = self.watch.holder(self.watch.page_frames(frame))
        return self.watch.holder_words(*held) if held is not None else f'actor {holder} holds the lock'

    def validate_words(self, event: Event, attempt: Attempt, actor: Actor, item: Item) -> Decision | None:
        frame = int(event.deed[1])
        facts = self.watch.facts_of(frame)
        entry = self.watch.entry_words(frame)
        if event.outcome[0] == 'npf' and (number_of(event.outcome[1]) or 0) >> 35 & 1:
            return codes.VALIDATE[3], entry if facts is None or facts.is_large else 'the nested leaf is of 2 MB'
        if event.outcome[0] == 'npf':
            asked = '' if attempt.gpn is None else f', and page {page_of(attempt.gpn)} of guest {actor.guest} was asked'
            return codes.VALIDATE[2], entry + asked
        if event.outcome[0] == 'vc':
            return codes.VALIDATE[5], entry
        status = number_of(event.outcome[1]) or 0
        if status == 2:
            return self.adjust_permission(facts, actor, item)
        return {1: (codes.VALIDATE[0], f'page {page_of(attempt.gpn or 0)} was asked'),
                3: (codes.VALIDATE[1], self.held_words(frame, event.outcome[-1])),
                6: (codes.VALIDATE[4], entry)}.get(status)

    def adjust_permission(self, facts: Facts | None, actor: Actor, item: Item) -> Decision | None:
        if facts is None or item.word != 'rmpadjust':
            return None
        own, mask = facts.permissions[actor.vmpl], item.operands[3]
        if mask & ~own:
            return codes.VALIDATE[6], f'the mask is {mask}, and VMPL{actor.vmpl} has {own} itself'
        return codes.VALIDATE[7], f'this is VMPL{actor.vmpl}'


def retry_words(event: Event, item: Item) -> str:
    """Whether an item that found something in use is attempted again; nothing where its line has no retries."""
    if 'by' not in event.outcome or not item.retries:
        return ''
    if event.attempt < item.retries:
        return f'; the item is attempted again, retry {event.attempt + 1} of {item.retries}'
    return '; no retry is left, and the actor goes on'


def receiver(event: Event) -> str:
    """Who gets a fault."""
    if event.outcome[0] == 'npf':
        return codes.HYPERVISOR
    if event.outcome[0] in ('gp', 'vc'):
        return codes.GUEST
    if event.outcome[0] == 'offline':
        return codes.NOBODY
    if event.outcome[0] == 'pf':
        return codes.OWN_FAULT if event.kind == 'host' else codes.GUEST
    return ''


def tell_begin(teller: Teller, told: Told, attempt: Attempt, actor: Actor, item: Item) -> None:
    if item.operands:
        address = item.operands[0]
        told.words.append(f'`{item.word}` begins at the virtual address 0x{address:x}')


def tell_nested(teller: Teller, told: Told, attempt: Attempt, actor: Actor, item: Item) -> None:
    word, level = int(told.event.deed[2], 0), attempt.level
    frame, index = told.event.place
    page = page_of(attempt.gpn) if attempt.gpn is not None else '?'
    of = 'the page that is accessed' if attempt.is_final else 'a table of the guest'
    told.words.append(f'nested walk of page {page} ({of}), level {level}: word {index} of the table in frame {frame}')
    leaf = level == 1 or level == 2 and bool(word & 0x80)
    size = '' if not leaf else f" (a leaf of {'4 KB' if level == 1 else '2 MB'})"
    told.words.append(f'the word {told.event.deed[2]} names frame {teller.frame_below(word, attempt)}{size}: '
                      f'{bits_words(word, NESTED_NAMES)}')
    if level < 1:
        told.misfit = f'a walk has no more reads than levels: {APART}'
    elif attempt.gpn is not None and nested_index(attempt.gpn, level) != index:
        told.misfit = f'by the scenario this should be word {nested_index(attempt.gpn, level)}: {APART}'


def tell_table(teller: Teller, told: Told, attempt: Attempt, actor: Actor, item: Item) -> None:
    gpn, index = told.event.place
    level = (5 if actor.paging == 'la57' else 4) - attempt.table_reads
    told.words.append(f"guest walk, level {level}: word {index} of the guest's page {page_of(gpn)}, in frame {told.event.frame}")
    if told.event.deed[3] == '-':
        told.words.append('the RMP refused the read, so that no word was read')
        return
    word = int(told.event.deed[3], 0)
    leaf = level == 1 or level == 2 and bool(word & 0x80)
    told.words.append(f"the word {told.event.deed[3]} names page {page_of(entry_frame(word))}: "
                      f"{bits_words(word, GUEST_NAMES)}{', private' if leaf and word >> 51 & 1 else ', shared' if leaf else ''}")


def tell_data(teller: Teller, told: Told, attempt: Attempt, actor: Actor, item: Item) -> None:
    gpn, index = told.event.place
    told.words.append(f"{'private' if told.event.deed[3] == 'p' else 'shared'} access to word {index} of the guest's page {page_of(gpn)}, "
                      f"in frame {told.event.frame}; {teller.watch.entry_words(told.event.frame)}")


def tell_host(teller: Teller, told: Told, attempt: Attempt, actor: Actor, item: Item) -> None:
    told.words.append(f'access of the hypervisor to word {told.event.place[1]} of frame {told.event.place[0]}; '
                      f'{teller.watch.entry_words(told.event.place[0])}')


def tell_lock(teller: Teller, told: Told, attempt: Attempt, actor: Actor, item: Item) -> None:
    if item.word in commands.COMMANDS:
        told.words.append(commands.lock_words(teller.watch, told.event, item))
        return
    if item.word in updates.INSTRUCTIONS:
        told.words.append(updates.lock_words(teller.watch, told.event, item))
        return
    frame = number_of(told.event.deed[1]) or 0
    verb = 'asks for' if told.event.outcome else 'locks'
    told.words.append(f'{verb} the page of frame {frame}; {teller.watch.entry_words(frame)}')


def tell_commit(teller: Teller, told: Told, attempt: Attempt, actor: Actor, item: Item) -> None:
    if item.word in commands.COMMANDS and told.event.is_good:
        told.words.append(commands.commit_words(teller.watch, item))
        return
    if item.word in updates.INSTRUCTIONS:
        told.words.append(updates.commit_words(teller.watch, item))
        return
    if told.event.kind == 'commitg':
        return
    told.words.append(f"frame {told.event.deed[1]}, page {told.event.deed[2]}, {'2 MB' if told.event.deed[3] == '2m' else '4 KB'}: the "
                      "change is made")


def tell_compute(teller: Teller, told: Told, attempt: Attempt, actor: Actor, item: Item) -> None:
    if item.word in seals.SEALS and item.operands[0] in teller.scenario.guests:
        told.words += seals.compute_words(teller.watch, told.event, item)


def tell_skip(teller: Teller, told: Told, attempt: Attempt, actor: Actor, item: Item) -> None:
    tests = {'ok': 'is good', 'bad': 'is bad', 'value': f'has the value {item.operands[-1]}'}
    told.words.append(f"tests whether the last outcome of this actor {tests.get(item.test, '?')}")


DEED_WORDS: dict[str, Callable[[Teller, Told, Attempt, Actor, Item], None]] = {
    'begin': tell_begin, 'npt': tell_nested, 'gpt': tell_table, 'data': tell_data, 'host': tell_host, 'lock': tell_lock,
    'lockg': tell_lock, 'commit': tell_commit, 'commitg': tell_commit, 'compute': tell_compute, 'skip': tell_skip,
}
