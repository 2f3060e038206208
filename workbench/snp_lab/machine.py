"""What scenario and report together say of the machine at each event: the RMP entries, the locks, the guests, the open attempts.

This follows the report and computes no run: it makes no event of its own, and asks of each one of the report what it finds and
changes. A fact that the two don't determine is None.
"""
from __future__ import annotations

from collections.abc import Callable
from dataclasses import dataclass, field, replace
from typing import Any

from . import seals
from .entries import FREE, LARGE, RECLAIM, Entries, Facts, Marks, frames_from, meet
from .pages import Content, Entry, Memory, Table, Words
from .report import Event
from .scenario import Actor, Item, Scenario
from .texts import page_of

ADDRESS_BITS = 0x0000FFFFFFFFF000


def entry_frame(word: int) -> int:
    """The frame or guest page that an entry of a table names."""
    return (word & ADDRESS_BITS) >> 12


@dataclass(frozen=True)
class Lock:
    """A lock that an open attempt has taken: its holder, the frames that it covers, and the event that took it."""
    actor: int
    frames: range
    event: Event


@dataclass
class Attempt:
    """An attempt, by its events so far, and what its walks have come to."""
    events: list[Event] = field(default_factory=list)
    gpn: int | None = None
    level: int = 4
    table_reads: int = 0
    is_private: bool = True
    is_final: bool = False
    leaf_is_large: bool = False
    made: seals.Made | None = None


@dataclass
class Watch:
    """The machine as far as scenario and report tell it, up to the events that were taken so far."""
    scenario: Scenario
    rmp: Entries = field(default_factory=Entries)
    locks: list[Lock] = field(default_factory=list)
    contexts: dict[int, Lock] = field(default_factory=dict)
    states: dict[int, str] = field(default_factory=dict)
    bound: dict[int, bool] = field(default_factory=dict)
    attempts: dict[int, Attempt] = field(default_factory=dict)
    memory: Memory = field(default_factory=Memory)
    counters: dict[int, int] = field(default_factory=dict)
    roots: dict[int, Entry | None] = field(default_factory=dict)
    archive: dict[tuple[int, int], Content] = field(default_factory=dict)
    last_write: dict[tuple[int, int], int] = field(default_factory=dict)
    commits: dict[int, Event] = field(default_factory=dict)
    last_change: Marks = field(default_factory=Marks)
    last_refill: Marks = field(default_factory=Marks)
    refills: dict[tuple[int, int], str] = field(default_factory=dict)

    def __post_init__(self) -> None:
        for guest in self.scenario.guests.values():
            self.states[guest.number] = 'running' if guest.is_opened else 'absent'
            self.bound[guest.number] = guest.is_opened
            self.counters[guest.number] = guest.counter
        for page in self.scenario.pages:
            asid = self.scenario.guests[page.guest].asid
            facts = Facts(True, page.is_large, False, page.gpn, asid, False, page.is_valid, page.permissions)
            self.rmp.put(frames_from(page.frame, page.is_large), facts)
        for (frame, index), word in self.scenario.words.items():
            self.memory.write(frame, index, word)

    def facts_of(self, frame: int) -> Facts | None:
        return self.rmp.at(frame)

    def actor_of(self, event: Event) -> Actor | None:
        return self.scenario.actors.get(event.actor)

    def item_of(self, event: Event) -> Item | None:
        actor = self.actor_of(event)
        return actor.items[event.item] if actor is not None and event.item < len(actor.items) else None

    def page_frames(self, frame: int) -> range:
        """The frames of the page in which a frame stands."""
        facts = self.facts_of(frame)
        is_large = facts is not None and facts.is_large
        return frames_from(frame - frame % LARGE if is_large else frame, is_large)

    def lock_frames(self, item: Item, frame: int) -> range:
        """The frames that a lock covers: the range of RMPUPDATE, and else the page in which the frame stands."""
        return item.frames if item.word == 'rmpupdate' else self.page_frames(frame)

    def holder(self, frames: range) -> tuple[int, Lock] | None:
        """The lowest locked frame of a range, with its lock."""
        held = [(max(lock.frames.start, frames.start), lock) for lock in self.locks if meet(lock.frames, frames)]
        return min(held, key=lambda one: one[0]) if held else None

    def holder_words(self, frame: int, lock: Lock) -> str:
        """Who holds a lock, and since when."""
        return (f'actor {lock.actor} holds the lock of frame {frame}, which event {lock.event.number} took for '
                f'`{self.item_text(lock.event)}`')

    def context_holder_words(self, guest: int, lock: Lock) -> str:
        return (f'actor {lock.actor} holds the lock of the context of guest {guest}, which event {lock.event.number} took for '
                f'`{self.item_text(lock.event)}`')

    def change_words(self, frame: int) -> str:
        """Who changed the entry of a frame last; nothing where it is that of the opening."""
        number = self.last_change.at(frame)
        if number is None:
            return ''
        event = self.commits[number]
        return f'; event {number}, `{self.item_text(event)}` of actor {event.actor}, changed the entry last'

    def item_text(self, event: Event) -> str:
        item = self.item_of(event)
        return item.text if item is not None else '?'

    def guest_name(self, asid: int) -> str:
        """Whose an ASID is, in words."""
        for guest in self.scenario.guests.values():
            if guest.asid == asid:
                return f'guest {guest.number}'
        return f'ASID {asid}'

    def entry_words(self, frame: int) -> str:
        """The entry of a frame in words: `frame 9 is page 0x1 of guest 1`."""
        facts = self.facts_of(frame)
        if facts is None:
            return f"frame {frame} has an entry that the report doesn't tell"
        if not facts.assigned:
            return f"frame {frame} is nobody's"
        if facts.asid == 0:
            return f"frame {frame} is the firmware's ({facts.state})"
        more = ([] if not facts.is_large else ['in a page of 2 MB']) + ([] if facts.validated else ['not validated']) \
            + (['immutable'] if facts.immutable else [])
        return ', '.join([f'frame {frame} is page {page_of(facts.gpn)} of {self.guest_name(facts.asid)}'] + more)

    def open_attempt(self, event: Event) -> Attempt:
        """The attempt of an event, with the state of its walks before the event."""
        known = self.attempts.get(event.actor)
        if known is not None and known.events and (known.events[0].item, known.events[0].attempt) == (event.item, event.attempt):
            return known
        made = Attempt()
        self.attempts[event.actor] = made
        self.release(event.actor)
        actor, item = self.actor_of(event), self.item_of(event)
        if actor is None or actor.role != 'cpu' or item is None or item.word == 'skip':
            return made
        if actor.paging == 'flat':
            made.gpn, made.is_final = (item.operands[0] >> 12) & ((1 << 36) - 1), True
        else:
            made.gpn = actor.first_page
        return made

    def take(self, event: Event) -> None:
        """Goes on behind an event."""
        attempt = self.open_attempt(event)
        attempt.events.append(event)
        if event.kind == 'npt':
            word = int(event.deed[2], 0)
            if attempt.level == 2 and word & 0x80:
                attempt.leaf_is_large = True
            attempt.level -= 1
        elif event.kind == 'gpt' and not event.outcome and event.deed[3] != '-':
            self.take_table(event, attempt)
        elif event.kind == 'lock' and not event.outcome:
            self.take_lock(event)
        elif event.kind == 'lockg' and not event.outcome:
            self.contexts[int(event.deed[1])] = Lock(event.actor, range(0), event)
        elif event.kind == 'compute' and not event.outcome:
            self.take_compute(event, attempt)
        if event.outcome:
            if event.kind in ('commit', 'commitg') and event.is_good:
                self.commit(event)
            if event.kind in ('data', 'host') and writes(event):
                self.take_write(event)
            self.release(event.actor)
            self.attempts.pop(event.actor, None)

    def release(self, actor: int) -> None:
        if self.locks:
            self.locks = [lock for lock in self.locks if lock.actor != actor]
        if self.contexts:
            self.contexts = {guest: lock for guest, lock in self.contexts.items() if lock.actor != actor}

    def take_lock(self, event: Event) -> None:
        item = self.item_of(event)
        if item is not None:
            self.locks.append(Lock(event.actor, self.lock_frames(item, int(event.deed[1])), event))

    def take_compute(self, event: Event, attempt: Attempt) -> None:
        item = self.item_of(event)
        if item is not None and item.word in seals.SEALS and item.operands[0] in self.scenario.guests:
            attempt.made = seals.made_by(self, event, item)

    def take_write(self, event: Event) -> None:
        """The word that an access has written."""
        item, (_, index) = self.item_of(event), event.place
        self.last_write[event.frame, index] = event.number
        if item is not None and item.word in WRITTEN:
            self.memory.write(event.frame, index, WRITTEN[item.word](item, self.memory.word(event.frame, index)))

    def take_table(self, event: Event, attempt: Attempt) -> None:
        """The guest walk behind a table's word that let it go on."""
        actor, item = self.actor_of(event), self.item_of(event)
        word = int(event.deed[3], 0)
        attempt.table_reads += 1
        level = (5 if actor is not None and actor.paging == 'la57' else 4) - attempt.table_reads + 1
        below = entry_frame(word)
        if level == 1 or level == 2 and word & 0x80:
            attempt.is_final = True
            attempt.is_private = bool(word >> 51 & 1) or item is not None and item.word in ('pvalidate', 'rmpadjust')
            if level == 2 and item is not None:
                below = below - below % LARGE + (item.operands[0] >> 12) % LARGE
        attempt.gpn, attempt.level, attempt.leaf_is_large = below, 4, False

    def change(self, frames: range, event: Event, **fields: Any) -> None:
        self.rmp.change(frames, **fields)
        self.note_change(frames, event)

    def put(self, frames: range, event: Event, facts: Facts | None) -> None:
        self.rmp.put(frames, facts)
        self.note_change(frames, event)

    def note_change(self, frames: range, event: Event) -> None:
        self.commits[event.number] = event
        self.last_change.put(frames, event.number)

    def commit(self, event: Event) -> None:
        """What a commit changes of entries and guests, by the tables of docs/MODEL.md."""
        item, actor = self.item_of(event), self.actor_of(event)
        if item is None or actor is None:
            return
        attempt = self.attempts.get(event.actor)
        made = attempt.made if attempt is not None else None
        if item.word in seals.SEALS:
            refilled = seals.refills(self, item, made, ZEROED)
        else:
            refilled = REFILLS[item.word](self, item) if item.word in REFILLS else {}
        change = COMMITS.get(item.word)
        if change is not None:
            change(self, event, item, actor)
        elif made is not None:
            seals.commit(self, event, item, made)
        for frames, words in refilled.items():
            self.commits[event.number] = event
            self.last_refill.put(frames, event.number)
            self.refills[event.number, frames.start] = words

    def refill_words(self, frame: int, since: int) -> str:
        """Which commit behind an event changed the words of a whole frame; nothing where none did."""
        number = self.last_refill.at(frame)
        if number is None or number < since:
            return ''
        event = self.commits[number]
        return f'event {number}, `{self.item_text(event)}` of actor {event.actor}, {self.refilled(number, frame)}'

    def refilled(self, number: int, frame: int) -> str:
        """What a commit did to all words of a frame."""
        of_page = [words for (event, first), words in self.refills.items() if event == number and first in (frame, frame - frame % LARGE)]
        return of_page[-1] if of_page else 'took the frame from its owner, and its words became zero'


ZEROED = 'words became zero'


def refills_of_launch(watch: Watch, item: Item) -> dict[range, str]:
    return {only(item.operands[1]): 'launched the frame as a ZERO page, and its ' + ZEROED} if item.operands[2] == 3 else {}


def refills_of_move(watch: Watch, item: Item) -> dict[range, str]:
    _, source, target = item.operands
    return {only(source): f"moved the page away to frame {target}, and the frame's {ZEROED}",
            only(target): f'moved the words here from frame {source}'}


def refills_of_reclaim(watch: Watch, item: Item) -> dict[range, str]:
    facts = watch.facts_of(item.operands[0])
    if facts is None or facts.asid:
        return {}
    return {watch.page_frames(item.operands[0]): 'took the frame back from the firmware, and its ' + ZEROED}


# Which frames' words a command of the firmware changes as a whole, and how; told before its commit.
REFILLS: dict[str, Callable[[Watch, Item], dict[range, str]]] = {
    'launch_update': refills_of_launch, 'page_move': refills_of_move, 'page_reclaim': refills_of_reclaim,
    'md_init': lambda watch, item: {only(item.operands[0]): 'made a metadata page of the frame, and its ' + ZEROED}}

# The word that an item writes, by the word before it.
WRITTEN: dict[str, Callable[[Item, int], int]] = {
    'store': lambda item, old: item.operands[1], 'swap': lambda item, old: item.operands[1],
    'xor': lambda item, old: old ^ item.operands[1], 'cas': lambda item, old: item.operands[2]}


def writes(event: Event) -> bool:
    """Whether an access has changed its word, or may have."""
    return event.outcome[:1] in (('store',), ('swap',)) or event.outcome[:1] == ('cas',) and event.outcome[2:] == ('yes',)


def only(frame: int) -> range:
    return range(frame, frame + 1)


def commit_update(watch: Watch, event: Event, item: Item, actor: Actor) -> None:
    old = watch.facts_of(item.operands[0])
    if old is not None and makes_immutable(item, old):
        watch.change(item.frames, event, immutable=True, **({'kind': 'Firmware'} if item.operands[3] == 0 else {}))
        return
    watch.put(item.frames, event, updated_facts(item))
    # a range of 2 MB is assigned as a whole, or none of its frames is
    if old is not None and old.assigned:
        watch.last_refill.put(item.frames, event.number)
        watch.memory.clear(item.frames)


def makes_immutable(item: Item, old: Facts) -> bool:
    """Whether an RMPUPDATE finds its page as it asks for it, and makes it immutable alone."""
    _, size, assigned, asid, gpn, immutable = item.operands
    return bool(old.assigned and assigned and old.asid == asid and old.gpn == gpn and old.is_large == (size == 2)
                and not old.immutable and immutable)


def updated_facts(item: Item) -> Facts:
    """The facts of the first frame behind an RMPUPDATE that doesn't find its page as it asks for it."""
    _, size, assigned, asid, gpn, immutable = item.operands
    if not assigned:
        return FREE
    return Facts(True, size == 2, bool(immutable), gpn, asid, False, False, (15, 0, 0, 0) if asid else (0, 0, 0, 0),
                 'Firmware' if asid == 0 and immutable else 'Plain')


def commit_smash(watch: Watch, event: Event, item: Item, actor: Actor) -> None:
    watch.change(item.frames, event, is_large=False)


def commit_validate(watch: Watch, event: Event, item: Item, actor: Actor) -> None:
    if event.outcome[2:] == ('cf', '0'):
        watch.change(watch.page_frames(event_frame(event)), event, validated=bool(item.operands[2]))


def commit_adjust(watch: Watch, event: Event, item: Item, actor: Actor) -> None:
    _, _, target, mask, vmsa = item.operands
    facts = watch.facts_of(event_frame(event))
    if facts is None:
        return
    permissions = list(facts.permissions)
    permissions[target] = mask
    watch.change(watch.page_frames(event_frame(event)), event, permissions=tuple(permissions),
                 **({'vmsa': bool(vmsa)} if actor.vmpl == 0 else {}))


def event_frame(event: Event) -> int:
    return int(event.deed[1])


def commit_launch(watch: Watch, event: Event, item: Item, actor: Actor) -> None:
    watch.change(only(item.operands[1]), event, immutable=False, validated=True, permissions=(15,) + item.operands[4:7])
    if item.operands[2] == 3:
        watch.memory.clear(only(item.operands[1]))


def commit_context(watch: Watch, event: Event, item: Item, actor: Actor) -> None:
    guest = item.operands[0]
    state = {'gctx_create': 'init', 'launch_start': 'launching', 'launch_finish': 'running'}.get(item.word)
    if state is not None:
        watch.states[guest] = state
    if item.word == 'gctx_create':
        watch.change(only(item.operands[1]), event, kind='Context')
    if item.word == 'activate':
        watch.bound[guest] = True


def commit_metadata(watch: Watch, event: Event, item: Item, actor: Actor) -> None:
    watch.change(only(item.operands[0]), event, kind='Metadata')
    watch.memory.put(item.operands[0], Table())


def commit_move(watch: Watch, event: Event, item: Item, actor: Actor) -> None:
    _, source, target = item.operands
    watch.put(only(target), event, watch.facts_of(source))
    watch.memory.put(target, watch.memory.at(source))
    watch.memory.put(source, Words())
    watch.change(only(source), event, vmsa=False, validated=False, immutable=True, permissions=(15, 0, 0, 0))


def commit_reclaim(watch: Watch, event: Event, item: Item, actor: Actor) -> None:
    frames = watch.page_frames(item.operands[0])
    facts = watch.facts_of(item.operands[0])
    if facts is None:
        return
    if facts.asid == 0:
        watch.put(frames, event, replace(RECLAIM, is_large=facts.is_large))
        watch.memory.clear(frames)
    else:
        watch.change(frames, event, immutable=False)


COMMITS = {
    'rmpupdate': commit_update, 'psmash': commit_smash, 'pvalidate': commit_validate, 'rmpadjust': commit_adjust,
    'gctx_create': commit_context, 'activate': commit_context, 'launch_start': commit_context, 'launch_finish': commit_context,
    'launch_update': commit_launch, 'md_init': commit_metadata, 'page_move': commit_move, 'page_reclaim': commit_reclaim,
}
