"""What decides how a run may go on, as far as reports tell it: equal keys have equal futures.

Of each actor that is where it stands: its item and attempt, the events of the attempt with all that they have read, and what
skips may test. Of memory it is the words that were stored, by their values, and for each frame or guest's context that a commit has
changed the commit with all that it looked at. Locks are those of the attempts that are under way. What an event shows in its
line needn't be ordered further: its effect follows from the line and from what it changes; a compute, which shows nothing of
the page that it reads, keeps what stood there.
"""
from __future__ import annotations

import hashlib
from collections.abc import Hashable
from dataclasses import dataclass, field

from .entries import LARGE
from .report import Event
from .scenario import Actor, Item, Scenario
from .seals import SEALS
from .texts import number_of
from .touches import Ranges, Touch

WORD = (1 << 64) - 1


@dataclass(frozen=True, eq=False)
class Step:
    """An event without its number: its line, what it touches, the item that its actor is at behind it, and which patterns it is like."""
    event: Event
    line: str
    touch: Touch
    next_item: int
    likes: int = 0
    # the actor and its item, and how the attempt ended: nothing where it goes on
    key: tuple[int, int] = (0, 0)
    answer: str = ''


def written_value(step: Step, item: Item) -> int:
    """The word that an access has stored."""
    if item.word == 'xor':
        return (number_of(step.event.outcome[1]) or 0) ^ item.operands[1]
    return item.operands[2 if item.word == 'cas' else 1] & WORD


def changed_by(step: Step) -> Ranges:
    """The frames that a commit changes; of an instruction of a guest those that its line names."""
    if not step.touch.everything:
        return step.touch.changes
    frame = int(step.event.deed[1])
    start = frame - frame % LARGE
    return (range(start, start + LARGE) if step.event.deed[3] == '2m' else range(frame, frame + 1),)


@dataclass
class Names:
    """Small numbers for large keys, so that equal ones are told fast."""
    known: dict[Hashable, int] = field(default_factory=dict)

    def of(self, key: Hashable) -> int:
        return self.known.setdefault(key, len(self.known) + 1)


class State:
    """The state behind the events that it has taken."""

    def __init__(self, scenario: Scenario, names: Names, keeps_wholes: bool, keeps_memory: bool) -> None:
        self.scenario, self.names, self.keeps_wholes, self.keeps_memory = scenario, names, keeps_wholes, keeps_memory
        self.words: dict[int, dict[int, int]] = {}
        self.frames: dict[int, int] = {}
        self.regions: dict[int, int] = {}
        self.contexts: dict[int, int] = {}
        self.places = [0] * (len(scenario.actors) + 1)
        self.last = [''] * (len(scenario.actors) + 1)
        self.chains = [''] * (len(scenario.actors) + 1)
        self.wholes = [0] * (len(scenario.actors) + 1)
        self.items = {actor: 0 for actor in scenario.actors}
        self.begun: set[int] = set()
        self.likes = 0

    def copy(self) -> State:
        made = State.__new__(State)
        made.__dict__.update(self.__dict__)
        made.words = {frame: dict(table) for frame, table in self.words.items()}
        made.frames, made.regions, made.contexts, made.items = dict(self.frames), dict(self.regions), dict(self.contexts), dict(self.items)
        made.places, made.last, made.chains, made.wholes = list(self.places), list(self.last), list(self.chains), list(self.wholes)
        made.begun = set(self.begun)
        return made

    def key(self) -> bytes:
        """A digest of 128 bits of all of it."""
        words = sorted((frame, sorted(table.items())) for frame, table in self.words.items() if table)
        whole = (self.places, words, sorted(self.frames.items()), sorted(self.regions.items()), sorted(self.contexts.items()),
                 self.likes, self.wholes)
        return hashlib.blake2b(repr(whole).encode(), digest_size=16).digest()

    def take(self, step: Step) -> None:
        """Goes on by one event."""
        actor = self.scenario.actors[step.event.actor]
        self.likes |= step.likes
        self.go_on(actor, step, self.touch_memory(actor, step) if self.keeps_memory else None)

    def touch_memory(self, actor: Actor, step: Step) -> Hashable:
        """What an event changes of memory; of a compute what it has read."""
        event, touch = step.event, step.touch
        if event.kind == 'compute':
            return self.content(touch.looks, touch.sees)
        item = actor.items[event.item]
        if event.kind in ('commit', 'commitg'):
            made = self.places[event.actor] if item.word in SEALS else 0  # what was sealed or opened is its own, since the compute
            self.change(changed_by(step), tuple(sorted(touch.turns)), (item.text, event.deed, made))
        elif touch.writes:
            self.store(event.place, event.frame, written_value(step, item))
        return None

    def go_on(self, actor: Actor, step: Step, held: Hashable) -> None:
        """Where the actor stands behind its event."""
        event, number = step.event, step.event.actor
        self.begun.add(number)
        if not event.outcome:
            self.places[number] = self.names.of((self.places[number], step.line, held))
            return
        again = step.next_item == event.item
        if self.chains[number].split(', then ')[-1] != event.answer:
            self.chains[number] += (', then ' if self.chains[number] else '') + event.answer
        if event.kind != 'skip':
            self.last[number] = event.answer
        if not again:
            if self.keeps_wholes:
                self.wholes[number] = self.names.of((self.wholes[number], event.item, self.chains[number]))
            self.chains[number] = ''
            self.begun.discard(number)
        self.items[number] = step.next_item
        may_skip = any(item.word == 'skip' for item in actor.items[step.next_item:])
        self.places[number] = self.names.of((number, step.next_item, event.attempt + 1 if again else 0, self.chains[number],
                                             self.last[number] if may_skip else ''))

    def store(self, place: tuple[int, int], frame: int, value: int) -> None:
        index = place[1]
        is_first = frame not in self.frames and frame // LARGE not in self.regions
        if is_first and value == self.scenario.words.get((frame, index), 0):
            self.words.get(frame, {}).pop(index, None)
        else:
            self.words.setdefault(frame, {})[index] = value

    def content(self, ranges: Ranges, guests: frozenset[int]) -> Hashable:
        """What stands in frames and contexts."""
        told: list[Hashable] = []
        for frames in ranges:
            told += [(region, self.regions.get(region)) for region in {frames.start // LARGE, (frames.stop - 1) // LARGE}]
            told += [(frame, self.frames.get(frame), tuple(sorted(self.words.get(frame, {}).items())))
                     for frame in sorted(set(self.frames) | set(self.words)) if frame in frames]
        return tuple(told), tuple((guest, self.contexts.get(guest)) for guest in sorted(guests))

    def change(self, ranges: Ranges, guests: tuple[int, ...], label: Hashable) -> None:
        """A commit, whose effect follows from its label and from what stood in all that it is of."""
        made = self.names.of((label, self.content(ranges, frozenset(guests))))
        for frames in ranges:
            for frame in [one for one in set(self.frames) | set(self.words) if one in frames]:
                self.frames.pop(frame, None)
                self.words.pop(frame, None)
            if len(frames) == LARGE:
                self.regions[frames.start // LARGE] = self.names.of((made, frames.start))
            else:
                self.frames.update((frame, self.names.of((made, frame))) for frame in frames)
        for guest in guests:
            self.contexts[guest] = self.names.of((made, -guest))

    # The order between items

    def may_go(self, actor: int, waits: dict[tuple[int, int], list[tuple[int, int]]]) -> bool:
        """Whether an actor's next event may come, as far as other items have to be done before it."""
        if not waits or actor in self.begun:
            return True
        return all(self.items[other] > item for other, item in waits.get((actor, self.items[actor]), []))
