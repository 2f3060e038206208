"""What events touch of memory, and what the rest of a script may touch at most: words, RMP entries and locks.

Two events of different actors commute where neither changes what the other one looks at: what an actor does next depends on
its own part and on what it reads. Each access and each read of a walk looks at the entry of its frame. An RMPUPDATE or PSMASH
looks at entries and locks as it takes its lock; its commit changes entries, words and locks. A command of the firmware does so
with its guest's context too, whose state the begin of a guest's item looks at; a compute reads a whole page, and is held to change
it. Accesses and walks ignore locks. What the instructions of guests do is held to touch everything.
"""
from __future__ import annotations

from dataclasses import dataclass

from .commands import COMMANDS, frames_of
from .entries import LARGE, frames_from, meet
from .report import Event
from .scenario import ACCESSES, Actor, Item, Scenario
from .updates import INSTRUCTIONS, bad_operands

Place = tuple[int, int]
Ranges = tuple[range, ...]
NO_GUESTS: frozenset[int] = frozenset()


def any_meet(left: Ranges, right: Ranges) -> bool:
    return any(meet(one, other) for one in left for other in right)


@dataclass(frozen=True)
class Touch:
    """What an event touches: the words that it reads and writes, in a frame whose entry it looks at; the frames whose entries
    it looks at, and changes with their words; those whose locks it looks at, and takes or releases; and the same of guests'
    states and of the locks of their contexts. It is `own` where it touches its actor alone, and `everything` where nothing is
    known."""
    reads: frozenset[Place] = frozenset()
    writes: frozenset[Place] = frozenset()
    looks: Ranges = ()
    changes: Ranges = ()
    asks: Ranges = ()
    takes: Ranges = ()
    sees: frozenset[int] = NO_GUESTS
    turns: frozenset[int] = NO_GUESTS
    asks_contexts: frozenset[int] = NO_GUESTS
    takes_contexts: frozenset[int] = NO_GUESTS
    own: bool = False
    everything: bool = False

    def commutes(self, other: Touch) -> bool:
        if self.own or other.own:
            return True
        if self.everything or other.everything:
            return False
        if self.writes & (other.reads | other.writes) or other.writes & self.reads:
            return False
        if self.turns & other.sees or other.turns & self.sees:
            return False
        if self.takes_contexts & other.asks_contexts or other.takes_contexts & self.asks_contexts:
            return False
        return not (any_meet(self.changes, other.looks) or any_meet(other.changes, self.looks)
                    or any_meet(self.takes, other.asks) or any_meet(other.takes, self.asks))


OWN = Touch(own=True)
NOTHING = Touch()
EVERYTHING = Touch(everything=True)


def touch_of(scenario: Scenario, event: Event, has_firmware: bool) -> Touch:
    """What an event touched. A begin asks whether the guest runs, which firmware alone can change."""
    if event.kind == 'skip' or event.kind == 'begin' and not has_firmware:
        return OWN
    if event.kind == 'begin':
        return Touch(sees=frozenset([scenario.actors[event.actor].guest]))
    item = scenario.actors[event.actor].items[event.item]
    if item.word in INSTRUCTIONS:
        return update_touch(scenario, event, item)
    if item.word in COMMANDS:
        return command_touch(scenario, event, item)
    if event.kind not in ('npt', 'gpt', 'data', 'host'):
        return EVERYTHING
    here, looks = frozenset([(event.frame, event.place[1])]), (frames_from(event.frame, False),)
    if event.kind in ('npt', 'gpt'):
        return Touch(frozenset() if event.deed[-1] == '-' else here, looks=looks)
    name = event.outcome[0]
    if name == 'store':
        return Touch(writes=here, looks=looks)
    if name == 'swap' or name == 'cas' and event.outcome[2] == 'yes':
        return Touch(here, here, looks=looks)
    return Touch(here if name in ('load', 'cas') else frozenset(), looks=looks)


def update_touch(scenario: Scenario, event: Event, item: Item) -> Touch:
    """What an event of RMPUPDATE or PSMASH touched. One that is refused for its operands has looked at no entry."""
    if bad_operands(item, scenario.frames) is not None:
        return NOTHING
    frames = (item.frames,)
    if event.kind == 'commit':
        return Touch(looks=frames, changes=frames, asks=frames, takes=frames)
    return Touch(looks=frames, asks=frames, takes=() if event.outcome else frames)


def command_ranges(scenario: Scenario, item: Item) -> Ranges:
    """The pages of a command that are in memory. `page_reclaim` alone acts on pages of 2 MB, and may then be of all its region."""
    is_wide = item.word == 'page_reclaim'
    return tuple(range(frame - frame % LARGE, frame - frame % LARGE + LARGE) if is_wide else frames_from(frame, False)
                 for frame in frames_of(item) if frame < scenario.frames)


def command_guests(scenario: Scenario, item: Item) -> frozenset[int]:
    """The guest that a command names, if it is declared."""
    return frozenset(item.operands[:1]) & frozenset(scenario.guests) if COMMANDS[item.word].states else NO_GUESTS


def command_touch(scenario: Scenario, event: Event, item: Item) -> Touch:
    """What an event of a command touched. A refusal releases all that was locked, and the lock of a context looks at the guest."""
    ranges, guests = command_ranges(scenario, item), command_guests(scenario, item)
    if event.kind in ('commit', 'commitg'):
        return Touch(looks=ranges, changes=ranges, asks=ranges, takes=ranges, sees=guests, turns=guests, asks_contexts=guests,
                     takes_contexts=guests)
    if event.kind == 'compute':
        released = (ranges, guests) if event.outcome else ((), NO_GUESTS)
        return Touch(looks=ranges, changes=ranges[:1], asks=ranges, takes=released[0], sees=guests, asks_contexts=guests,
                     takes_contexts=released[1])
    if event.kind == 'lockg':
        return Touch(sees=guests, asks_contexts=guests, takes_contexts=NO_GUESTS if event.outcome else guests)
    if event.outcome:
        return Touch(looks=ranges, asks=ranges, takes=ranges if len(ranges) > 1 else (), asks_contexts=guests, takes_contexts=guests)
    named = tuple(frames for frames in ranges if int(event.deed[1]) in frames)
    return Touch(looks=named, asks=named, takes=named)


@dataclass(frozen=True)
class Bound:
    """At most this is touched by the rest of a script."""
    reads: frozenset[Place] = frozenset()
    writes: frozenset[Place] = frozenset()
    # words of any frame at these places in it, as a guest with tables of its own may write
    writes_at: frozenset[int] = frozenset()
    # whether a walk may read any free frame, and any assigned one
    walks: bool = False
    walks_assigned: bool = False
    # the ranges of frames whose entries, words and locks an RMPUPDATE, a PSMASH or a command may look at and change
    updates: frozenset[range] = frozenset()
    # the guests whose state it may look at, and those whose context and state it may lock and change
    sees: frozenset[int] = NO_GUESTS
    contexts: frozenset[int] = NO_GUESTS
    everything: bool = False

    def commutes(self, touch: Touch, assigned: set[int]) -> bool:
        """Whether an event commutes with all that this rest of a script may do."""
        if touch.own:
            return True
        if touch.everything or self.everything:
            return False
        if any(place in self.writes or place[1] in self.writes_at for place in touch.reads | touch.writes):
            return False
        if any(place in self.reads or (self.walks_assigned if place[0] in assigned else self.walks) for place in touch.writes):
            return False
        # a walk looks at the entries of frames that nothing tells beforehand
        if touch.changes and (self.walks or any(place[0] in frames for place in self.reads | self.writes for frames in touch.changes)):
            return False
        if touch.turns & self.sees or self.contexts & (touch.sees | touch.turns | touch.asks_contexts | touch.takes_contexts):
            return False
        return not any(meet(frames, one) for frames in self.updates for one in touch.looks + touch.asks)


def item_bound(scenario: Scenario, actor: Actor, item: Item) -> Bound:
    """What one item may touch."""
    if item.word == 'skip':
        return Bound()
    if item.word in INSTRUCTIONS:
        return Bound(updates=frozenset([item.frames] if bad_operands(item, scenario.frames) is None else []))
    if item.word in COMMANDS:
        return Bound(updates=frozenset(command_ranges(scenario, item)), contexts=command_guests(scenario, item))
    if item.word not in ACCESSES:
        return Bound(everything=True)
    address = item.operands[0]
    index = address >> 3 & 511
    if actor.role == 'host':
        places = frozenset([(address >> 12, index)])
        return Bound(places, places if item.writes else frozenset())
    sees = frozenset([actor.guest])
    if actor.paging != 'flat' or validates(scenario):
        return Bound(writes_at=frozenset([index]) if item.writes else frozenset(), walks=True, walks_assigned=True, sees=sees)
    # a private access passes at the frame of its guest and page alone, as none becomes validated
    gpn = address >> 12 & (1 << 36) - 1
    places = frozenset((page.frame + k, index) for page in scenario.pages if page.guest == actor.guest
                       for k in range(512 if page.is_large else 1) if page.gpn + k == gpn)
    return Bound(places, places if item.writes else frozenset(), walks=True, sees=sees)


def validates(scenario: Scenario) -> bool:
    """Whether a frame may become a validated page of a guest after the opening."""
    return any(item.word not in ACCESSES + INSTRUCTIONS + ('skip',) for actor in scenario.actors.values() for item in actor.items)


def joined(left: Bound, right: Bound) -> Bound:
    return Bound(left.reads | right.reads, left.writes | right.writes, left.writes_at | right.writes_at, left.walks or right.walks,
                 left.walks_assigned or right.walks_assigned, left.updates | right.updates, left.sees | right.sees,
                 left.contexts | right.contexts, left.everything or right.everything)


def bounds_of(scenario: Scenario) -> dict[int, list[Bound]]:
    """For each actor and each of its items what the script may touch from that item on, and at last nothing."""
    made: dict[int, list[Bound]] = {}
    for actor in scenario.actors.values():
        rest = [Bound()]
        for item in reversed(actor.items):
            rest.append(joined(item_bound(scenario, actor, item), rest[-1]))
        made[actor.number] = rest[::-1]
    return made


def assigned_frames(scenario: Scenario) -> set[int]:
    """The frames that are assigned at the opening and stay so: no RMPUPDATE may take them."""
    taken = {frame for actor in scenario.actors.values() for item in actor.items if item.word == 'rmpupdate'
             and bad_operands(item, scenario.frames) is None for frame in item.frames}
    return {page.frame + k for page in scenario.pages for k in range(512 if page.is_large else 1)} - taken
