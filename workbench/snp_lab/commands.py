"""The commands of the firmware in words: which row of their tables refuses a lock, and what a commit changes.

The rows are decided by the guests, entries and locks that scenario and report tell, and compared with what the report says. What
the commands that seal and open pages do beyond that is in `seals`.
"""
from __future__ import annotations

from collections.abc import Callable
from dataclasses import dataclass

from . import codes, seals
from .codes import Row
from .entries import Facts
from .machine import Attempt, Watch
from .report import Event
from .scenario import FRAMES_OF, Item
from .texts import hex_of, page_of
from .updates import outside_words

# The page types that a launch takes.
TYPES = {1: 'NORMAL', 3: 'ZERO', 4: 'UNMEASURED'}


@dataclass(frozen=True)
class Asked:
    """What a command asks: the states of its guest, where it names one, and whether it is bound; for each of its pages, in the
    order of their locks, the states, and whether it must be the guest's; and whether a compute comes before the commit."""
    states: tuple[str, ...] = ()
    bound: bool | None = None
    pages: tuple[tuple[tuple[str, ...], bool], ...] = ()
    computes: bool = False


RUNNING, METADATA = ('running',), (('Metadata',), False)
COMMANDS: dict[str, Asked] = {
    'gctx_create': Asked(('absent',), None, ((('Firmware',), False),)),
    'activate': Asked(('init', 'launching'), False),
    'launch_start': Asked(('init',)),
    'launch_update': Asked(('launching',), True, ((('Pre-Guest',), True),)),
    'launch_finish': Asked(('launching',), True),
    'md_init': Asked(pages=((('Firmware',), False),)),
    'page_move': Asked(RUNNING, None, ((('Pre-Swap',), True), (('Pre-Guest',), True))),
    'page_reclaim': Asked(pages=((('Firmware', 'Metadata', 'Pre-Guest', 'Pre-Swap'), False),)),
    'swap_out': Asked(RUNNING, None, ((('Pre-Swap', 'Pre-Guest'), True), (('Hypervisor',), False), METADATA), True),
    'swap_in': Asked(RUNNING, None, ((('Hypervisor',), False), (('Pre-Guest',), True), METADATA), True),
    'md_out': Asked(RUNNING, None, (METADATA, (('Hypervisor',), False), METADATA), True),
    'md_in': Asked(RUNNING, None, ((('Hypervisor',), False), (('Firmware',), False), METADATA), True),
    'md_root_out': Asked(RUNNING, None, (METADATA, (('Hypervisor',), False)), True),
    'md_root_in': Asked(RUNNING, None, ((('Hypervisor',), False), (('Firmware',), False)), True),
}


@dataclass(frozen=True)
class Refusal:
    """How a row ends an attempt, and why it applies."""
    answer: str
    row: Row
    because: str


def frames_of(item: Item) -> list[int]:
    """The frames of a command in the order of their locks."""
    return [item.operands[place - 1] for place in FRAMES_OF.get(item.word, ())]


def deeds_of(item: Item) -> list[str]:
    """The locks of a command, and its compute, in their order, without the commit."""
    asked = COMMANDS[item.word]
    locks = [f'lockg {item.operands[0]}'] if asked.states else []
    return locks + [f'lock {frame}' for frame in frames_of(item)] + ['compute'] * asked.computes


def guest_words(watch: Watch, guest: int) -> str:
    bound = 'bound to its ASID' if watch.bound.get(guest) else 'not bound to its ASID'
    return f"guest {guest} is {watch.states.get(guest, '?')}, and {bound}"


def asked_words(item: Item) -> str:
    """What a command asks of its guest."""
    asked = COMMANDS[item.word]
    bound = {None: '', True: ' and bound', False: ' and not bound'}[asked.bound]
    return f"`{item.word}` asks for one that is {' or '.join(asked.states)}{bound}"


def context_refusal(watch: Watch, item: Item) -> Refusal | None:
    """The first row that refuses the lock of a context; none where it is taken."""
    guest, frames, asked = item.operands[0], frames_of(item), COMMANDS[item.word]
    if guest not in watch.scenario.guests:
        return Refusal('fw 0x16', codes.CONTEXT[0], f"guest {guest} isn't declared")
    twice = next((frame for k, frame in enumerate(frames) if frame in frames[:k]), None)
    if twice is not None:
        return Refusal('fw 0x16', codes.CONTEXT[1], f'frame {twice} stands twice')
    held = watch.contexts.get(guest)
    if held is not None:
        return Refusal(f'fw 0x100 by {held.actor}', codes.CONTEXT[2], watch.context_holder_words(guest, held))
    if watch.states.get(guest) not in asked.states or asked.bound is not None and watch.bound.get(guest) != asked.bound:
        return Refusal('fw 0x2', codes.CONTEXT[3], f'{guest_words(watch, guest)}; {asked_words(item)}')
    if item.word == 'activate':
        return asid_refusal(watch, item)
    if item.word == 'launch_update' and item.operands[2] not in TYPES:
        return Refusal('fw 0x16', codes.CONTEXT[6], f'the page type is {item.operands[2]}')
    return refusal_said(seals.context_extra(watch, item))


def asid_refusal(watch: Watch, item: Item) -> Refusal | None:
    """What `activate` tests of its ASID."""
    guest, asid = item.operands
    others = [other.number for other in watch.scenario.guests.values() if other.asid == asid and other.number != guest]
    if others:
        return Refusal('fw 0xc', codes.CONTEXT[4], f'the ASID {asid} is that of guest {others[0]}')
    own = watch.scenario.guests[guest].asid
    if asid != own:
        return Refusal('fw 0x16', codes.CONTEXT[5], f'the ASID {asid} is asked, and guest {guest} has {own}')
    return None


def page_refusal(watch: Watch, item: Item, place: int) -> Refusal | None:
    """The first row that refuses the lock of the page at this place; none where it is taken."""
    frame = frames_of(item)[place]
    states, is_owned = COMMANDS[item.word].pages[place]
    if frame >= watch.scenario.frames:
        return Refusal('fw 0x9', codes.PAGE[0], outside_words(frame, watch.scenario.frames))
    held = watch.holder(watch.page_frames(frame))
    if held is not None:
        return Refusal(f'fw 0x100 by {held[1].actor}', codes.PAGE[1], watch.holder_words(*held))
    facts = watch.facts_of(frame)
    if facts is None:
        return None
    if facts.is_large and item.word != 'page_reclaim':
        return Refusal('fw 0x19', codes.PAGE[2], watch.entry_words(frame) + watch.change_words(frame))
    if facts.state not in states:
        return Refusal('fw 0x1a', codes.PAGE[3], (f"frame {frame} is in the state {facts.state}, which `{item.word}` doesn't take there: "
                                                  f"it takes {' or '.join(states)}{watch.change_words(frame)}"))
    guest = watch.scenario.guests.get(item.operands[0]) if is_owned else None
    if guest is not None and facts.asid != guest.asid:
        return Refusal('fw 0x1c', codes.PAGE[4], f'{watch.entry_words(frame)}, and the command is for guest {item.operands[0]}')
    is_sealing = item.word in seals.SEALS and item.operands[0] in watch.scenario.guests
    return refusal_said(seals.page_extra(watch, item, place)) if is_sealing else None


def refusal_said(said: seals.Said | None) -> Refusal | None:
    return None if said is None else Refusal(*said)


def refusal_of(watch: Watch, event: Event, attempt: Attempt, item: Item) -> Refusal | None:
    """The first row that refuses a lock or a compute; none where it goes on."""
    if event.kind == 'compute':
        return refusal_said(seals.compute_refusal(watch, item)) if item.operands[0] in watch.scenario.guests else None
    if event.kind == 'lockg':
        return context_refusal(watch, item)
    return page_refusal(watch, item, len(attempt.events) - bool(COMMANDS[item.word].states))


def is_known(watch: Watch, event: Event, item: Item) -> bool:
    """Whether scenario and report determine all that the tests of a lock or a compute look at."""
    if event.kind != 'lock':
        return True
    frame = int(event.deed[1])
    return frame >= watch.scenario.frames or watch.facts_of(frame) is not None


def row_of_status(event: Event) -> Row | None:
    """The row by the status alone, where the tests aren't known."""
    table = codes.FIRMWARE_ROWS.get(int(event.outcome[1], 0), []) if len(event.outcome) > 1 else []
    asked = {'lockg': codes.CONTEXT, 'lock': codes.PAGE, 'compute': codes.COMPUTE}[event.kind]
    fitting = [row for row in table if row in asked]
    return fitting[0] if len(fitting) == 1 else None


def fault(watch: Watch, event: Event, attempt: Attempt, item: Item, refusal: Refusal | None) -> str:
    """What an event of a command should be by the scenario, where it is another one."""
    deeds = deeds_of(item)
    place = len(attempt.events)
    if place >= len(deeds):
        wanted = commit_of(watch, attempt, item)
        if event.kind not in ('commit', 'commitg'):
            return 'the commit, since all locks are taken'
        return '' if wanted is None or ' '.join(event.deed + event.outcome) == wanted else f'`{wanted}`'
    if ' '.join(event.deed) != deeds[place]:
        return f'`{deeds[place]}`'
    expected = refusal.answer if refusal is not None else ''
    if is_known(watch, event, item) and expected != event.answer:
        return f'`{expected}`' if expected else 'let through'
    return ''


def commit_of(watch: Watch, attempt: Attempt, item: Item) -> str | None:
    """The commit of a command with its outcome; nothing where the report alone tells its page."""
    frames = frames_of(item)
    if not frames:
        return f'commitg {item.operands[0]} fw 0x0'
    if item.word in seals.SEALS:
        deed = seals.commit_deed(watch, item, attempt.made)
        return None if deed is None else deed + ' fw 0x0'
    named, told = (frames[-1], watch.facts_of(frames[0]))
    if told is None:
        return None
    return f"commit {named} {hex_of(told.gpn)} {'2m' if told.is_large else '4k'} fw 0x0"


def lock_words(watch: Watch, event: Event, item: Item) -> str:
    """What is asked for, or taken."""
    number = int(event.deed[1])
    if event.kind == 'lockg':
        verb = 'asks for the lock of' if event.outcome else 'takes the lock of'
        return f"{verb} the context of guest {number}{'; ' + guest_words(watch, number) if number in watch.states else ''}"
    verb = 'asks for' if event.outcome else 'locks'
    if number >= watch.scenario.frames:
        return f'{verb} the page of frame {number}'
    facts = watch.facts_of(number)
    state = f' ({facts.state})' if facts is not None and facts.asid else ''
    return f'{verb} the page of frame {number}; {watch.entry_words(number)}{state}'


def commit_words(watch: Watch, item: Item) -> str:
    """What a commit changes."""
    done = seals.commit_words(watch, item) if item.word in seals.SEALS else COMMIT_WORDS[item.word](watch, item)
    return f'{done}; the locks are released'


def create_words(watch: Watch, item: Item) -> str:
    return (f'frame {item.operands[1]} becomes the context page of guest {item.operands[0]}, which is now in the state init; its digest is '
            'zero')


def update_words(watch: Watch, item: Item) -> str:
    guest, frame, kind = item.operands[:3]
    facts = watch.facts_of(frame)
    page = page_of(facts.gpn) if facts is not None else '?'
    measured = {1: 'its words are measured', 3: 'its words become zero, and the digest tells that it is such a page',
                4: 'the digest tells its place and permissions alone, and its words stay'}.get(kind, '?')
    return (f"frame {frame} is launched as page {page} of guest {guest}, of the type {TYPES.get(kind, '?')}: {measured}; the page is "
            f"validated, with the permissions 15, {', '.join(map(str, item.operands[4:]))}")


def move_words(watch: Watch, item: Item) -> str:
    guest, source, target = item.operands
    facts = watch.facts_of(source)
    page = page_of(facts.gpn) if facts is not None else '?'
    return (f'frame {target} becomes page {page} of guest {guest}, with the words and the entry of frame {source}, which becomes an empty '
            'page (Pre-Guest) with zero words')


def reclaim_words(watch: Watch, item: Item) -> str:
    frame = item.operands[0]
    facts: Facts | None = watch.facts_of(frame)
    whole = '' if facts is None or not facts.is_large else ', and the whole page of 2 MB that it stands in,'
    if facts is None:
        return f'frame {frame} is given back'
    if facts.asid == 0:
        return f'frame {frame} becomes a page in the state Reclaim, with zero words'
    validated = 'Guest-Valid: its guest finds its words as they are' if facts.validated else 'Guest-Invalid: its guest has to accept it'
    return f"frame {frame}{whole} isn't immutable any more, and is {validated}"


COMMIT_WORDS: dict[str, Callable[[Watch, Item], str]] = {
    'gctx_create': create_words, 'launch_update': update_words, 'page_move': move_words, 'page_reclaim': reclaim_words,
    'activate': lambda watch, item: f'guest {item.operands[0]} is bound to its ASID {item.operands[1]}',
    'launch_start': lambda watch, item: f'the launch of guest {item.operands[0]} begins',
    'launch_finish': lambda watch, item: f'guest {item.operands[0]} runs from here on',
    'md_init': lambda watch, item: f'frame {item.operands[0]} becomes a metadata page with zero words',
}
