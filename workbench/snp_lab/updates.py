"""RMPUPDATE and PSMASH in words: which row of their tables refuses a lock, and what a commit changes.

The rows are decided by the entries and locks that scenario and report tell, and compared with what the report says.
"""
from __future__ import annotations

from dataclasses import dataclass

from . import codes
from .codes import Row
from .entries import frames_words, is_whole
from .machine import Attempt, Watch, makes_immutable, updated_facts
from .report import Event
from .scenario import Item
from .texts import hex_of, number_of, page_of

INSTRUCTIONS = ('rmpupdate', 'psmash')
RELEASED = 'the lock is released'


@dataclass(frozen=True)
class Refusal:
    """How a row ends an attempt, and why it applies."""
    answer: str
    row: Row
    because: str


def bad_update(item: Item, frames: int) -> tuple[Row, str] | None:
    """The test that the operands of an RMPUPDATE fail, before any entry is looked at."""
    frame, size, assigned, asid, gpn, immutable = item.operands
    if frame >= frames:
        return codes.BAD_UPDATE[0], outside_words(frame, frames)
    if size == 2 and frame % 512:
        return codes.BAD_UPDATE[1], f'2 MB are asked, and frame {frame} is no multiple of 512'
    if size == 2 and assigned and (gpn % 512 or not asid):
        why = 'the ASID 0' if not asid else f'page {page_of(gpn)}, which is no multiple of 512'
        return codes.BAD_UPDATE[2], f'2 MB are asked as assigned, with {why}'
    if not assigned and (asid or gpn or immutable):
        asked = ['an ASID'] * bool(asid) + ['a page number'] * bool(gpn) + ['Immutable'] * bool(immutable)
        return codes.BAD_UPDATE[3], f"the page is to be free, and {' and '.join(asked)} is asked"
    if assigned and not asid and gpn:
        return codes.BAD_UPDATE[4], f'an ASID of 0 is asked with the page number {page_of(gpn)}'
    return None


def bad_smash(item: Item, frames: int) -> tuple[Row, str] | None:
    """The same of a PSMASH."""
    frame = item.operands[0]
    if frame >= frames:
        return codes.SMASH[0], outside_words(frame, frames)
    return (codes.SMASH[0], f'frame {frame} is no multiple of 512') if frame % 512 else None


def bad_operands(item: Item, frames: int) -> tuple[Row, str] | None:
    return bad_update(item, frames) if item.word == 'rmpupdate' else bad_smash(item, frames)


def outside_words(frame: int, frames: int) -> str:
    return f'frame {frame} is outside memory, which has {frames} frames'


def refusal_of(watch: Watch, item: Item) -> Refusal | None:
    """The first row that applies where the lock is asked for; none where the lock is taken."""
    bad = bad_operands(item, watch.scenario.frames)
    if bad is not None:
        return Refusal('rc 1', *bad)
    is_update = item.word == 'rmpupdate'
    held = watch.holder(item.frames if is_update else item.frames[:1])
    if held is not None:
        row = (codes.UPDATE if is_update else codes.SMASH)[1]
        return Refusal(f'rc 3 by {held[1].actor}', row, watch.holder_words(*held))
    return update_refusal(watch, item) if is_update else smash_refusal(watch, item)


def update_refusal(watch: Watch, item: Item) -> Refusal | None:
    """Rows 3 and 4 of RMPUPDATE."""
    first = watch.facts_of(item.operands[0])
    is_large = first is not None and first.is_large
    if item.operands[1] != 2 and is_large:
        return Refusal('rc 4', codes.UPDATE[2], '4 KB are asked, and ' + cause(watch, item.operands[0]))
    assigned = watch.rmp.first(item.frames, 'assigned')
    if item.operands[1] == 2 and not is_large and assigned is not None:
        return Refusal('rc 4', codes.UPDATE[2], (f'2 MB are asked, {frames_words(item.frames)} are no page of 2 MB, and '
                                                 f'{cause(watch, assigned)}'))
    immutable = watch.rmp.first(item.frames, 'immutable')
    return Refusal('rc 2', codes.UPDATE[3], cause(watch, immutable)) if immutable is not None else None


def smash_refusal(watch: Watch, item: Item) -> Refusal | None:
    """Rows 3 and 4 of PSMASH."""
    frame = item.operands[0]
    facts = watch.facts_of(frame)
    if facts is not None and not facts.is_large:
        why = ', in a page of 4 KB' if facts.assigned else ', and so in no page of 2 MB'
        return Refusal('rc 1', codes.SMASH[2], watch.entry_words(frame) + why + watch.change_words(frame))
    return Refusal('rc 2', codes.SMASH[3], cause(watch, frame)) if facts is not None and facts.immutable else None


def cause(watch: Watch, frame: int) -> str:
    """The entry of a frame, and who made it what it is."""
    return watch.entry_words(frame) + watch.change_words(frame)


def are_known(watch: Watch, item: Item) -> bool:
    """Whether scenario and report determine all that the tests look at."""
    if bad_operands(item, watch.scenario.frames) is not None:
        return True
    return watch.rmp.are_known(item.frames)


def row_of_status(event: Event, item: Item) -> Row | None:
    """The row by the status alone, where the entries aren't known."""
    status = number_of(event.outcome[1]) or 0 if event.outcome else 0
    rows = {1: 0, 3: 1, 4: 2, 2: 3} if item.word == 'rmpupdate' else {1: 2, 3: 1, 2: 3}
    return (codes.UPDATE if item.word == 'rmpupdate' else codes.SMASH)[rows[status]] if status in rows else None


def lock_fault(event: Event, attempt: Attempt, item: Item, refusal: Refusal | None, known: bool) -> str:
    """What a lock event should be by the scenario, where it is another one."""
    if int(event.deed[1]) != item.operands[0]:
        return f'the lock of frame {item.operands[0]}'
    if attempt.events:
        return 'a `commit`, since the lock is taken'
    expected = refusal.answer if refusal is not None else ''
    if known and expected != event.answer:
        return f'`{expected}`' if expected else 'let through'
    return ''


def commit_fault(watch: Watch, event: Event, attempt: Attempt, item: Item) -> str:
    """What a commit should be by the scenario, where it is another one."""
    if not attempt.events:
        return 'a `lock`, which comes before the commit'
    facts = watch.facts_of(item.operands[0])
    if item.word == 'psmash' and facts is None:
        return ''
    gpn = item.operands[4] if item.word == 'rmpupdate' else facts.gpn if facts is not None else 0
    size = '2m' if len(item.frames) > 1 else '4k'
    wanted = f'commit {item.operands[0]} {hex_of(gpn)} {size} rc 0'
    return '' if ' '.join(event.deed + event.outcome) == wanted else f'`{wanted}`'


def range_words(watch: Watch, frames: range) -> str:
    """The entries of a range in words."""
    facts = watch.facts_of(frames.start)
    if len(frames) == 1:
        return watch.entry_words(frames.start)
    if facts is not None and facts.is_large:
        return f'{watch.entry_words(frames.start)}, with the 511 behind it'
    assigned = watch.rmp.first(frames, 'assigned')
    if assigned is None:
        return 'they are nobody\'s' if watch.rmp.are_known(frames) else 'the report doesn\'t tell all of their entries'
    return 'the first of them that is assigned: ' + watch.entry_words(assigned)


def lock_words(watch: Watch, event: Event, item: Item) -> str:
    """What is asked for, or taken."""
    verb = 'asks for the lock of' if event.outcome else 'takes the lock of'
    if item.operands[0] >= watch.scenario.frames:
        return f'{verb} frame {item.operands[0]}'
    frames = watch.lock_frames(item, item.operands[0])
    return f'{verb} {frames_words(frames)}; {range_words(watch, frames)}'


def commit_words(watch: Watch, item: Item) -> str:
    """What a commit changes, by its cases."""
    named = frames_words(item.frames)
    if item.word == 'psmash':
        return f'{named} become 512 pages of 4 KB, each with the page number that it had, and all else the same; {RELEASED}'
    old = watch.facts_of(item.operands[0])
    verb = 'becomes' if len(item.frames) == 1 else 'become'
    if old is not None and makes_immutable(item, old):
        return f'{named} {verb} immutable; all else stays, the words too; {RELEASED}'
    words = '' if old is None else 'the words become zero; ' if old.assigned else 'the words stay, since nobody owned them; '
    return f'{named} {verb} {new_words(watch, item)}; {words}{RELEASED}'


def new_words(watch: Watch, item: Item) -> str:
    """What the frames of an RMPUPDATE become."""
    facts = updated_facts(item)
    if not facts.assigned:
        return 'free'
    if facts.asid == 0:
        return f"the firmware's ({facts.state})"
    what = 'the page of 2 MB at page %s' if is_whole(item.frames) else 'page %s'
    return f"{what % page_of(facts.gpn)} of {watch.guest_name(facts.asid)}, not validated{', immutable' * facts.immutable}"
