"""The RMP entries of a run for the page's lane: each change of an entry, and each lock of a page, at its event.

Nothing is decided here: it notes what the machine that follows scenario and report (`machine`) changes, takes and releases.
"""
from __future__ import annotations

from dataclasses import dataclass, field

from .entries import Facts, is_whole
from .machine import Attempt, Watch
from .report import Event
from .scenario import FRAMES_OF, Item

# The event of what stands at the opening, and the entry of a frame that the report doesn't tell.
OPENING, UNKNOWN = -1, -1


@dataclass
class Held:
    """A lock of frames: who held it, the event that took it, and the one that released it, where one did."""
    frames: range
    actor: int
    taken: int
    released: int | None = None


@dataclass
class Recorder(Watch):
    """A watch that keeps what it notes: the frames of each change with the facts of the first, and the locks."""
    now: int = OPENING
    changes: list[tuple[int, range, Facts | None]] = field(default_factory=list)
    held: list[Held] = field(default_factory=list)
    open_locks: dict[int, list[Held]] = field(default_factory=dict)

    def __post_init__(self) -> None:
        super().__post_init__()
        for page in self.scenario.pages:
            self.keep(range(page.frame, page.frame + (512 if page.is_large else 1)))

    def keep(self, frames: range) -> None:
        """Keeps what frames have become: by their first one, or each by itself where a range isn't kept as one."""
        if is_whole(frames) and frames.start // 512 in self.rmp.single:
            for frame in frames:
                self.changes.append((self.now, range(frame, frame + 1), self.rmp.at(frame)))
        else:
            self.changes.append((self.now, frames, self.rmp.at(frames.start)))

    def open_attempt(self, event: Event) -> Attempt:
        self.now = event.number
        return super().open_attempt(event)

    def note_change(self, frames: range, event: Event) -> None:
        super().note_change(frames, event)
        self.keep(frames)

    def take_lock(self, event: Event) -> None:
        before = len(self.locks)
        super().take_lock(event)
        for lock in self.locks[before:]:
            made = Held(lock.frames, lock.actor, event.number)
            self.held.append(made)
            self.open_locks.setdefault(lock.actor, []).append(made)

    def release(self, actor: int) -> None:
        super().release(actor)
        for held in self.open_locks.pop(actor, []):
            held.released = self.now


def frames_of(item: Item) -> list[int]:
    """The frames that an item names."""
    return [item.operands[place - 1] for place in FRAMES_OF.get(item.word, ())]


def row_of(facts: Facts) -> tuple[object, ...]:
    """An entry as the page's script reads it."""
    return (facts.state, int(facts.assigned), facts.asid, facts.gpn, int(facts.validated), int(facts.immutable),
            ' '.join(map(str, facts.permissions)), int(facts.is_large), int(facts.vmsa), facts.kind)


def lane_of(recorder: Recorder) -> dict[str, object]:
    """The entries that occur, the changes as event, first frame, count and entry, and the locks as first frame, count, actor, the
    event that took each one and the one that released it, or none."""
    rows: dict[tuple[object, ...], int] = {}
    changes: list[tuple[int, int, int, int]] = []
    for event, frames, facts in recorder.changes:
        place = UNKNOWN if facts is None else rows.setdefault(row_of(facts), len(rows))
        changes.append((event, frames.start, len(frames), place))
    locks = [(held.frames.start, len(held.frames), held.actor, held.taken, held.released) for held in recorder.held]
    asids = {guest.asid: f'guest {guest.number}' for guest in recorder.scenario.guests.values()}
    return {'frames': recorder.scenario.frames, 'entries': list(rows), 'changes': changes, 'locks': locks, 'asids': asids}
