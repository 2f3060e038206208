"""The RMP as scenario and report tell it: the facts of each frame, and by which event they were changed last.

What is the same for a whole range of 2 MB is kept once, so that an RMPUPDATE of 2 MB is as quick as one of 4 KB.
"""
from __future__ import annotations

from dataclasses import dataclass, field, replace
from typing import Any

LARGE = 512


@dataclass(frozen=True)
class Facts:
    """The entry of a frame in the RMP."""
    assigned: bool = False
    is_large: bool = False
    immutable: bool = False
    gpn: int = 0
    asid: int = 0
    vmsa: bool = False
    validated: bool = False
    permissions: tuple[int, int, int, int] = (0, 0, 0, 0)
    kind: str = 'Plain'

    @property
    def state(self) -> str:
        """The state of the page, by docs/MODEL.md, "Page states"."""
        if not self.assigned:
            return 'Hypervisor'
        if self.asid == 0:
            if not self.immutable:
                return 'Reclaim'
            return 'Firmware' if self.kind == 'Plain' else self.kind
        if self.immutable:
            return 'Pre-Swap' if self.validated else 'Pre-Guest'
        return 'Guest-Valid' if self.validated else 'Guest-Invalid'

    def at_place(self, place: int) -> Facts:
        """The facts of the frame at this place of a range, where these are those of its first frame."""
        return replace(self, gpn=self.gpn + place) if place and self.asid else self


FREE = Facts()
RECLAIM = Facts(assigned=True)


def frames_from(frame: int, is_large: bool) -> range:
    """A frame, or 512 frames from it on."""
    return range(frame, frame + (LARGE if is_large else 1))


def is_whole(frames: range) -> bool:
    return len(frames) == LARGE and frames.start % LARGE == 0


def meet(left: range, right: range) -> bool:
    """Whether two ranges have a frame in common."""
    return max(left.start, right.start) < min(left.stop, right.stop)


def frames_words(frames: range) -> str:
    return f'frame {frames.start}' if len(frames) == 1 else f'frames {frames.start} to {frames.stop - 1}'


@dataclass
class Entries:
    """The facts of all frames. Those that scenario and report don't determine are None; frames that aren't named are free."""
    whole: dict[int, Facts | None] = field(default_factory=dict)
    single: dict[int, dict[int, Facts | None]] = field(default_factory=dict)

    def at(self, frame: int) -> Facts | None:
        region, place = divmod(frame, LARGE)
        own = self.single.get(region)
        if own is not None and place in own:
            return own[place]
        head = self.whole.get(region, FREE)
        return None if head is None else head.at_place(place)

    def put(self, frames: range, facts: Facts | None) -> None:
        """Gives frames their facts, by those of the first one."""
        if is_whole(frames):
            self.whole[frames.start // LARGE] = facts
            self.single.pop(frames.start // LARGE, None)
            return
        for place, frame in enumerate(frames):
            own = self.single.setdefault(frame // LARGE, {})
            own[frame % LARGE] = None if facts is None else facts.at_place(place)

    def change(self, frames: range, **fields: Any) -> None:
        """Changes some fields of frames, in the same way for each of them."""
        if is_whole(frames):
            region = frames.start // LARGE
            self.whole[region] = changed(self.whole.get(region, FREE), fields)
            for place, facts in self.single.get(region, {}).items():
                self.single[region][place] = changed(facts, fields)
            return
        for frame in frames:
            self.put(range(frame, frame + 1), changed(self.at(frame), fields))

    def first(self, frames: range, field_name: str) -> int | None:
        """The first frame of a range whose facts have a field set; unknown facts are passed over."""
        if is_whole(frames) and frames.start // LARGE not in self.single:
            facts = self.at(frames.start)
            return frames.start if facts is not None and getattr(facts, field_name) else None
        known = ((frame, self.at(frame)) for frame in frames)
        return next((frame for frame, facts in known if facts is not None and getattr(facts, field_name)), None)

    def are_known(self, frames: range) -> bool:
        if is_whole(frames) and frames.start // LARGE not in self.single:
            return self.at(frames.start) is not None
        return all(self.at(frame) is not None for frame in frames)


def changed(facts: Facts | None, fields: dict[str, Any]) -> Facts | None:
    return None if facts is None else replace(facts, **fields)


@dataclass
class Marks:
    """For each frame the last event of some kind."""
    whole: dict[int, int] = field(default_factory=dict)
    single: dict[int, int] = field(default_factory=dict)

    def put(self, frames: range, event: int) -> None:
        if is_whole(frames):
            self.whole[frames.start // LARGE] = event
        else:
            self.single.update((frame, event) for frame in frames)

    def at(self, frame: int) -> int | None:
        last = max(self.single.get(frame, -1), self.whole.get(frame // LARGE, -1))
        return None if last < 0 else last
