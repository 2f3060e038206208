"""The smallest scenario and order found that still show a line, or still end with a status.

Turns, items, actors, pages and other lines are left out in turn, and retries and needless changes of the actor, for as long as
something can go. What is left may not be the smallest there is: nothing of it alone can go.
"""
from __future__ import annotations

import re
from collections.abc import Callable, Iterator
from dataclasses import dataclass, field, replace

from . import report
from .patterns import pattern_of
from .program import Answer, Program
from .report import Event
from .scenario import order_lines, parse, runs_of
from .texts import Complaint

STATUS = re.compile(r'status ([0-9]+)\Z')


@dataclass(frozen=True)
class Script:
    line: str
    items: tuple[str, ...]

    def numbered(self, number: int) -> list[str]:
        words = self.line.split(' ')
        return [' '.join([words[0], str(number)] + words[2:])] + list(self.items)


@dataclass(frozen=True)
class Draft:
    """A scenario in parts: the lines before its actors, its actors, and the order."""
    head: tuple[str, ...]
    scripts: tuple[Script, ...] = ()
    schedule: tuple[int, ...] = ()
    ending: tuple[str, ...] = ('end',)

    @property
    def text(self) -> str:
        lines = list(self.head)
        for k, script in enumerate(self.scripts):
            lines += script.numbered(k + 1)
        return '\n'.join(lines + order_lines(runs_of(self.schedule)) + list(self.ending)) + '\n'

    @property
    def turns(self) -> int:
        return len(runs_of(self.schedule))


def draft_of(text: str, name: str) -> Draft:
    """A text in parts; one that isn't a scenario has lines alone."""
    lines = [line for line in text.split('\n')[:-1] if line and not line.startswith('#')]
    try:
        scenario = parse(text, name)
    except Complaint:
        return Draft(tuple(lines), ending=())
    starts = [k for k, line in enumerate(lines) if line.startswith('actor ')]
    end = next(k for k, line in enumerate(lines) if line.startswith('order ') or line == 'end')
    scripts = tuple(Script(lines[start], tuple(lines[start + 1:stop])) for start, stop in zip(starts, starts[1:] + [end]))
    spelled = tuple(actor for actor, many in scenario.schedule for _ in range(many))
    return Draft(tuple(lines[:starts[0] if starts else end]), scripts, spelled)


@dataclass
class Shrinker:
    program: Program
    wanted: str
    name: str
    tries: int = 0
    known: dict[str, list[Event] | None] = field(default_factory=dict)

    def __post_init__(self) -> None:
        found = STATUS.match(self.wanted)
        self.status = int(found.group(1)) if found else None
        self.pattern = pattern_of(self.wanted)

    def shows(self, answer: Answer) -> bool:
        if self.status is not None:
            return answer.status == self.status
        return any(self.pattern.match(line) for line in answer.output.split('\n')[:-1])

    def events(self, draft: Draft) -> list[Event] | None:
        """The events of a draft's report where it still shows what is wanted (none where it has no report); else None."""
        text = draft.text
        if text not in self.known:
            self.tries += 1
            answer = self.program.replay(text)
            made = report.parse(answer.output, 'the report').events if answer.status == 0 else []
            self.known[text] = made if self.shows(answer) else None
        return self.known[text]

    def mended(self, draft: Draft) -> Draft | None:
        """A draft that still shows it, where need be without the turns of actors that have finished."""
        for _ in range(len(draft.scripts) + 1):
            if self.events(draft) is not None:
                return draft
            answer = self.program.replay(draft.text)
            if answer.refused_entry is None:
                return None
            entry, gone = answer.refused_entry
            rest = tuple(actor for actor in draft.schedule[entry:] if actor != gone)
            draft = replace(draft, schedule=draft.schedule[:entry] + rest)
        return None

    def shrunk(self, draft: Draft) -> Draft:
        if self.events(draft) is None:
            raise Complaint(f'this scenario doesn\'t show `{self.wanted}` in its own order; `snp-lab explore --until` finds an order that does',
                            self.name)
        while True:
            smaller = draft
            for ways in WAYS:
                smaller = self.taken(smaller, ways)
            if smaller == draft:
                return draft
            draft = smaller

    def taken(self, draft: Draft, ways: Callable[[Draft, list[Event]], Iterator[Draft]]) -> Draft:
        """Takes ways of one kind for as long as one still shows it."""
        while True:
            events = self.events(draft) or []
            better = next((made for way in ways(draft, events) if (made := self.mended(way)) is not None and size(made) < size(draft)), None)
            if better is None:
                return draft
            draft = better


def size(draft: Draft) -> tuple[int, int, int, int]:
    """What is to become less: lines, turns and events, and the length of the text."""
    lines = len(draft.head) + len(draft.ending) + sum(1 + len(script.items) for script in draft.scripts)
    return lines + draft.turns, len(draft.schedule), lines, len(draft.text)


def chunks(many: int) -> Iterator[range]:
    """Ranges of places, large ones first."""
    length = many
    while length >= 1:
        for start in range(0, many, length):
            yield range(start, min(start + length, many))
        length //= 2


def fewer_events(draft: Draft, events: list[Event]) -> Iterator[Draft]:
    for gone in chunks(len(draft.schedule)):
        yield replace(draft, schedule=draft.schedule[:gone.start] + draft.schedule[gone.stop:])


def fewer_turns(draft: Draft, events: list[Event]) -> Iterator[Draft]:
    """A turn joined to an earlier or later one of its actor, and the end of what an actor does left out."""
    runs = runs_of(draft.schedule)
    for k, (actor, many) in enumerate(runs):
        rest = runs[:k] + runs[k + 1:]
        yield replace(draft, schedule=spelled(rest))
        for place in range(k + 1, len(runs)):
            if runs[place][0] == actor:
                yield replace(draft, schedule=spelled(runs[:k] + runs[k + 1:place] + [(actor, many)] + runs[place:]))
                break
        for place in range(k - 1, -1, -1):
            if runs[place][0] == actor:
                yield replace(draft, schedule=spelled(runs[:place + 1] + [(actor, many)] + runs[place + 1:k] + runs[k + 1:]))
                break


def spelled(runs: list[tuple[int, int]]) -> tuple[int, ...]:
    return tuple(actor for actor, many in runs for _ in range(many))


def fewer_actors(draft: Draft, events: list[Event]) -> Iterator[Draft]:
    for k in range(len(draft.scripts)):
        rest = tuple(actor - (actor > k + 1) for actor in draft.schedule if actor != k + 1)
        yield replace(draft, scripts=draft.scripts[:k] + draft.scripts[k + 1:], schedule=rest)


def fewer_items(draft: Draft, events: list[Event]) -> Iterator[Draft]:
    """Items left out with their events."""
    for k, script in enumerate(draft.scripts):
        for gone in chunks(len(script.items)):
            items = script.items[:gone.start] + script.items[gone.stop:]
            kept = tuple(event.actor for event in events if event.actor != k + 1 or event.item not in gone)
            made = replace(draft, scripts=draft.scripts[:k] + (Script(script.line, items),) + draft.scripts[k + 1:])
            yield replace(made, schedule=kept) if events else made


def fewer_retries(draft: Draft, events: list[Event]) -> Iterator[Draft]:
    for k, script in enumerate(draft.scripts):
        for place, item in enumerate(script.items):
            if ' retry ' in item:
                items = script.items[:place] + (item.partition(' retry ')[0],) + script.items[place + 1:]
                yield replace(draft, scripts=draft.scripts[:k] + (Script(script.line, items),) + draft.scripts[k + 1:])


def fewer_lines(draft: Draft, events: list[Event]) -> Iterator[Draft]:
    """Pages, words and guests left out, and the size of memory."""
    for gone in chunks(len(draft.head)):
        yield replace(draft, head=draft.head[:gone.start] + draft.head[gone.stop:])
    for k, line in enumerate(draft.head):
        if re.match(r'regions [0-9]+\Z', line):
            for regions in range(1, int(line[8:])):
                yield replace(draft, head=draft.head[:k] + (f'regions {regions}',) + draft.head[k + 1:])


WAYS: tuple[Callable[[Draft, list[Event]], Iterator[Draft]], ...] = (
    fewer_events, fewer_actors, fewer_items, fewer_turns, fewer_lines, fewer_retries)


def shrunk(program: Program, text: str, name: str, wanted: str, words: str) -> str:
    """The text of what is left, with the command line that made it and what it is to show."""
    shrinker = Shrinker(program, wanted, name)
    before = draft_of(text, name)
    draft = shrinker.shrunk(before)
    told = [f'# {words}', f'# {size(before)[2]} lines and {len(before.schedule)} events became {size(draft)[2]} and {len(draft.schedule)}, '
            f'by {shrinker.tries} runs; nothing more can go by itself.', f'# expect {wanted}']
    return '\n'.join(told) + '\n' + draft.text
