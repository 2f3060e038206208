"""Reports of `snp replay`, with the deeds and outcomes of the forms to come."""
from __future__ import annotations

import re
from dataclasses import dataclass, field

from .scenario import Scenario
from .texts import Complaint, Line, decimal_of, number_of, told_lines

GOOD = ('load', 'store', 'swap', 'opaque')
# How many words each deed has, its own among them.
DEEDS = {'begin': 1, 'npt': 3, 'gpt': 4, 'data': 4, 'host': 2, 'lock': 2, 'lockg': 2, 'compute': 1, 'commit': 4,
         'commitg': 2, 'skip': 1}
OUTCOMES = ('load', 'opaque', 'store', 'swap', 'cas', 'gp', 'offline', 'pf', 'npf', 'vc', 'rc', 'fw', 'next', 'skipped')
HEAD = re.compile(r'(0|[1-9][0-9]*) (0|[1-9][0-9]*) (0|[1-9][0-9]*)\.(0|[1-9][0-9]*) (.+)\Z')
PLACE = re.compile(r'(0x[0-9a-f]+|[0-9]+):([0-9]+)\Z')


@dataclass(frozen=True)
class Event:
    """One event: its number, actor, item and attempt, the words of its deed and those of its outcome."""
    number: int
    actor: int
    item: int
    attempt: int
    deed: tuple[str, ...]
    outcome: tuple[str, ...]

    @property
    def kind(self) -> str:
        return self.deed[0]

    @property
    def ends(self) -> bool:
        return bool(self.outcome)

    @property
    def answer(self) -> str:
        return ' '.join(self.outcome)

    @property
    def rest(self) -> str:
        """The line without its number."""
        return ' '.join((f'{self.actor} {self.item}.{self.attempt}',) + self.deed + self.outcome)

    @property
    def text(self) -> str:
        return f'{self.number} {self.rest}'

    @property
    def place(self) -> tuple[int, int]:
        """Where the deed reads or writes: a frame or a guest's page, and the word's index there."""
        found = PLACE.match(self.deed[1])
        assert found is not None
        return int(found.group(1), 0), int(found.group(2))

    @property
    def frame(self) -> int:
        """The frame of a table's read or of an access."""
        return int(self.deed[2]) if self.kind in ('gpt', 'data') else self.place[0]

    @property
    def is_good(self) -> bool:
        """Whether a skip would find the outcome good."""
        if not self.outcome:
            return False
        if self.outcome[0] == 'cas':
            return self.outcome[2] == 'yes'
        if self.outcome[0] in ('rc', 'fw'):
            return self.outcome[1] in ('0', '0x0')
        return self.outcome[0] in GOOD

    @property
    def is_fault(self) -> bool:
        return bool(self.outcome) and self.outcome[0] in ('gp', 'offline', 'pf', 'npf', 'vc')


def next_item(scenario: Scenario, event: Event) -> int:
    """The item that an actor is at behind one of its events."""
    if not event.outcome:
        return event.item
    if event.outcome[0] == 'skipped':
        return event.item + 1 + int(event.outcome[1])
    in_use = 'by' in event.outcome
    return event.item if in_use and event.attempt < scenario.actors[event.actor].items[event.item].retries else event.item + 1


@dataclass
class Report:
    name: str
    version: int = 1
    events: list[Event] = field(default_factory=list)
    guests: dict[int, tuple[str, str]] = field(default_factory=dict)
    lines: list[str] = field(default_factory=list)


def shaped(line: Line, deed: tuple[str, ...]) -> None:
    """Complains of a deed whose words don't have the shape of its kind."""
    kind = deed[0]
    places = {'npt': 1, 'gpt': 1, 'data': 1, 'host': 1}
    if kind in places and not PLACE.match(deed[1]):
        line.fail(f'`{deed[1]}` should be a frame or page and an index, as `4:0`')
    if kind in ('lock', 'lockg', 'commit', 'commitg') and decimal_of(deed[1]) is None:
        line.fail(f'`{deed[1]}` should be a frame or a guest')
    if kind == 'commit' and (number_of(deed[2]) is None or deed[3] not in ('4k', '2m')):
        line.fail(f'`{deed[2]} {deed[3]}` should be a page and its size')
    if kind in ('gpt', 'data') and decimal_of(deed[2]) is None:
        line.fail(f'`{deed[2]}` should be a frame')
    if kind == 'npt' and number_of(deed[2]) is None or kind == 'gpt' and deed[3] != '-' and number_of(deed[3]) is None:
        line.fail(f'`{deed[-1]}` should be the word that was read')


def check_outcome(line: Line, outcome: tuple[str, ...]) -> None:
    name = outcome[0]
    if name not in OUTCOMES:
        line.fail(f"`{' '.join(outcome)}` is no outcome that a report has")
    least = {'cas': 3, 'opaque': 1, 'store': 1, 'gp': 1, 'offline': 1, 'next': 1}.get(name, 2)
    if len(outcome) < least:
        line.fail(f"the outcome `{' '.join(outcome)}` is cut")
    if least >= 2 and number_of(outcome[1]) is None:
        line.fail(f'`{outcome[1]}` of the outcome should be a number')
    if name == 'rc' and outcome[2:] and (len(outcome) != 4 or outcome[2] not in ('by', 'cf') or number_of(outcome[3]) is None):
        line.fail(f"`{' '.join(outcome)}` should be a status, and may end with `by ACTOR` or `cf 0`")


def read_event(line: Line, expected: int) -> Event:
    found = HEAD.match(line.text)
    if found is None:
        line.fail(f'this is no line of a report: `{line.text[:60]}`')
    number, actor, item, attempt = (int(found.group(k)) for k in range(1, 5))
    if number != expected:
        line.fail(f'this event should have the number {expected}, and has {number}')
    words = tuple(found.group(5).split(' '))
    many = DEEDS.get(words[0])
    if many is None:
        line.fail(f'`{words[0]}` is no deed that a report has')
    if len(words) < many:
        line.fail(f'a `{words[0]}` event has {many} words, and this one is cut')
    shaped(line, words[:many])
    if words[many:]:
        check_outcome(line, words[many:])
    return Event(number, actor, item, attempt, words[:many], words[many:])


def parse(text: str, name: str) -> Report:
    """A report from its text."""
    report = Report(name)
    ended = False
    for line in told_lines(text, name):
        words = line.words
        report.lines.append(line.text)
        if ended:
            line.fail('this line stands after the report\'s `end`')
        if len(report.lines) == 1:
            if words[0] == 'error':
                line.fail(f"this is no report but the program's refusal `{line.text}`")
            if words[0] != 'snp-report' or len(words) != 2 or words[1] not in ('1', '2'):
                line.fail(f'a report begins with `snp-report 1` or `snp-report 2`, and this text with `{line.text[:60]}`')
            report.version = int(words[1])
        elif words[0] == 'order':
            pass
        elif words[0] == 'guest' and len(words) == 4 and words[1].isdecimal():
            report.guests[int(words[1])] = (words[2], words[3])
        elif words[0] == 'end':
            ended = True
            if line.text != f'end {len(report.events)}':
                line.fail(f'the report ends with `{line.text}`, and has {len(report.events)} events: a part of it is missing')
        else:
            report.events.append(read_event(line, len(report.events)))
    if not ended:
        raise Complaint('the report ends without its `end` line: a part of it is missing', name, text.count('\n') + 1)
    return report
