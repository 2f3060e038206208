"""Orders by items, made into plain ones: the whole order is guessed, run once, and counted from the report.

How many events an item has is guessed from its kind. Where the report says otherwise (a fault ends an item early, a large page makes a
walk shorter) the first wrong count is put right and the order is run again.
"""
from __future__ import annotations

import re
from collections.abc import Callable
from dataclasses import dataclass

from . import commands, report
from .codes import refusal_words
from .program import Answer, Program
from .report import Event, next_item
from .scenario import ACCESSES, ORDER_LIMIT, Actor, Item, Scenario, order_lines, parse, runs_of
from .texts import Complaint, Line

WORD = re.compile(r'([0-9]+)(?:(\*[0-9]+)?(!)?|(!!)|@([a-z]+))\Z')
FORMS = ('`1` and `1*6` are events, `1!` and `1*2!` items, `1@data` goes up to the next access, and `1!!` to the script\'s '
         'end')
LEVELS = {'flat': 0, 'gcr3': 4, 'la57': 5}


def refusal(answer: Answer) -> str:
    """What is said where the program refuses a text that was made here."""
    text = answer.output.strip()
    return f'the program refuses what this becomes, with `{text}`: {refusal_words(text)}'


def usual_deeds(actor: Actor, item: Item) -> list[str]:
    """The kinds of events that an attempt of an item has where nothing goes wrong."""
    if item.word == 'skip':
        return ['skip']
    if actor.role == 'host':
        return ['host'] if item.word in ACCESSES else ['lock', 'commit']
    if actor.role == 'fw':
        deeds = [deed.split(' ')[0] for deed in commands.deeds_of(item)]
        return deeds + ['commit' if 'lock' in deeds else 'commitg']
    walk = ['begin'] + (['npt'] * 4 + ['gpt']) * LEVELS[actor.paging] + ['npt'] * 4
    return walk + (['data'] if item.word in ACCESSES else ['lock', 'commit'])


@dataclass
class Word:
    """A word of an order: `events`, `items`, `all` or `up to`, with its number or deed, and how many events it is held to have."""
    line: Line
    text: str
    kind: str
    actor: int
    many: int = 0
    deed: str = ''
    count: int = 0
    is_guessed: bool = False


def read_word(line: Line, text: str) -> Word:
    found = WORD.match(text)
    if found is None:
        line.fail(f'`{text}` is no part of an order: {FORMS}')
    actor, many, deed = int(found.group(1)), int((found.group(2) or '*1')[1:]), found.group(5)
    if deed is not None:
        if deed not in report.DEEDS:
            line.fail(f"`{deed}` is no deed: {', '.join(report.DEEDS)} are")
        return Word(line, text, 'up to', actor, deed=deed)
    if found.group(4):
        return Word(line, text, 'all', actor)
    return Word(line, text, 'items' if found.group(3) else 'events', actor, many, count=0 if found.group(3) else many)


@dataclass
class Place:
    """Where an actor stands: its item, and how many events of the attempt it has made."""
    item: int = 0
    made: int = 0


class Planner:
    """Makes the plain lines of an order's lines, all at once."""

    def __init__(self, head: list[str], name: str, program: Callable[[], Program]) -> None:
        self.head, self.name, self.make = head, name, program
        self.words: list[Word] = []
        self.scenario = Scenario(name)
        self.seen: dict[tuple[int, str], int] = {}

    def plain(self, lines: list[Line]) -> list[list[str]]:
        """The plain `order` lines of each line."""
        of_lines = [[read_word(line, text) for text in line.words[1:]] for line in lines]
        self.words = [word for words in of_lines for word in words]
        if any(word.kind != 'events' for word in self.words):
            self.scenario = parse('\n'.join(self.head + ['end']) + '\n', self.name)
            self.settle(self.make())
        made: list[list[str]] = []
        for line, words in zip(lines, of_lines):
            if sum(word.count for word in self.words) > ORDER_LIMIT:
                line.fail(f'the order has more than {ORDER_LIMIT} events')
            is_plain = all(word.kind == 'events' for word in words) and len(words) <= 16
            spelled = [word.actor for word in words for _ in range(word.count)]
            made.append([line.text] if is_plain else order_lines(runs_of(spelled), short=True))
        return made

    def settle(self, program: Program) -> None:
        """Guesses all counts, and puts the first wrong one right as long as there is one."""
        self.guess(0, {number: Place() for number in self.scenario.actors})
        for _ in range(4 * len(self.words) + 4):
            schedule = [word.actor for word in self.words for _ in range(word.count)]
            last = {word.actor: word.kind for word in self.words}
            probes = [actor for actor, kind in last.items() if kind == 'up to']  # one event more shows the deed
            answer = self.replay(program, schedule + probes)
            refused = answer.refused_entry
            if refused is not None and refused[0] >= len(schedule):
                answer = self.replay(program, schedule)
                refused = answer.refused_entry
            if refused is None and answer.status:
                raise Complaint(refusal(answer), self.name)
            end = len(schedule) if refused is None else refused[0]
            if refused is not None:  # its events up to there say which count is wrong
                answer = self.replay(program, schedule[:end])
            if self.is_settled(report.parse(answer.output, 'the report').events, None if refused is None else end):
                return
        raise Complaint("the order's counts don't settle", self.name)

    def replay(self, program: Program, schedule: list[int]) -> Answer:
        return program.replay('\n'.join(self.head + order_lines(runs_of(schedule[:ORDER_LIMIT])) + ['end']) + '\n')

    def guess(self, first: int, places: dict[int, Place]) -> None:
        """Guesses the counts of the words from one on, each actor being where it is."""
        for word in self.words[first:]:
            place = places.setdefault(word.actor, Place())
            actor = self.scenario.actors.get(word.actor)
            items = actor.items if actor is not None else []
            if word.kind != 'events':
                word.count, word.is_guessed = 0, True
            left = word.count
            todo = {'items': word.many, 'all': len(items)}.get(word.kind, 0)
            while actor is not None and place.item < len(items) and (left if word.kind == 'events' else todo):
                deeds = max(1, self.length(actor, items[place.item]) - place.made)
                step = min(deeds, left) if word.kind == 'events' else deeds
                left, word.count, todo = left - step, word.count + (0 if word.kind == 'events' else step), todo - 1
                place.made = place.made + step if step < deeds else 0
                place.item += not place.made
            if word.kind == 'up to' and actor is not None and place.item < len(items):
                deeds_left = usual_deeds(actor, items[place.item])[place.made:]
                word.count = deeds_left.index(word.deed) if word.deed in deeds_left else len(deeds_left)
                place.made += word.count
            word.count = max(word.count, 1 if word.kind in ('items', 'all') else 0)

    def length(self, actor: Actor, item: Item) -> int:
        """How many events an attempt is held to have: as many as the last one of its kind that was seen."""
        return self.seen.get((actor.number, item.word)) or len(usual_deeds(actor, item))

    def look(self, events: list[Event]) -> None:
        """Notes how long attempts were."""
        made: dict[int, int] = {}
        for event in events:
            made[event.actor] = made.get(event.actor, 0) + 1
            if event.outcome:
                self.seen[event.actor, self.scenario.actors[event.actor].items[event.item].word] = made.pop(event.actor)

    def is_settled(self, events: list[Event], end: int | None) -> bool:
        """Whether each word has the events that it says; if not, the first that doesn't is put right, and the rest guessed anew."""
        start = 0
        self.look(events)
        for k, word in enumerate(self.words):
            behind = [event for event in events[start:] if event.actor == word.actor]
            is_cut = end is not None and end < start + word.count
            right = self.right_count(word, events[:start], events[start:start + word.count], behind, is_cut)
            if right != word.count:
                word.count = right
                if end is not None or k + 1 < len(self.words):
                    self.guess(k + 1, self.places(events[:start + right]))
                return False
            start += word.count
        return True

    def places(self, events: list[Event]) -> dict[int, Place]:
        places = {number: Place() for number in self.scenario.actors}
        for event in events:
            place = places[event.actor]
            after = next_item(self.scenario, event)
            place.made = 0 if event.outcome else place.made + 1
            place.item = after
        return places

    def right_count(self, word: Word, before: list[Event], now: list[Event], behind: list[Event], is_cut: bool) -> int:
        """How many events a word is of, as far as these tell; a larger number than it had where they don't reach."""
        if word.kind == 'events':
            if is_cut:
                word.line.fail(f'actor {word.actor} is missing or finished here: `{word.text}` names it {len(now) + 1} times or more'
                               if not now else f'actor {word.actor} has {len(now)} events left here, and not {word.count}')
            return word.count
        if not behind:
            if is_cut or word.actor not in self.scenario.actors:
                word.line.fail(f'actor {word.actor} is missing or finished here')
            return word.count + 1 if word.kind != 'up to' else word.count
        if word.kind == 'up to':
            return self.deed_count(word, behind)
        done = [k + 1 for k, event in enumerate(behind) if next_item(self.scenario, event) != event.item]
        is_all = word.kind == 'all'
        last = self.scenario.actors[word.actor].items
        if is_all:
            ends = [k for k in done if next_item(self.scenario, behind[k - 1]) >= len(last)]
            return ends[0] if ends else max(word.count, len(behind)) + 1
        if len(done) >= word.many:
            return done[word.many - 1]
        if is_cut:
            word.line.fail(f'actor {word.actor} has {len(done)} items left here, and not {word.many}')
        return word.count + 1 if len(behind) <= word.count else len(behind) + 1

    def deed_count(self, word: Word, behind: list[Event]) -> int:
        own = [event for event in behind if event.item == behind[0].item]
        for k, event in enumerate(own):
            if event.kind == word.deed:
                return k
            if next_item(self.scenario, event) != event.item:
                word.line.fail(f'item {event.item} of actor {word.actor} has no `{word.deed}` here: it ends with `{event.text}`')
        return max(word.count, len(own)) + 1
