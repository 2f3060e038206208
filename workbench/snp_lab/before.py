"""Comments that put items of different actors in order: `# before 2.1 3.0` lets item 0 of actor 3 begin once item 1 of actor 2 is done."""
from __future__ import annotations

import re

from .scenario import Scenario
from .texts import Line

Key = tuple[int, int]
MARK = re.compile(r'#\s*before\s+[0-9]')
FORM = re.compile(r'# before ([0-9]+)\.([0-9]+) ([0-9]+)\.([0-9]+)\Z')


def read_before(text: str, scenario: Scenario) -> dict[Key, list[Key]]:
    """For each item that has to wait the items that must be done before it begins, each as its actor and its place."""
    waits: dict[Key, list[Key]] = {}
    for number, part in enumerate(text.split('\n')):
        if not MARK.match(part):
            continue
        line = Line(scenario.name, number + 1, part)
        found = FORM.match(part)
        if found is None:
            line.fail('an order between items is `# before 2.1 3.0`: item 0 of actor 3 begins when item 1 of actor 2 is done')
        first, then = (int(found.group(1)), int(found.group(2))), (int(found.group(3)), int(found.group(4)))
        for actor, item in (first, then):
            if actor not in scenario.actors or item >= len(scenario.actors[actor].items):
                line.fail(f'there is no item {item} of actor {actor}; items are counted from 0')
        if first[0] == then[0]:
            line.fail(f'both items are of actor {first[0]}, whose items come in their order anyway')
        waits.setdefault(then, []).append(first)
        if waits_for(waits, first, then):
            line.fail('with the lines above it, this line lets no order of the items')
    return waits


def waits_for(waits: dict[Key, list[Key]], key: Key, other: Key) -> bool:
    """Whether an item can begin only after another is done, by the lines and by the order of each script."""
    seen: set[Key] = set()
    open_ones = [key]
    while open_ones:
        actor, item = open_ones.pop()
        if actor == other[0] and item >= other[1]:
            return True
        for place in range(item + 1):
            for first in waits.get((actor, place), []):
                if first not in seen:
                    seen.add(first)
                    open_ones.append(first)
    return False
