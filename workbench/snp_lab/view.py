"""A report as one page of HTML that needs no network: a column for each actor, time downwards."""
from __future__ import annotations

import html
import json
import os
import pathlib

from .explain import is_notable
from .lane import Recorder, frames_of, lane_of
from .report import Event, Report
from .scenario import Scenario
from .tell import Teller, Told

PAGE = pathlib.Path(__file__).resolve().parent / 'page'
SCRIPTS = ('run.js', 'memory.js', 'page.js')
FAULT, REFUSAL, PLAIN = 2, 1, 0


def told_text(told: Told) -> str:
    """What the page says of an event: lines, where a tab stands behind a line's title."""
    named = (('outcome', told.outcome), ('decided by', told.decided), ('because', told.because), ('goes to', told.receiver),
             ('misfit', told.misfit))
    return '\n'.join(told.words + [f'{part[0]}\t{part[1]}' for part in named if part[1]])


def mark_of(event: Event, told: Told) -> int:
    if event.is_fault:
        return FAULT
    return REFUSAL if told.misfit or is_notable(event) else PLAIN


def data_of(scenario: Scenario, report: Report) -> dict[str, object]:
    """What the page's script reads."""
    teller, recorder = Teller(scenario), Recorder(scenario)
    teller.watch = recorder
    texts: dict[str, int] = {}
    told_places: list[int] = []
    marks: list[int] = []
    for event in report.events:
        told = teller.tell(event)
        told_places.append(texts.setdefault(told_text(told), len(texts)))
        marks.append(mark_of(event, told))
    actors: list[dict[str, object]] = [{'number': actor.number, 'title': actor.title, 'items': [item.text for item in actor.items],
                                        'frames': [frames_of(item) for item in actor.items]} for actor in scenario.actors.values()]
    missing = sorted({event.actor for event in report.events} - set(scenario.actors))
    actors += [{'number': number, 'title': 'not in this scenario', 'items': [], 'frames': []} for number in missing]
    return {'actors': actors, 'events': [event.rest for event in report.events], 'marks': marks, 'told': told_places,
            'texts': list(texts), 'guests': [f'guest {number} {state}' for number, (state, _) in report.guests.items()],
            'lane': lane_of(recorder)}


def page_of_report(scenario: Scenario, report: Report) -> str:
    """The whole page."""
    title = 'snp: ' + os.path.basename(scenario.name)
    # no `<` in the data, so that nothing in it ends the element
    data = json.dumps(data_of(scenario, report), separators=(',', ':'), ensure_ascii=True).replace('<', '\\u003c')
    page = (PAGE / 'page.html').read_text(encoding='utf-8')
    script = '\n'.join((PAGE / name).read_text(encoding='utf-8').rstrip('\n') for name in SCRIPTS)
    parts = {'@TITLE@': html.escape(title), '@STYLE@': (PAGE / 'page.css').read_text(encoding='utf-8').rstrip('\n'),
             '@SCRIPT@': script, '@DATA@': data}
    pieces: list[str] = []
    while page:
        places = [(page.find(name), name) for name in parts if name in page]
        if not places:
            break
        at, name = min(places)
        pieces += [page[:at], parts[name]]
        page = page[at + len(name):]
    return ''.join(pieces) + page
