"""The lines of `explain` for a scenario and its report."""
from __future__ import annotations

from .report import Event, Report
from .scenario import Scenario
from .tell import Teller
from .texts import Complaint


def is_notable(event: Event) -> bool:
    """Whether an event is one that its reader may ask about: a fault, a refusal or a hidden word."""
    if not event.outcome or event.kind == 'skip':
        return False
    return not event.is_good or event.outcome[0] == 'opaque' or event.outcome[:4] == ('rc', '0', 'cf', '1')


def explained(scenario: Scenario, report: Report, every: bool, number: int | None) -> list[str]:
    """The explanations of the events that are asked for, with an empty line between them. A report of another scenario is complained of
    at the first event that shows it."""
    if number is not None and not 0 <= number < len(report.events):
        raise Complaint(f'there is no event {number}: the report has {len(report.events)} events', report.name)
    teller = Teller(scenario)
    lines: list[str] = []
    for event in report.events:
        told = teller.tell(event)
        if told.misfit:
            raise Complaint(f'event {event.number}, `{event.text}`: {told.misfit}', report.name)
        wanted = event.number == number if number is not None else every or is_notable(event)
        if wanted:
            lines += ([''] if lines else []) + told.lines
        if event.number == number:
            break
    if not report.events:
        why = "the scenario's order is empty: `order` lines, or `snp run`, make a run" if not scenario.schedule else 'the report has no event'
        return [f'nothing was run, so there is nothing to explain: {why}']
    return lines or ['no event of this report is a fault or a refusal; --all explains each event']
