"""What came of tested scenarios, as TAP and as JUnit's XML."""
from __future__ import annotations

from collections.abc import Sequence
from typing import TYPE_CHECKING
from xml.sax.saxutils import escape, quoteattr

if TYPE_CHECKING:
    from .expect import Outcome


def xml_safe(text: str) -> str:
    """A text without the control characters that XML can't have."""
    return ''.join(char if char >= ' ' or char in '\t\n' else '?' for char in text)


def tap_safe(title: str) -> str:
    """A title in which no `#` begins a directive of TAP."""
    return title.replace('#', '\\#')


def print_tap(outcomes: Sequence[Outcome]) -> int:
    """Prints TAP, and gives back how many results failed."""
    print('TAP version 13')
    print(f'1..{sum(len(outcome.results) for outcome in outcomes)}')
    number, failed = 0, 0
    for outcome in outcomes:
        for result in outcome.results:
            number += 1
            failed += result.fault is not None
            place = f'{outcome.name}:{result.line}' if result.line else outcome.name
            print(f"{'ok' if result.fault is None else 'not ok'} {number} - {place}: {tap_safe(result.title)}")
            for note in ((result.fault,) if result.fault is not None else ()) + result.notes:
                print(f'# {note}')
    print(f'# {number - failed} passed, {failed} failed')
    return failed


def junit_text(outcomes: Sequence[Outcome]) -> str:
    """A suite for each file, and a case for each of its expectations."""
    lines = ['<?xml version="1.0" encoding="UTF-8"?>']
    tests = sum(len(outcome.results) for outcome in outcomes)
    failures = sum(result.fault is not None for outcome in outcomes for result in outcome.results)
    seconds = sum(outcome.seconds for outcome in outcomes)
    lines.append(f'<testsuites tests="{tests}" failures="{failures}" errors="0" time="{seconds:.3f}">')
    for outcome in outcomes:
        failures = sum(result.fault is not None for result in outcome.results)
        name = quoteattr(xml_safe(outcome.name))
        lines.append(f'  <testsuite name={name} tests="{len(outcome.results)}" failures="{failures}" errors="0" time="{outcome.seconds:.3f}">')
        for result in outcome.results:
            title = f'line {result.line}: {result.title}' if result.line else result.title
            head = f'    <testcase classname={name} name={quoteattr(xml_safe(title))} file={name} line="{result.line}" time="0.000"'
            if result.fault is None:
                lines.append(head + '/>')
                continue
            lines.append(head + '>')
            lines.append(f'      <failure message={quoteattr(xml_safe(result.fault))}>{escape(xml_safe(chr(10).join(result.notes)))}</failure>')
            lines.append('    </testcase>')
        lines.append('  </testsuite>')
    return '\n'.join(lines + ['</testsuites>']) + '\n'
