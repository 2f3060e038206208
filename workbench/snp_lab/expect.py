"""Scenarios that say what they must report, run and compared; `results` prints what came of them."""
from __future__ import annotations

import os
import pathlib
import re
import time
from collections.abc import Callable, Sequence
from dataclasses import dataclass, field

from . import litmus
from .codes import refusal_words
from .patterns import pattern_of
from .program import Answer, Program
from .texts import Complaint, Line, decimal_of, read_bytes, shown

MARK = re.compile(r'#[ ]?expect(?![^ ])')
FIRST = re.compile(r'#+\s*([A-Za-z]+):?(?:\s+(\S+))?')
# What stands behind `expect`, by which a comment with a word near it is told from prose.
BEHIND = re.compile(r'(?:[0-9]+|\*|\.\.\.|no|never|possible|always|status|guest|error|end)\Z')
PROSE = ('except', 'expected', 'expects', 'expecting', 'expert')
FORMS = ('`# expect LINE`, `# expect no LINE`, `# expect N times LINE`, `# expect status N`, and `# expect never`, `possible` or `always` '
         'with a line')


def is_near(word: str) -> bool:
    """Whether a word is `expect` but for one letter, or for two that changed places."""
    wanted = 'expect'
    if word == wanted:
        return True
    swapped = any(word == wanted[:k] + wanted[k + 1] + wanted[k] + wanted[k + 2:] for k in range(len(wanted) - 1))
    letters = 'abcdefghijklmnopqrstuvwxyz'
    gone = any(word == wanted[:k] + wanted[k + 1:] for k in range(len(wanted)))
    other = any(word == wanted[:k] + letter + wanted[k + 1:] for k in range(len(wanted)) for letter in letters)
    more = any(word == wanted[:k] + letter + wanted[k:] for k in range(len(wanted) + 1) for letter in letters)
    return swapped or gone or other or more


def nearly(text: str) -> str | None:
    """The word of a comment that was meant as `expect`, if there is one."""
    found = FIRST.match(text)
    if found is None or MARK.match(text):
        return None
    word, behind = found.group(1), found.group(2) or ''
    is_meant = BEHIND.match(behind) is not None if word.lower() in PROSE else is_near(word.lower())
    return word if is_meant else None


@dataclass(frozen=True)
class Expectation:
    """One `# expect` line: what must stand (or not) in the output, how often, the exit status, or what all orders must show."""
    line: Line
    kind: str
    pattern: str
    number: int = 0

    @property
    def title(self) -> str:
        return self.line.text.lstrip('# ')

    @property
    def is_litmus(self) -> bool:
        return self.kind in litmus.KINDS

    def fault(self, answer: Answer) -> str | None:
        """What is wrong with an answer, if anything."""
        if self.kind == 'status':
            return None if answer.status == self.number else status_fault(answer, self.number)
        pattern = pattern_of(self.pattern)
        found = [text for text in answer.output.split('\n')[:-1] if pattern.match(text)]
        if self.kind == 'no':
            return None if not found else f'this line stands there: {found[0]}'
        if self.kind == 'times':
            return None if len(found) == self.number else f'{len(found)} lines are like it'
        return None if found else nearest(self.pattern, answer)


def status_fault(answer: Answer, wanted: int) -> str:
    words = f' ({answer.output.strip()})' if answer.status else ''
    return f'the exit status is {answer.status}{words} and not {wanted}'


def nearest(pattern: str, answer: Answer) -> str:
    """That no line is like the pattern, with the line that stands nearest: most words of it agree."""
    if answer.status:
        text = answer.output.strip()
        return f'the program refused with `{text}`: {refusal_words(text)}'
    wanted = pattern.split()

    def agreeing(text: str) -> int:
        return sum(1 for left, right in zip(wanted, text.split(' ')) if left == right)

    lines = answer.output.split('\n')[:-1]
    best = max(lines, key=agreeing, default='')
    return 'no line is like it' + (f'; the nearest is: {best}' if best and agreeing(best) else '')


@dataclass
class Case:
    """A scenario's text with its expectations."""
    name: str
    text: bytes
    expectations: list[Expectation] = field(default_factory=list)


def read_expectation(line: Line) -> Expectation | None:
    """The expectation of a comment line, if it has one."""
    found = MARK.match(line.text)
    near = nearly(line.text)
    if near is not None:
        line.fail(f'`{near}` is no `expect`, and so nothing would be tested: {FORMS}')
    if found is None:
        return None
    if '\r' in line.text or '\t' in line.text:
        line.fail('this line has ' + ('a carriage return' if '\r' in line.text else 'a tab'))
    words = line.text[found.end():].split()
    if not words:
        line.fail(f'`expect` says nothing: {FORMS}')
    if words[0] in litmus.KINDS:
        if len(words) == 1:
            line.fail(f'`expect {words[0]}` has a line, as `# expect {words[0]} ... npf *`')
        return Expectation(line, words[0], ' '.join(words[1:]))
    if words[0] == 'status':
        number = decimal_of(words[1]) if len(words) == 2 else None
        if number is None:
            line.fail('`expect status` has one number')
        return Expectation(line, 'status', '', number)
    if words[0] == 'no':
        if len(words) == 1:
            line.fail('`expect no` has a line, as `# expect no ... npf *`')
        return Expectation(line, 'no', ' '.join(words[1:]))
    if len(words) > 1 and words[1] == 'times':
        number = decimal_of(words[0])
        if number is None or len(words) == 2:
            line.fail('`expect N times` has a number and a line')
        return Expectation(line, 'times', ' '.join(words[2:]), number)
    return Expectation(line, 'stands', ' '.join(words))


def read_case(name: str) -> Case:
    """A case from its file; lines are taken apart as they are, since the program alone decides what is a scenario."""
    text = read_bytes(name)
    case = Case(shown(name), text)
    for k, part in enumerate(text.decode('utf-8', 'replace').split('\n')):
        made = read_expectation(Line(case.name, k + 1, part))
        if made is not None:
            case.expectations.append(made)
    return case


@dataclass(frozen=True)
class Result:
    """What came of one expectation: what is wrong, if anything, and what is told besides."""
    title: str
    line: int
    fault: str | None
    notes: tuple[str, ...] = ()


@dataclass
class Outcome:
    """What came of a case, and how long it took."""
    name: str
    results: list[Result]
    seconds: float = 0.0


def outcome_of(case: Case, program: Program, most: int) -> Outcome:
    """Runs a case; that it runs at all is expected where no line says another status."""
    start = time.monotonic()
    if not case.expectations:
        fault = 'it has no `# expect` line, so nothing was tested'
        return Outcome(case.name, [Result('has an `# expect` line', 0, fault)], time.monotonic() - start)
    answer = program.replay_bytes(case.text)
    made = case.expectations
    if not any(one.kind == 'status' for one in made):
        made = [Expectation(Line(case.name, 0, 'expect status 0'), 'status', '', 0)] + made
    asked = [one for one in made if one.is_litmus]
    told: dict[Expectation, Result] = {}
    if asked and answer.status in (0, 8):
        found = litmus.verdicts(program, case.text.decode('utf-8', 'replace'), case.name, [(one.kind, one.pattern) for one in asked], most)
        told = {one: litmus_result(one, verdict) for one, verdict in zip(asked, found)}
    results = [told[one] if one in told else plain_result(one, answer) for one in made]
    return Outcome(case.name, results, time.monotonic() - start)


def plain_result(one: Expectation, answer: Answer) -> Result:
    fault = status_fault(answer, 0) if one.is_litmus else one.fault(answer)
    return Result(one.title, one.line.number, fault)


def litmus_result(one: Expectation, verdict: litmus.Verdict) -> Result:
    notes = (verdict.words,) + tuple(verdict.schedule.split('\n') if verdict.schedule else ())
    return Result(one.title, one.line.number, None, notes) if verdict.holds else Result(one.title, one.line.number, notes[0], notes[1:])


def files_below(names: Sequence[str]) -> list[str]:
    """The files that names are of: a folder stands for the scenarios below it."""
    files: list[str] = []
    for name in names:
        if not os.path.isdir(name):
            files.append(name)
            continue
        below = sorted(str(path) for path in pathlib.Path(name).rglob('*.snp'))
        if not below:
            raise Complaint('there is no scenario `*.snp` in this folder', name)
        files += below
    return files


def run_cases(names: Sequence[str], make: Callable[[], Program], junit: str | None, most: int) -> int:
    """Runs files and folders and prints TAP; the exit status is 1 where an expectation isn't met."""
    from .results import junit_text, print_tap
    cases = [read_case(name) for name in files_below(names)]
    program = make()
    outcomes = [outcome_of(case, program, most) for case in cases]
    if junit is not None:
        try:
            with open(junit, 'w', encoding='utf-8') as file:
                file.write(junit_text(outcomes))
        except OSError as fault:
            raise Complaint((fault.strerror or "it can't be written").lower(), junit) from None
    return 1 if print_tap(outcomes) else 0
