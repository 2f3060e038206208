"""The scenario of a drill's number with the order that the drill picks, checked against the digest of the drill's report.

docs/MODEL.md, "Drawn scenarios", says how scenario and order are drawn: one generator draws the items, and then goes on with the
picks among the actors that aren't finished. The program writes the scenario and says where actors finish.
"""
from __future__ import annotations

import hashlib

from . import report
from .codes import refusal_words
from .program import Answer, Program
from .report import next_item
from .scenario import ORDER_LIMIT, Scenario, order_lines, parse, runs_of, without_order
from .texts import Complaint

WORD = (1 << 64) - 1
MULTIPLIER, INCREMENT = 6364136223846793005, 3
# How many draws an item takes, by its role and word; an RMPUPDATE that frees takes one less, as it has no flag of its own.
DRAWS = {'cpu': {'load': 3, 'store': 4, 'xor': 4, 'pvalidate': 4}, 'host': {'load': 4, 'store': 4, 'xor': 5, 'rmpupdate': 5}}
DRAWS_OF_FIRMWARE = 7


class Generator:
    """PCG XSH RR 64/32 on stream 1, from a number on."""

    def __init__(self, number: int) -> None:
        self.state = self.step(number + INCREMENT & WORD)

    @staticmethod
    def step(state: int) -> int:
        return state * MULTIPLIER + INCREMENT & WORD

    def word(self) -> int:
        """The next 32 bits."""
        state = self.state
        self.state = self.step(state)
        mixed, turns = ((state >> 18) ^ state) >> 27 & 0xFFFFFFFF, state >> 59
        return (mixed >> turns | mixed << (32 - turns)) & 0xFFFFFFFF


def draws_of(scenario: Scenario) -> int:
    """How many draws made the scripts."""
    many = 0
    for actor in scenario.actors.values():
        for item in actor.items:
            frees = item.word == 'rmpupdate' and not item.operands[2]
            many += DRAWS_OF_FIRMWARE if actor.role == 'fw' else DRAWS[actor.role][item.word] - frees
    return many


def picks_of(words: list[int], unfinished: list[tuple[int, list[int]]]) -> list[int]:
    """The picks of the generator's words; each list of unfinished actors holds from an event on."""
    made: list[int] = []
    for k, (_, actors) in enumerate(unfinished):
        end = unfinished[k + 1][0] if k + 1 < len(unfinished) else len(words)
        made += [actors[word % len(actors)] for word in words[len(made):end]] if actors else []
    return made


def checked(answer: Answer, what: str) -> str:
    if answer.status:
        raise Complaint(f'`snp {what}` ended with {answer.status}: {refusal_words(answer.output.strip())}')
    return answer.output


def drilled(program: Program, number: int) -> str:
    """The text of a drill, which `replay` takes."""
    text = checked(program.asked(['gen', str(number)], b''), f'gen {number}')
    drill = dict(line.split(' ') for line in checked(program.asked(['drill', str(number)], b''), f'drill {number}').split('\n')[:-1])
    scenario, head = parse(text, f'the scenario of {number}'), without_order(text)
    generator = Generator(number)
    for _ in range(draws_of(scenario)):
        generator.word()
    words = [generator.word() for _ in range(min(ORDER_LIMIT, 2 * int(drill['events']) + 1024))]
    unfinished = [(0, sorted(scenario.actors))]
    for _ in range(len(scenario.actors) + 1):
        picks = picks_of(words, unfinished)
        answer = program.replay('\n'.join(head + order_lines(runs_of(picks)) + ['end']) + '\n')
        if answer.refused_entry is not None:
            picks = picks[:answer.refused_entry[0]]
            answer = program.replay('\n'.join(head + order_lines(runs_of(picks)) + ['end']) + '\n')
        found = report.parse(checked(answer, 'replay'), 'the report')
        gone = next_end(scenario, found, unfinished[-1])
        if gone is None:
            break
        unfinished.append((gone[0], [actor for actor in unfinished[-1][1] if actor != gone[1]]))
        if not unfinished[-1][1]:
            return with_check(number, head, picks_of(words, unfinished), program, drill)
    raise Complaint(f"the picks of drill {number} don't come to an end")


def next_end(scenario: Scenario, found: report.Report, since: tuple[int, list[int]]) -> tuple[int, int] | None:
    """Behind how many events the next actor has finished, and that actor."""
    for event in found.events[since[0]:]:
        if event.actor in since[1] and next_item(scenario, event) >= len(scenario.actors[event.actor].items):
            return event.number + 1, event.actor
    return None


def with_check(number: int, head: list[str], picks: list[int], program: Program, drill: dict[str, str]) -> str:
    """The text, after its report was seen to be the drill's."""
    lines = head + order_lines(runs_of(picks)) + ['end']
    output = checked(program.replay('\n'.join(lines) + '\n'), 'replay')
    digest = hashlib.sha256(output.encode()).hexdigest()
    if digest != drill['report'] or len(picks) != int(drill['events']):
        raise Complaint(f"the report of these picks has the SHA-256 {digest} and {len(picks)} events, and drill {number} says "
                        f"{drill['report']} and {drill['events']}")
    told = [f'# Drill {number} in the order that it picks: its report has {len(picks)} events and the SHA-256',
            f'# {digest}, as `snp drill {number}` says.', f"# expect end {drill['events']}"]
    return '\n'.join(told + lines) + '\n'
