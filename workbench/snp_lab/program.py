"""The program `snp`, which is asked and never replaced: the built one, or the one that `--program` or SNP names."""
from __future__ import annotations

import os
import pathlib
import re
import shutil
import subprocess
import sys
import time
from dataclasses import dataclass

from .texts import Complaint

TOP = pathlib.Path(__file__).resolve().parent.parent.parent
BUILT = TOP / 'crates/snp_cli/out/snp_cli'
SCRIPT = TOP / 'snp'
REFUSED_ENTRY = re.compile(r'error schedule ([0-9]+) ([0-9]+)\n\Z')


@dataclass(frozen=True)
class Answer:
    """What the program answered: its exit status and its output."""
    status: int
    output: str

    @property
    def refused_entry(self) -> tuple[int, int] | None:
        """The entry of the schedule that names an actor that is missing or finished, and that actor."""
        found = REFUSED_ENTRY.match(self.output)
        return (int(found.group(1)), int(found.group(2))) if found else None


class Streams:
    """Files in memory that stand for the standard streams of one process after the other, so that a run costs little more than the
    start of its process."""

    def __init__(self) -> None:
        self.owner = os.getpid()
        self.files = [os.memfd_create(name) for name in ('in', 'out', 'err')]
        self.environment = dict(os.environb)

    def run(self, words: list[str], text: bytes) -> tuple[int, bytes, bytes]:
        for file in self.files:
            os.ftruncate(file, 0)
        written = 0
        while written < len(text):
            written += os.pwrite(self.files[0], text[written:], written)
        for file in self.files:
            os.lseek(file, 0, os.SEEK_SET)
        actions = [(os.POSIX_SPAWN_DUP2, file, stream) for stream, file in enumerate(self.files)]
        process = os.posix_spawn(words[0], words, self.environment, file_actions=actions)
        _, ended = os.waitpid(process, 0)
        output, said = (os.pread(file, os.fstat(file).st_size, 0) for file in self.files[1:])
        return (-os.WTERMSIG(ended) if os.WIFSIGNALED(ended) else os.WEXITSTATUS(ended)), output, said


STREAMS: list[Streams] = []


def spawned(words: list[str], text: bytes) -> tuple[int, bytes, bytes]:
    """The exit status of a process (below 0 for a signal), its output, and what it said on standard error."""
    if not hasattr(os, 'memfd_create'):
        ended = subprocess.run(words, input=text, capture_output=True, close_fds=False)
        return ended.returncode, ended.stdout, ended.stderr
    if not STREAMS or STREAMS[0].owner != os.getpid():  # a process of a pool has files of its own
        STREAMS[:] = [Streams()]
    return STREAMS[0].run(words, text)


@dataclass(frozen=True)
class Program:
    path: str

    def replay(self, text: str) -> Answer:
        return self.replay_bytes(text.encode('utf-8', 'surrogateescape'))

    def replay_bytes(self, text: bytes) -> Answer:
        return self.asked(['replay'], text)

    def asked(self, words: list[str], text: bytes) -> Answer:
        """What the program answers to these command words with a text on standard input."""
        try:
            status, output, said = spawned([self.path] + words, text)
        except OSError as fault:
            raise Complaint(f"the program can't be run: {(fault.strerror or 'unknown').lower()}", self.path) from None
        if status < 0 or not output and status not in (1, 5, 6, 7):
            last = said.decode('utf-8', 'replace').strip().split('\n')[-1]
            raise Complaint(f"the program answered nothing, and ended with {status}{': ' + last if last else ''}", self.path)
        return Answer(status, output.decode('utf-8', 'replace'))

    @property
    def is_unproved(self) -> bool:
        """Whether this is the script that has no built program behind it, so that each run takes half a minute."""
        return pathlib.Path(self.path) == SCRIPT and not os.access(BUILT, os.X_OK)


def tell_doubt() -> None:
    """Tells on standard error, as `./snp` does, where the built program isn't known to be of the sources that stand here."""
    if not (TOP / 'crates.txt').exists():  # an unpacked archive has no sources
        return
    try:
        said = subprocess.run([str(SCRIPT), 'doubt'], stdin=subprocess.DEVNULL, capture_output=True).stdout.decode('utf-8', 'replace')
    except OSError:
        return
    if said:
        print(f'snp-lab: {said.strip()}', file=sys.stderr)


def program_from(option: str | None) -> Program:
    """The program to ask: `--program`, else what SNP names, else the repository's own."""
    named = option or os.environ.get('SNP')
    if named is None and not os.access(BUILT, os.X_OK):
        return Program(str(SCRIPT))
    if named is None:
        tell_doubt()
        return Program(str(BUILT))
    path = shutil.which(named)
    if path is None:
        raise Complaint('there is no program of this name that can be run', named)
    return Program(os.path.realpath(path))


def report_or_fail(program: Program, text: str, name: str) -> str:
    """The report of a scenario; a refusal is complained of in words, at the line that it names."""
    from .codes import refusal_words  # the words need the tables of codes
    answer = program.replay(text)
    if answer.status == 0:
        return answer.output
    words = answer.output.strip().split(' ')
    line = int(words[2]) if words[:2] == ['error', 'scenario'] and len(words) == 4 else None
    told = schedule_words(text, name, *answer.refused_entry) if answer.refused_entry else refusal_words(answer.output.strip())
    raise Complaint(f'the program refuses this scenario with `{answer.output.strip()}`: {told}', name, line)


def schedule_words(text: str, name: str, entry: int, number: int) -> str:
    """Which actor an entry of the schedule names in vain: one that isn't there, or one that has finished."""
    from .scenario import parse
    scenario = parse(text, name)
    actor = scenario.actors.get(number)
    events, at = 0, 0
    for named, many in scenario.schedule:
        events += min(many, max(0, entry - at)) if named == number else 0
        at += many
    if actor is None:
        return f'entry {entry} of the order, counted from 0, names actor {number}, which is missing: actors 1 to {len(scenario.actors)} are there'
    if not actor.items:
        return f'entry {entry} of the order, counted from 0, names actor {number}, which has no item'
    return (f'entry {entry} of the order, counted from 0, names actor {number}, which has finished: it has passed its last item after '
            f'{events} event{"" if events == 1 else "s"}')


def seconds_of(program: Program, text: str) -> float:
    """How long one run takes."""
    start = time.monotonic()
    program.replay(text)
    return time.monotonic() - start
