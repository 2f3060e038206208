"""The command line of `snp-lab`."""
from __future__ import annotations

import argparse
import os
import shlex
import sys
from collections.abc import Callable
from typing import TYPE_CHECKING, NoReturn

from .texts import Complaint, read_text, shown

if TYPE_CHECKING:
    from .report import Report
    from .scenario import Scenario

FAILED = 1
COMPLAINED = 2
STOPPED = 130

MAIN = """Makes scenarios for `snp` and reads its reports. Nothing here is proved: the proved program makes every run.

A file `-` is standard input. `snp-lab COMMAND --help` says more of a command, and docs/WORKBENCH.md is a tour.
"""
PROGRAM_HELP = 'the program that replays; else the one that SNP names, else the repository\'s own'


class Parser(argparse.ArgumentParser):
    """A parser whose complaints look like all others."""

    def error(self, message: str) -> NoReturn:
        raise Complaint(f'{message}; `{self.prog} --help` shows how')


def parser() -> Parser:
    top = Parser(prog='snp-lab', description=MAIN, formatter_class=argparse.RawDescriptionHelpFormatter)
    commands = top.add_subparsers(dest='command', metavar='COMMAND')
    for name, add in COMMANDS.items():
        add(commands, name)
    return top


def add_command(commands: argparse._SubParsersAction[Parser], name: str, summary: str, text: str,
                run: Callable[[argparse.Namespace], int]) -> Parser:
    made: Parser = commands.add_parser(name, help=summary, description=text, formatter_class=argparse.RawDescriptionHelpFormatter)
    made.set_defaults(run=run)
    return made


def one_standard_input(names: list[str]) -> None:
    if names.count('-') > 1:
        raise Complaint('`-` stands twice: standard input can be read once')


# explain

EXPLAIN = """Says in words what the events of a report are: fault codes and statuses, which row of which table of docs/MODEL.md
decided, as far as scenario and report determine it, and who gets a fault.

    snp-lab explain SCENARIO REPORT              each event with a fault, a refusal or a hidden word
    snp-lab explain --all SCENARIO REPORT        each event
    snp-lab explain --event 18 SCENARIO REPORT   one event
    snp-lab explain 0x1580000007                 one code, taken apart
    snp-lab explain rc 3 fw 0x1a pf 0x2          codes and statuses by their kind: npf, pf, vc, rc, fw, status
    snp-lab explain 'error schedule 6 1'         a refusal of the program

REPORT may be left out where the scenario's own `order` lines are to be replayed.
"""


def add_explain(commands: argparse._SubParsersAction[Parser], name: str) -> None:
    made = add_command(commands, name, 'fault codes and statuses in words, with what decided', EXPLAIN, run_explain)
    made.add_argument('words', nargs='+', metavar='WORD', help='SCENARIO and REPORT, or codes')
    made.add_argument('--all', action='store_true', help='each event, not just those that went wrong')
    made.add_argument('--event', type=int, metavar='K', help='event K alone')
    made.add_argument('--program', metavar='PATH', help=PROGRAM_HELP)


def run_explain(options: argparse.Namespace) -> int:
    from .codes import code_lines
    from .texts import number_of
    words: list[str] = options.words
    kinds = ('npf', 'pf', 'vc', 'rc', 'fw', 'status', 'gp', 'offline', 'opaque')
    first = words[0].split(' ')[0]
    if not os.path.exists(words[0]) and (number_of(first.lower()) is not None or first in kinds + ('error',)):
        print('\n'.join(code_lines(words)))
        return 0
    return explain_run(options)


def explain_run(options: argparse.Namespace) -> int:
    from .explain import explained
    if len(options.words) > 2:
        raise Complaint('`explain` takes a scenario and its report, or codes')
    scenario, report = pair(options.words, options.program)
    lines = explained(scenario, report, options.all, options.event)
    print('\n'.join(lines))
    return 0


def pair(names: list[str], program: str | None) -> tuple[Scenario, Report]:
    """A scenario and its report, which the program is asked for where it isn't given."""
    from .program import program_from, report_or_fail
    from .report import parse as parse_report
    from .scenario import parse as parse_scenario
    one_standard_input(names)
    text = read_text(names[0])
    scenario = parse_scenario(text, shown(names[0]))
    if len(names) > 1:
        return scenario, parse_report(read_text(names[1]), shown(names[1]))
    return scenario, parse_report(report_or_fail(program_from(program), text, shown(names[0])), 'the report')


# brief

BRIEF = """Prints the lines of a report that have an outcome: those of accesses (`data`, `host`), of commits, of faults and
refusals, and of skips. Begins, reads of tables that went on and locks that were taken are left out.
"""


def add_brief(commands: argparse._SubParsersAction[Parser], name: str) -> None:
    made = add_command(commands, name, 'outcomes, data and host lines of a report alone', BRIEF, run_brief)
    made.add_argument('report', metavar='REPORT')


def run_brief(options: argparse.Namespace) -> int:
    from .report import parse
    report = parse(read_text(options.report), shown(options.report))
    for event in report.events:
        if event.ends or event.kind in ('data', 'host'):
            print(event.text)
    return 0


# test

TEST = """Runs scenarios that say in comment lines what they must report, and compares. The output is TAP; the exit status is 0
where all is as expected, 1 where something isn't, and 2 where nothing could be run.

    # expect 5 1 0.0 data 0x0:2 8 p store     this line must stand in the report
    # expect * 1 1.0 data ... npf 0x58*       `*` is a word or a part of one, `...` is any words
    # expect no ... pf *                      no line like it may stand there
    # expect 2 times ... npf *                as many lines must be like it
    # expect guest 1 running -                a guest's line
    # expect status 8                         the exit status, 0 where none is said
    # expect error schedule 6 1               the error line of a refusal
    # expect never ... load 0x6               no order of the scripts' events has such a line in its report
    # expect possible * 1 1.0 ... npf *       some order has one
    # expect always ... host 8:2 load 0x0     each order has one

FILE may be a folder, for all scenarios `*.snp` below it. A file without any such line is told, and isn't passed. The last three ask all
interleavings, as `explore` does, and say whether all were tried, and give a schedule; `# before 2.1 3.0` lets item 0 of actor 3 begin when item
1 of actor 2 is done.
"""


def add_test(commands: argparse._SubParsersAction[Parser], name: str) -> None:
    made = add_command(commands, name, 'scenarios that say what they must report, run and compared', TEST, run_test)
    made.add_argument('files', nargs='+', metavar='FILE')
    made.add_argument('--junit', metavar='FILE', help='writes the results as JUnit XML too')
    made.add_argument('--most', type=int, default=20000, metavar='N',
                      help='the most runs that are made for the lines of a file that all orders answer (20000)')
    made.add_argument('--program', metavar='PATH', help=PROGRAM_HELP)


def run_test(options: argparse.Namespace) -> int:
    from .expect import run_cases
    from .program import program_from
    one_standard_input(options.files)
    return run_cases(options.files, lambda: program_from(options.program), options.junit, options.most)


# write

WRITE = """Makes a plain scenario of a short one, which stands in the comments of what comes out.

    map 1 root 1: 0x0..0x7 -> 64..71      nested tables of guest 1 from frame 1 on; the tables between take frames that no
                                          line names; `read-only` may end the line
    map 1 root 1: 0x200 -> big 2m         one entry for the 512 pages from this one on
    frame decoy 9                         names frame 9; without a number, a frame that no other line names
    frame big 2m                          names the first of 512 such frames, for a page of 2 MB
    guest 1 opened asid 1                 counter 0 and a key of zeros
    page 64..71 of 1 at 0x0               `4k valid 0 0 0`, for each of the frames
    page big of 1 at 0x200 2m             `valid 0 0 0`, a page of 2 MB
    store leaf(1,0x0) entry(decoy)        leaf(ROOT,PAGE): address of the entry that maps a page; addr(FRAME,INDEX): a word's
                                          address; entry(FRAME): an entry that leads there, with bits 0 present, 1 writable and
                                          2 user (or entry(FRAME,BITS)); large(FRAME): one of 2 MB, bit 7 too; shared(PAGE): an
                                          entry of a guest's own tables, bits 0 present and 1 writable; private(PAGE): bit 51
                                          (private) too. The comment above the plain line tells the bits again
    load 0x10 tries 3                     a load, store, swap or xor that is made again where a fault ends it, up to 3 times in all:
                                          copies with `skip N if ok` between, which a skip that passes over them has to count
    rmpupdate decoy of 1 at 0x3           the hypervisor gives the frame to guest 1; `2m`, `immutable` and `retry N` may follow
    rmpupdate context firmware            the frame becomes the firmware's, as one for a guest's context
    launch_update 1 first..second         each frame is launched as a NORMAL page; or with the type, flag and permissions behind it
    rmpupdate big free 2m                 it takes the page of 2 MB back; without `2m`, the frame
    psmash big                            as in plain scenarios
    order 1! 1@data 2*3! 1!!              one item of actor 1; up to its next access, `2@commit` to a commit; three items of
                                          actor 2; to the end of actor 1's script; and `1`, `1*6` as in plain scenarios

Lines may come in any order. `snp`, `regions` and `end` may be left out. Where the order is by items, `snp` is asked.
"""


def add_write(commands: argparse._SubParsersAction[Parser], name: str) -> None:
    made = add_command(commands, name, 'a plain scenario of a short one', WRITE, run_write)
    made.add_argument('file', metavar='SHORT')
    made.add_argument('--program', metavar='PATH', help=PROGRAM_HELP)


def run_write(options: argparse.Namespace) -> int:
    from .program import program_from
    from .write import written
    text = written(read_text(options.file), shown(options.file), lambda: program_from(options.program))
    sys.stdout.write(text)
    return 0


# explore

EXPLORE = """Runs all interleavings of a scenario's scripts, or random ones where there are too many, and tells which outcomes each
item can have, with one schedule for each. The scenario's own `order` lines are passed over.

    snp-lab explore SCENARIO
    snp-lab explore --joint SCENARIO                                 also the outcomes of whole runs
    snp-lab explore --until '* 1 1.0 data ... npf *' SCENARIO        a schedule whose report has a line like it

A comment `# before 2.1 3.0` in the scenario lets item 0 of actor 3 begin when item 1 of actor 2 is done.

Events that touch no word, RMP entry or lock in common give the same outcomes in any order, and what comes behind equal states is the
same, so of interleavings that differ by no more one is run; --full runs each. Ctrl-C ends a search with what was found. With --until
the exit status is 1 where no run has such a line. Patterns are those of `test`; one that begins with `*` or `...` leaves the event's number open, and
any other one makes the search full.
"""


def add_explore(commands: argparse._SubParsersAction[Parser], name: str) -> None:
    made = add_command(commands, name, 'all interleavings, and the outcomes that each item can have', EXPLORE, run_explore)
    made.add_argument('scenario', metavar='SCENARIO')
    made.add_argument('--most', type=int, default=20000, metavar='N', help='the most runs that are made to try all (20000); 0 for none')
    made.add_argument('--random', type=int, default=1000, metavar='N', help='random runs beyond that (1000)')
    made.add_argument('--seed', type=int, default=1, metavar='N', help='what the random runs are drawn from (1)')
    made.add_argument('--seconds', type=float, metavar='S', help='ends the search after so long')
    made.add_argument('--until', action='append', default=[], metavar='PATTERN',
                      help='ends at a run with such a line; all, where several are given')
    made.add_argument('--after', type=int, default=0, metavar='K',
                      help='the first K events of the scenario\'s own order come first in each run')
    made.add_argument('--joint', action='store_true', help='the outcomes of whole runs too')
    made.add_argument('--full', action='store_true', help='each interleaving, also those that differ by commuting events alone')
    made.add_argument('--jobs', type=int, metavar='N', help='how many processes run at once (one for each processor)')
    made.add_argument('--program', metavar='PATH', help=PROGRAM_HELP)


def run_explore(options: argparse.Namespace) -> int:
    from .explore import Options, default_jobs, explore
    from .program import program_from
    for name in ('most', 'random', 'after'):
        if getattr(options, name) < 0:
            raise Complaint(f'--{name} should be 0 or more')
    text = read_text(options.scenario)
    program = program_from(options.program)
    if program.is_unproved:
        print('snp-lab: no proved program is built, so each run takes half a minute; `./snp build` makes one, and --program names another',
              file=sys.stderr)
    made = Options(options.most, options.random, options.seed, options.jobs or default_jobs(), options.full, options.joint,
                   options.after, options.seconds, options.until)
    return explore(program, text, shown(options.scenario), made)


# drill

DRILL = """Prints the scenario of a drill's number with the order that the drill picks, as a text that `snp replay` takes. The report of
that text is compared with the digest that `snp drill N` prints.

    snp-lab drill 7 > drill7.snp
"""


def add_drill(commands: argparse._SubParsersAction[Parser], name: str) -> None:
    made = add_command(commands, name, 'the scenario of a drill with the order that it picks', DRILL, run_drill)
    made.add_argument('number', metavar='N')
    made.add_argument('--program', metavar='PATH', help=PROGRAM_HELP)


def run_drill(options: argparse.Namespace) -> int:
    from .drill import drilled
    from .program import program_from
    from .texts import decimal_of
    number = decimal_of(options.number)
    if number is None or number >= 1 << 64:
        raise Complaint(f'`{options.number}` should be a number, decimal and below 2^64')
    sys.stdout.write(drilled(program_from(options.program), number))
    return 0


# shrink

SHRINK = """Prints the smallest scenario and order found whose report still has a line like a pattern, or that still ends with a status.
Turns, items, actors, pages, words, retries and memory are left out in turn, until nothing more can go by itself. Patterns are those of
`test`; `*` for the numbers of event and item lets more go.

    snp-lab shrink SCENARIO '* 1 *.* data ... npf *'
    snp-lab shrink SCENARIO 'status 8'
"""


def add_shrink(commands: argparse._SubParsersAction[Parser], name: str) -> None:
    made = add_command(commands, name, 'the smallest scenario found that still shows a line or a status', SHRINK, run_shrink)
    made.add_argument('scenario', metavar='SCENARIO')
    made.add_argument('pattern', metavar='PATTERN')
    made.add_argument('--program', metavar='PATH', help=PROGRAM_HELP)


def run_shrink(options: argparse.Namespace) -> int:
    from .program import program_from
    from .shrink import shrunk
    if not options.pattern.split():
        raise Complaint('a pattern is of a report line, as `* 1 *.* data ... npf *`, or `status N`')
    words = f'snp-lab shrink {shlex.quote(options.scenario)} {shlex.quote(options.pattern)}'
    sys.stdout.write(shrunk(program_from(options.program), read_text(options.scenario), shown(options.scenario), options.pattern, words))
    return 0


# view

VIEW = """Prints a page of HTML that shows a report: a column for each actor, time downwards. It is one file and asks no network.

    snp-lab view SCENARIO REPORT > page.html

An attempt is one line that unfolds, and faults are marked. A click, or the arrow keys, shows an event with its words and its
explanation, and the RMP entries that it finds; a lane beside shows a frame's entry over time. REPORT may be left out where the
scenario's own `order` lines are to be replayed.
"""


def add_view(commands: argparse._SubParsersAction[Parser], name: str) -> None:
    made = add_command(commands, name, 'a report as a page of HTML', VIEW, run_view)
    made.add_argument('scenario', metavar='SCENARIO')
    made.add_argument('report', metavar='REPORT', nargs='?')
    made.add_argument('--program', metavar='PATH', help=PROGRAM_HELP)


def run_view(options: argparse.Namespace) -> int:
    from .view import page_of_report
    names = [options.scenario] + ([options.report] if options.report is not None else [])
    sys.stdout.write(page_of_report(*pair(names, options.program)))
    return 0


COMMANDS: dict[str, Callable[[argparse._SubParsersAction[Parser], str], None]] = {
    'explain': add_explain, 'test': add_test, 'write': add_write, 'explore': add_explore, 'drill': add_drill,
    'shrink': add_shrink, 'view': add_view,
    'brief': add_brief,
}


def main(arguments: list[str]) -> int:
    """Runs a command; whatever goes wrong is told in one line on standard error."""
    try:
        options = parser().parse_args(arguments)
        if options.command is None:
            parser().print_help()
            return COMPLAINED
        status: int = options.run(options)
        sys.stdout.flush()
        return status
    except Complaint as complaint:
        print(f'snp-lab: {complaint}', file=sys.stderr)
        return COMPLAINED
    except BrokenPipeError:
        os.dup2(os.open(os.devnull, os.O_WRONLY), 1)
        return 0
    except KeyboardInterrupt:
        print('snp-lab: stopped', file=sys.stderr)
        return STOPPED
    except Exception as fault:  # a mistake of this program, which its user shouldn't meet as a trace
        if os.environ.get('SNP_LAB_TRACE'):
            raise
        print(f'snp-lab: a mistake in snp-lab itself ({type(fault).__name__}: {fault}); SNP_LAB_TRACE=1 shows where',
              file=sys.stderr)
        return COMPLAINED


def run() -> None:
    """The entry point of an installed `snp-lab`."""
    sys.exit(main(sys.argv[1:]))
