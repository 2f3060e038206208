"""Fault codes, statuses and error lines in words. The tables are those of docs/MODEL.md and docs/FORMATS.md."""
from __future__ import annotations

from dataclasses import dataclass

from .texts import Complaint, number_of

HYPERVISOR = 'the hypervisor: the processor leaves the guest'
GUEST = 'the guest itself'
OWN_FAULT = 'the hypervisor itself, from its own store'
NOBODY = 'nobody: the guest has no processor that runs'


@dataclass(frozen=True)
class Row:
    """A row of a table of docs/MODEL.md, by its section, what the table is of, its number if it has one, and its words."""
    section: str
    table: str
    number: int | None
    condition: str

    def __str__(self) -> str:
        number = f', row {self.number}' if self.number is not None else ','
        return f'{self.table}{number} "{self.condition}" (docs/MODEL.md, "{self.section}")'


def rows(section: str, table: str, *conditions: str) -> list[Row]:
    return [Row(section, table, k + 1, condition) for k, condition in enumerate(conditions)]


NESTED_NOT_PRESENT, NESTED_USER, NESTED_WRITE = (
    Row('Nested walk', 'a nested walk', None, condition) for condition in (
        'bit 0 (present) is clear, or the frame below is outside memory', 'bit 2 (user) is clear',
        'bit 1 (writable) is clear, and the access writes or the walk is of a guest table\'s address'))
GUEST_NOT_PRESENT, GUEST_WRITE = (
    Row('Guest walk', 'a guest walk', None, condition) for condition in (
        'bit 0 (present) is clear', 'bit 1 (writable) is clear, and the access writes'))
PRIVATE = rows('Verdicts', 'a private access', 'not assigned, or another ASID', 'another gpn', 'immutable',
               'of size 4 KB, and the leaf is of 2 MB', 'not validated',
               'the VMPL\'s permissions lack bit 0 for a read, or bit 1 for a write')
SHARED = [Row('Verdicts', 'a shared access', k + 1, 'assigned') for k in range(2)]
HOST = [Row('Verdicts', 'an access of the hypervisor', k + 1, 'assigned') for k in range(2)]
CANONICAL = Row('A guest processor\'s access', 'the begin of an access', None, 'Where the address isn\'t canonical')
OFFLINE = Row('A guest processor\'s access', 'the begin of an access', None, 'Where the guest isn\'t running')

# What RMPUPDATE tests before it looks at any entry: all of row 1.
BAD_UPDATE = [Row('RMPUPDATE and PSMASH', 'RMPUPDATE', 1, condition) for condition in (
    'F isn\'t in memory', '2 MB, and F is no multiple of 512',
    '2 MB, assigned, and the gpn is no multiple of 512 or the ASID is 0',
    'not assigned, and the ASID or the gpn isn\'t 0, or immutable', 'assigned, the ASID is 0, and the gpn isn\'t 0')]
UPDATE = rows('RMPUPDATE and PSMASH', 'RMPUPDATE', 'F isn\'t in memory', 'a frame of the range is locked',
              '4 KB, and F is in a 2 MB page; 2 MB, the range is no 2 MB page, and a frame of it is assigned',
              'a frame of the range is immutable')
SMASH = rows('RMPUPDATE and PSMASH', 'PSMASH', 'F isn\'t in memory, or is no multiple of 512', 'F\'s page is locked',
             'F is in no 2 MB page', 'F is immutable')
VALIDATE = rows('PVALIDATE and RMPADJUST', 'PVALIDATE and RMPADJUST', '2 MB asked, and the gpn is no multiple of 512',
                'f\'s page is locked', 'f isn\'t assigned, its ASID or gpn differs, or it is immutable',
                '4 KB asked, and f\'s size or the nested leaf is 2 MB', '2 MB asked, and f\'s size is 4 KB',
                'RMPADJUST: f isn\'t validated', 'RMPADJUST: the mask has a bit that the actor\'s own permissions lack',
                'RMPADJUST: the VMSA bit is asked, and the VMPL isn\'t 0')
BEGIN = {key: Row('PVALIDATE and RMPADJUST', 'the begin of PVALIDATE or RMPADJUST', None, condition) for key, condition in {
    'vmpl': 'the VMPL isn\'t 0', 'align': 'the address is no multiple of 4 KB, or of 2 MB where 2 MB is asked',
    'mask': 'the target VMPL is above 3, or the mask above 15', 'target': 'the target isn\'t greater than the VMPL'}.items()}

CONTEXT = rows('Commands of the firmware', 'the lock of a context', 'the guest isn\'t declared',
               'two of the command\'s frames are equal, as they are given', 'the context is locked',
               'the guest\'s state or its binding isn\'t as the command asks', '`activate`: the ASID is that of another declared guest',
               '`activate`: the ASID isn\'t that of the guest', '`launch_update`: the page type isn\'t 1, 3 or 4',
               '`swap_out`, `md_out` and `md_root_out`: the guest\'s counter is at its end', '`md_root_out`: the root is in use',
               '`md_root_in`: the root isn\'t in use')
PAGE = rows('Commands of the firmware', 'the lock of a page', 'the frame isn\'t in memory', 'the frame\'s page is locked',
            'the page is of 2 MB, and the command isn\'t `page_reclaim`', 'the page\'s state isn\'t one that the command asks',
            'the command asks for a page of the guest, and the page\'s ASID is another',
            'the source of `md_out` and `md_root_out`: an entry in use is another guest\'s',
            'the metadata page of `swap_out` and `md_out`: the entry is in use',
            'the metadata page of `swap_in` and `md_in`: the entry isn\'t in use, or is of another kind',
            'the metadata page of `swap_in` and `md_in`: the entry is another guest\'s')
COMPUTE = rows('Commands of the firmware', 'the compute', '`swap_in`, `md_in` and `md_root_in`: the tags differ',
               '`md_in` and `md_root_in`: the opened page has an entry in use of another guest')
# The rows of the commands, by the status that they give.
FIRMWARE_ROWS = {0x02: [CONTEXT[3]], 0x09: [PAGE[0]], 0x0B: [COMPUTE[0]], 0x0C: [CONTEXT[4]],
                 0x16: [CONTEXT[0], CONTEXT[1], CONTEXT[5], CONTEXT[6]], 0x19: [PAGE[2]], 0x1A: [PAGE[3]],
                 0x1B: [CONTEXT[8], CONTEXT[9], PAGE[6], PAGE[7]], 0x1C: [PAGE[4], PAGE[5], PAGE[8], COMPUTE[1]], 0x1D: [CONTEXT[7]],
                 0x100: [CONTEXT[2], PAGE[1]]}

CITED = ([NESTED_NOT_PRESENT, NESTED_USER, NESTED_WRITE, GUEST_NOT_PRESENT, GUEST_WRITE, CANONICAL, OFFLINE] + PRIVATE + SHARED
         + HOST + BAD_UPDATE + UPDATE + SMASH + VALIDATE + list(BEGIN.values()) + CONTEXT + PAGE + COMPUTE)

# The rows of RMPUPDATE and PSMASH, and of the instructions of guests, by the status that they give.
STATUS_ROWS = {1: BAD_UPDATE + [SMASH[0], SMASH[2], BEGIN['align'], BEGIN['mask'], VALIDATE[0]],
               2: [UPDATE[3], SMASH[3], BEGIN['target'], VALIDATE[6], VALIDATE[7]],
               3: [UPDATE[1], SMASH[1], VALIDATE[1]], 4: [UPDATE[2]], 6: [VALIDATE[4]]}


@dataclass(frozen=True)
class Bit:
    place: int
    name: str
    words: str
    clear: str
    meaning: str

    @property
    def value(self) -> int:
        return 1 << self.place


NESTED_BITS = [
    Bit(0, 'P', 'present', 'not present', 'the fault isn\'t a not-present entry'),
    Bit(1, 'W', 'write', '', 'the access writes, or the translation is of a guest table\'s address'),
    Bit(2, 'U', 'user', '', 'always set: a guest\'s accesses are user accesses to the nested tables'),
    Bit(31, 'RMP', 'RMP', '', 'the RMP refused'),
    Bit(32, '', 'final translation', '', 'the walk or check is of the final translation'),
    Bit(33, '', 'guest table', '', 'the walk or check is of a guest table\'s address'),
    Bit(34, 'ENC', 'private', 'shared', 'the access is private, as the reads of guest tables always are'),
    Bit(35, 'SIZEM', 'another page size', '', 'PVALIDATE or RMPADJUST meets another page size'),
    Bit(36, 'VMPL', 'VMPL permissions', '', 'the permissions of the VMPL refused'),
]
KNOWN_BITS = sum(bit.value for bit in NESTED_BITS)

INSTRUCTION_STATUSES: dict[int, tuple[str, str]] = {
    0: ('SUCCESS', 'it was done'),
    1: ('FAIL_INPUT', 'an operand is none that the instruction takes'),
    2: ('FAIL_PERMISSION', 'the page or the processor doesn\'t have the permission'),
    3: ('FAIL_INUSE', 'another actor holds a lock of the page'),
    4: ('FAIL_OVERLAP', 'the range meets a page of another size'),
    6: ('FAIL_SIZEMISMATCH', 'the page is of another size than was asked'),
}
FIRMWARE_STATUSES: dict[int, tuple[str, str]] = {
    0x00: ('SUCCESS', 'the command was done'),
    0x02: ('INVALID_GUEST_STATE', 'the guest\'s state or its binding isn\'t as the command asks'),
    0x09: ('INVALID_ADDRESS', 'a frame isn\'t in memory'),
    0x0B: ('BAD_MEASUREMENT', 'the tag that was found isn\'t the one that was kept: the page is another than was swapped out'),
    0x0C: ('ASID_OWNED', 'the ASID is another guest\'s'),
    0x16: ('INVALID_PARAM', 'an operand is none that the command takes, or the guest isn\'t declared'),
    0x19: ('INVALID_PAGE_SIZE', 'the page is of 2 MB'),
    0x1A: ('INVALID_PAGE_STATE', 'the page isn\'t in a state that the command asks'),
    0x1B: ('INVALID_MDATA_ENTRY', 'the metadata entry is in use, isn\'t in use, or is of another kind than the command asks'),
    0x1C: ('INVALID_PAGE_OWNER', 'the page or the entry is another guest\'s'),
    0x1D: ('AEAD_OFLOW', 'the guest\'s counter is at its end'),
    0x100: ('PAGE_IN_USE', 'another actor holds a lock of the guest\'s context or of a page'),
}
EXIT_STATUSES: dict[int, str] = {
    0: 'the whole report was written',
    1: 'the runtime doesn\'t give the arguments, or has no room for the output\'s buffer',
    2: 'the words after the program\'s name are none of `replay`, `run` and `measure`',
    3: 'a line of the text is refused',
    4: 'the text passes a limit',
    5: 'reading failed',
    6: 'writing failed, and what was written is a front of the report',
    7: 'there wasn\'t memory enough',
    8: 'an entry of the schedule names an actor that is missing or finished',
}
REASONS: dict[str, str] = {
    'cut': 'the last line has no line feed',
    'form': 'the line\'s words fit no line that may stand there, or it has a byte outside of printable ASCII',
    'number': 'a word that should be a number is none',
    'range': 'a number is outside its range, or isn\'t the next number',
    'align': 'an address isn\'t a multiple of 8, or a page of 2 MB no multiple of 512',
    'guest': 'the guest isn\'t declared',
    'repeat': 'an ASID, a frame, or a page number of a guest stands twice',
    'end': 'the text ends without `end`',
    'after': 'a line stands after `end`',
}


def nested_words(code: int) -> str:
    """`nested page fault: present, user, RMP, final translation, private`."""
    parts = [bit.words if code & bit.value else bit.clear for bit in NESTED_BITS]
    odd = [f'bit {k}, which no fault of the model sets' for k in range(64) if code >> k & 1 and not KNOWN_BITS >> k & 1]
    return 'nested page fault: ' + ', '.join([part for part in parts if part] + odd)


def guest_fault_words(code: int) -> str:
    """The words of a page fault of the guest's own tables."""
    parts = ['present' if code & 1 else 'not present'] + (['write'] if code & 2 else [])
    odd = [f'bit {k}, which no fault of the model sets' for k in range(2, 64) if code >> k & 1]
    return 'page fault of the guest\'s own tables: ' + ', '.join(parts + odd)


def host_fault_words(code: int) -> str:
    if code == 0x80000003:
        return 'page fault of the hypervisor: present, write, RMP'
    return 'page fault of the hypervisor with a code that the model doesn\'t give'


def status_words(status: int) -> str:
    name, meaning = INSTRUCTION_STATUSES.get(status, ('', 'no status that the model gives'))
    return (f'{name}: {meaning}') if name else meaning


def firmware_words(status: int) -> str:
    name, meaning = FIRMWARE_STATUSES.get(status, ('', 'no status that the model gives'))
    return (f'firmware: {name}: {meaning}') if name else 'firmware: ' + meaning


def refusal_words(line: str) -> str:
    """An error line of the program in words."""
    words = line.split(' ')
    if words[:2] == ['error', 'scenario'] and len(words) == 4:
        return f"line {words[2]}: {REASONS.get(words[3], 'a reason that docs/FORMATS.md does not have')}"
    if words[:2] == ['error', 'limit'] and len(words) == 5:
        return f'it would have {words[3]} {words[2]}, and the most is {words[4]}'
    if words[:2] == ['error', 'schedule'] and len(words) == 4:
        return (f'entry {words[2]} of the schedule, counted from 0, names actor {words[3]}, which is missing or finished there')
    plain = {'error words': EXIT_STATUSES[2], 'error read': EXIT_STATUSES[5], 'error memory': EXIT_STATUSES[7]}
    return plain.get(line, 'no error line of the program')


def outcome_words(outcome: tuple[str, ...], kind: str) -> str:
    """An outcome in words; the kind is that of the deed that it stands behind."""
    name = outcome[0]
    value = number_of(outcome[1]) if len(outcome) > 1 else None
    if name == 'npf':
        return nested_words(value or 0)
    if name == 'pf':
        return host_fault_words(value or 0) if kind == 'host' else guest_fault_words(value or 0)
    if name == 'vc':
        return '#VC: the page isn\'t validated' if value == 0x404 else '#VC with a code that the model doesn\'t give'
    if name == 'rc':
        return instruction_words(outcome)
    if name == 'fw':
        held = f'; actor {outcome[3]} holds it' if outcome[2:3] == ('by',) and len(outcome) > 3 else ''
        return firmware_words(value or 0) + held
    return {'gp': 'general protection fault', 'offline': 'the guest isn\'t running', 'store': 'the store was made',
            'opaque': 'the word stays hidden: the frame is assigned',
            'next': 'the test failed, or there was nothing to test: the next item follows',
            'load': f"the load gave {' '.join(outcome[1:])}",
            'swap': f"the word before the write was {' '.join(outcome[1:])}",
            'cas': cas_words(outcome),
            'skipped': f"the test held: {' '.join(outcome[1:])} items are passed over"}[name]


def cas_words(outcome: tuple[str, ...]) -> str:
    if outcome[2:3] == ('yes',):
        return f'the compare found {outcome[1]}, as it expected, and wrote'
    return f"the compare found {' '.join(outcome[1:2])}, which it didn't expect, and wrote nothing"


def instruction_words(outcome: tuple[str, ...]) -> str:
    words = 'status ' + status_words(number_of(outcome[1]) or 0)
    if outcome[2:3] == ('cf',):
        return words + ('; carry flag 1: Validated was as asked, and nothing changed' if outcome[3:] == ('1',)
                        else '; carry flag 0: Validated was changed')
    return words + (f'; actor {outcome[3]} holds it' if outcome[2:3] == ('by',) and len(outcome) > 3 else '')


def nested_causes(code: int) -> list[str]:
    """The rows that can give a nested fault with this code."""
    table = 'guest table' if code >> 33 & 1 else ''
    if code >> 31 & 1 == 0:
        if not code & 1:
            return [str(NESTED_NOT_PRESENT)]
        return [str(NESTED_USER)] + ([str(NESTED_WRITE)] if code & 2 else [])
    if code >> 35 & 1:
        return [str(VALIDATE[3])]
    if code >> 36 & 1:
        return [str(PRIVATE[5])]
    if code >> 34 & 1 == 0:
        return [str(SHARED[0])]
    validate = [str(VALIDATE[2])] if not table and not code & 2 else []
    return [str(row) for row in PRIVATE[:4]] + validate


def decided(causes: list[str]) -> list[str]:
    """The lines that name what decided, or what may have."""
    if not causes:
        return []
    if len(causes) == 1:
        return ['  decided by: ' + causes[0]]
    return ['  decided by: one of these'] + ['    ' + cause for cause in causes]


def nested_lines(code: int) -> list[str]:
    """One nested fault code, taken apart."""
    lines = [f'npf 0x{code:x}: {nested_words(code)}', '  goes to: ' + HYPERVISOR]
    for bit in NESTED_BITS:
        if code & bit.value:
            label = f"bit {bit.place}{' ' + bit.name if bit.name else ''}"
            lines.append(f'  {hex(bit.value):14}{label:14}{bit.meaning}')
    if code & ~KNOWN_BITS or not code & 4 or bool(code >> 32 & 1) == bool(code >> 33 & 1):
        return lines + ['  no fault of the model has this code: it sets bit 2, one of bits 32 and 33, and no others than these']
    return lines + decided(nested_causes(code))


def kinds_of(code: int) -> list[tuple[str, list[str]]]:
    """What a bare number may be, with its lines: each reading that the model has."""
    readings: list[tuple[str, list[str]]] = []
    if code & 4 and code >> 32:
        return [('npf', nested_lines(code))]
    if code == 0x404:
        readings.append(('vc', coded('vc', code)))
    if code == 0x80000003:
        readings.append(('host', coded('pf', code)))
    if code in (0, 2, 3):
        readings.append(('pf', coded('pf', code)))
    if code in INSTRUCTION_STATUSES:
        readings.append(('rc', coded('rc', code)))
    if code in FIRMWARE_STATUSES:
        readings.append(('fw', coded('fw', code)))
    return readings or [('npf', nested_lines(code))]


def coded(kind: str, code: int) -> list[str]:
    """The lines of a code of a named kind."""
    if kind == 'npf':
        return nested_lines(code)
    if kind == 'vc':
        return [f"vc 0x{code:x}: {outcome_words(('vc', hex(code)), 'data')}", '  goes to: ' + GUEST,
                '  decided by: ' + str(PRIVATE[4])]
    if kind == 'pf' and code >> 31:
        return [f'pf 0x{code:x} behind `host`: {host_fault_words(code)}', '  goes to: ' + OWN_FAULT, '  decided by: ' + str(HOST[0])]
    if kind == 'pf':
        row = GUEST_WRITE if code & 1 else GUEST_NOT_PRESENT
        return [f'pf 0x{code:x} behind `gpt`: {guest_fault_words(code)}', '  goes to: ' + GUEST, '  decided by: ' + str(row)]
    if kind == 'rc':
        return [f'rc {code}: {status_words(code)}'] + decided([str(row) for row in STATUS_ROWS.get(code, [])])
    if kind == 'fw':
        return [f'fw 0x{code:x}: {firmware_words(code)}'] + decided([str(row) for row in FIRMWARE_ROWS.get(code, [])])
    if kind == 'status':
        return [f"exit status {code}: {EXIT_STATUSES.get(code, 'none that the program ends with')}"]
    raise Complaint(f'`{kind}` is no kind of code: npf, pf, vc, rc, fw and status are')


def code_lines(words: list[str]) -> list[str]:
    """What `explain` says of codes on its command line: `0x580000005`, `npf 0x..`, `rc 3`, `fw 0x1a`, `error ..`."""
    words = [part for word in words for part in word.split()]
    if words and words[0] == 'error':
        return [f"{' '.join(words)}: {refusal_words(' '.join(words))}"]
    lines: list[str] = []
    kind: str | None = None
    for word in words:
        value = number_of(word.lower())
        if value is None and (kind is not None or word == 'cf'):
            raise Complaint(f'`{word}` should be a number, as 0x580000005')
        if value is None:
            kind = word
            if kind in ('gp', 'offline', 'opaque'):
                lines, kind = lines + [f"{word}: {outcome_words((word,), 'data')}"], None
            continue
        if kind == 'by':
            lines.append(f"  held by: actor {value}, in the order of the scenario's `actor` lines")
        else:
            lines += coded(kind, value) if kind else [text for _, reading in kinds_of(value) for text in reading]
        kind = None
    if kind is not None:
        raise Complaint(f'`{kind}` is no code; give a number, or a kind and a number, as `rc 3`')
    return lines
