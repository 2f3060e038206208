"""Texts that have every form of a line, and what each of their proper fronts is answered.

    texts()           the texts of forms/ by name
    lacking(text)     the forms of docs/FORMATS.md that a text lacks
    answer_to(front)  the status and output for a proper front of a text that is read
    wrong(..)         what is wrong with the answers to one front, or to the whole
"""
import pathlib
import re
import subprocess

HERE = pathlib.Path(__file__).resolve().parent
SECONDS = 60
# The lines of docs/FORMATS.md, where a word of capitals stands for any word, and `..` for any words or none.
LINES = (
    'regions N', 'guest G opened asid A iv N key K', 'guest G new asid A iv N key K', 'page F of G at P 4k valid X Y Z',
    'page F of G at P 4k invalid X Y Z', 'page F of G at P 2m ..', 'word F I V', 'actor N cpu G vmpl V npt F flat',
    'actor N cpu G vmpl V npt F gcr3 P', 'actor N host', 'actor N fw', 'order ..', 'end')
WORDS = ('load A', 'store A V', 'swap A V', 'cas A OLD NEW', 'xor A V')
SKIPS = ('skip N if ok', 'skip N if bad', 'skip N if value V')
ITEMS = {
    'cpu': (*WORDS, 'pvalidate VA 4k 1 ..', 'pvalidate VA 4k 0 ..', 'pvalidate VA 2m ..', 'pvalidate .. retry N', 'rmpadjust VA 4k T M W ..',
            'rmpadjust VA 2m T M W ..', 'rmpadjust .. retry N'),
    'host': (*WORDS, 'rmpupdate F 4k B A P I ..', 'rmpupdate F 2m B A P I ..', 'rmpupdate .. retry N', 'psmash F ..', 'psmash F retry N'),
    'fw': ('gctx_create G F ..', 'activate G A ..', 'launch_start G ..', 'launch_update G F T I X Y Z ..', 'launch_finish G ..', 'md_init F ..',
           'page_move G SRC DST ..', 'swap_out G SRC DST MD E ..', 'swap_in G SRC DST MD E ..', 'md_out G SRC DST MD E ..',
           'md_in G SRC DST MD E ..', 'md_root_out G SRC DST ..', 'md_root_in G SRC DST ..', 'page_reclaim F ..', '.. retry N')}


def texts():
    return {path.name: path.read_bytes() for path in sorted((HERE / 'forms').glob('*.snp'))}


def has(lines, form):
    """Whether one of the lines has a form."""
    pattern = ' '.join('.*' if word == '..' else r'\S+' if word.isupper() else re.escape(word) for word in form.split(' '))
    return any(re.fullmatch(pattern.replace(' .*', '( .*)?'), line) for line in lines)


def by_role(lines):
    """The items of a text, by the role of their actor."""
    items, role = {role: [] for role in ITEMS}, None
    for line in lines:
        actor = re.match(r'actor \S+ (\S+)', line)
        role = actor[1] if actor else None if line.startswith('order ') else role
        if role and not actor:
            items[role].append(line)
    return items


def lacking(text):
    lines = [line for line in text.decode().splitlines() if line and not line.startswith('#')]
    forms = LINES if lines[0] == 'snp 1' else (*LINES, 'actor N cpu G vmpl V npt F la57 P')
    items = by_role(lines)
    lack = [form for form in (*forms, *SKIPS) if not has(lines, form)]
    return lack + [f'{role}: {form}' for role, forms in ITEMS.items() for form in forms if not has(items[role], form)]


def answer(program, text):
    ended = subprocess.run([program, 'replay'], input=text, stdout=subprocess.PIPE, stderr=subprocess.DEVNULL, timeout=SECONDS)
    return ended.returncode, ended.stdout


def answer_to(front):
    """`cut` where it ends inside a line, else `end` with the number of the line that is missing."""
    reason = 'end' if not front or front.endswith(b'\n') else 'cut'
    return 3, b'error scenario %d %s\n' % (front.count(b'\n') + 1, reason.encode())


def wrong(program, beside, text, end):
    """What is wrong with the answer to the first bytes of a text, which is read where they are all; a second program answers the same."""
    front = text[:end]
    given = answer(program, front)
    fits = given == answer_to(front) if end < len(text) else given[0] == 0
    faults = [] if fits else [f'got {given[0]} {given[1][:80]}']
    if beside:
        other = answer(beside, front)
        faults += [] if other == given else [f'{given[0]} {given[1][-80:]}, the other program {other[0]} {other[1][-80:]}']
    return faults
