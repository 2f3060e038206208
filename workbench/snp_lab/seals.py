"""The commands that seal and open pages: what refuses them beyond the tests of all commands, what a compute makes, and what a
commit changes. The rows are those of docs/MODEL.md, "Commands of the firmware"."""
from __future__ import annotations

from dataclasses import dataclass, replace
from typing import TYPE_CHECKING

from . import codes, gcm
from .codes import Row
from .entries import RECLAIM, Facts
from .pages import GUEST_PAGE, METADATA_GPN, METADATA_PAGE, Content, Entry, Sealed, Table, Words, table_from
from .report import Event
from .scenario import Item
from .texts import hex_of, page_of

if TYPE_CHECKING:
    from .machine import Watch

OUTS = ('swap_out', 'md_out', 'md_root_out')
INS = ('swap_in', 'md_in', 'md_root_in')
SEALS = OUTS + INS
LAST_COUNTER = (1 << 64) - 1
# What a test says where it refuses: the answer, the row, and why it applies.
Said = tuple[str, Row, str]


@dataclass(frozen=True)
class Made:
    """What a compute has made: the fresh entry with the ciphertext, or the entry that is taken with the words that it keeps."""
    entry: Entry
    content: Content


def kind_of(item: Item) -> int:
    """The kind of the entry that an item seals or opens with."""
    return GUEST_PAGE if item.word in ('swap_out', 'swap_in') else METADATA_PAGE


def has_root(item: Item) -> bool:
    return 'root' in item.word


def slot_words(item: Item) -> str:
    return f'the root of guest {item.operands[0]}' if has_root(item) else f'entry {item.operands[4]} of frame {item.operands[3]}'


def slot_entry(watch: Watch, item: Item) -> Entry | None:
    """The entry that an item names, or the root, where it is in use."""
    if has_root(item):
        return watch.roots.get(item.operands[0])
    return watch.memory.table(item.operands[3]).entries.get(item.operands[4])


def entry_words(watch: Watch, item: Item, entry: Entry | None) -> str:
    """What an entry is, in words."""
    if entry is None:
        return f"{slot_words(item)} isn't in use"
    what = 'a metadata page' if entry.kind == METADATA_PAGE else f'page {page_of(entry.gpn)}'
    return f'{slot_words(item)} is that of {what} of {watch.guest_name(entry.asid)}, under counter {entry.counter}'


def foreign_entry(watch: Watch, guest: int, table: Table) -> tuple[int, Entry] | None:
    """The first entry in use of a metadata page that is another guest's."""
    asid = watch.scenario.guests[guest].asid
    return next(((place, entry) for place, entry in sorted(table.entries.items()) if entry.asid != asid), None)


def foreign_words(watch: Watch, found: tuple[int, Entry]) -> str:
    return f'entry {found[0]} there is that of {watch.guest_name(found[1].asid)}'


def context_extra(watch: Watch, item: Item) -> Said | None:
    """What the lock of a context tests beyond its guest's state."""
    guest = item.operands[0]
    root = watch.roots.get(guest)
    if item.word in OUTS and watch.counters.get(guest) == LAST_COUNTER:
        return 'fw 0x1d', codes.CONTEXT[7], f'the counter of guest {guest} is {LAST_COUNTER}'
    if item.word == 'md_root_out' and root is not None:
        return 'fw 0x1b', codes.CONTEXT[8], entry_words(watch, item, root)
    if item.word == 'md_root_in' and root is None:
        return 'fw 0x1b', codes.CONTEXT[9], entry_words(watch, item, None)
    return None


def page_extra(watch: Watch, item: Item, place: int) -> Said | None:
    """What the lock of a page tests beyond its state and owner: a metadata page that is sealed, and the entry of another."""
    if place == 0 and item.word in ('md_out', 'md_root_out'):
        found = foreign_entry(watch, item.operands[0], watch.memory.table(item.operands[1]))
        return ('fw 0x1c', codes.PAGE[5], foreign_words(watch, found)) if found is not None else None
    return entry_extra(watch, item) if place == 2 else None


def entry_extra(watch: Watch, item: Item) -> Said | None:
    entry = slot_entry(watch, item)
    because = entry_words(watch, item, entry)
    if item.word in OUTS:
        return ('fw 0x1b', codes.PAGE[6], because) if entry is not None else None
    if entry is None or entry.kind != kind_of(item):
        return 'fw 0x1b', codes.PAGE[7], because
    if entry.asid != watch.scenario.guests[item.operands[0]].asid:
        return 'fw 0x1c', codes.PAGE[8], f'{because}, and the command is for guest {item.operands[0]}'
    return None


def opened(watch: Watch, item: Item, entry: Entry) -> Content | Said:
    """The words that a page is opened to, or what refuses it."""
    source = watch.memory.at(item.operands[1])
    if isinstance(source, Sealed) and source is entry.sealed:
        plain = source.plain
    else:
        key, cipher = watch.scenario.guests[item.operands[0]].key, source.all()
        found = gcm.tag_of(key, entry.counter, entry.asid, entry.gpn, cipher)
        if found != entry.tag:
            answer = f'fw 0xb found {found.hex()} kept {entry.tag.hex()}'
            return answer, codes.COMPUTE[0], tag_words(watch, item, source, entry)
        plain = Words(dict(enumerate(gcm.crypted(key, entry.counter, cipher))))
    if kind_of(item) == GUEST_PAGE:
        return plain
    table = plain if isinstance(plain, Table) else table_from(plain.all())
    foreign = foreign_entry(watch, item.operands[0], table)
    return table if foreign is None else ('fw 0x1c', codes.COMPUTE[1], foreign_words(watch, foreign))


def tag_words(watch: Watch, item: Item, source: Content, entry: Entry) -> str:
    """Why a tag is another than the one that was kept."""
    kept = f'event {entry.sealed.event} sealed' if entry.sealed is not None else 'was sealed'
    wanted = f'and {slot_words(item)} is for the one that {kept} under counter {entry.counter}'
    if isinstance(source, Sealed):
        return (f'frame {item.operands[1]} has the ciphertext that event {source.event} sealed for {watch.guest_name(source.asid)} under '
                f'counter {source.counter}, {wanted}')
    if isinstance(source, Words) and source.was is not None:
        return (f'frame {item.operands[1]} had the ciphertext that event {source.was.event} sealed, and words of it were written since, '
                f'{wanted}')
    return f'frame {item.operands[1]} has no ciphertext that a command put there, {wanted}'


def compute_refusal(watch: Watch, item: Item) -> Said | None:
    """What refuses the compute of a command that opens a page."""
    entry = slot_entry(watch, item)
    if item.word in OUTS or entry is None:
        return None
    answer = opened(watch, item, entry)
    return answer if isinstance(answer, tuple) else None


def made_by(watch: Watch, event: Event, item: Item) -> Made | None:
    """What a compute makes that isn't refused."""
    if item.word in OUTS:
        return sealed_by(watch, event, item)
    entry = slot_entry(watch, item)
    answer = opened(watch, item, entry) if entry is not None else None
    return None if entry is None or answer is None or isinstance(answer, tuple) else Made(entry, answer)


def sealed_by(watch: Watch, event: Event, item: Item) -> Made:
    guest, frame = watch.scenario.guests[item.operands[0]], item.operands[1]
    counter, facts = watch.counters[guest.number], watch.facts_of(frame) or Facts()
    is_page = kind_of(item) == GUEST_PAGE
    gpn, plain = facts.gpn % (1 << 64) if is_page else METADATA_GPN, watch.memory.at(frame).copy()
    sealed = Sealed(guest.key, counter, guest.asid, gpn, plain, frame, event.number)
    entry = Entry(kind_of(item), is_page and facts.vmsa, is_page and facts.validated, guest.asid, sealed.gpn,
                  facts.permissions if is_page else (0, 0, 0, 0), counter, sealed)
    return Made(entry, sealed)


def commit_deed(watch: Watch, item: Item, made: Made | None) -> str | None:
    """The commit of a command that seals or opens, without its outcome; nothing where its compute isn't known."""
    frame = item.operands[1 if item.word in OUTS else 2]
    if kind_of(item) == METADATA_PAGE:
        return f'commit {frame} 0x0 4k'
    return None if made is None else f'commit {frame} {hex_of(made.entry.gpn)} 4k'


def commit(watch: Watch, event: Event, item: Item, made: Made) -> None:
    """What a commit changes: pages, the entry or the root, and the counter."""
    source, target = item.operands[1:3]
    if item.word in OUTS:
        give_up(watch, event, item, source)
        watch.memory.put(target, made.content)
        watch.counters[item.operands[0]] = min(made.entry.counter + 1, LAST_COUNTER)
        watch.archive[item.operands[0], made.entry.counter] = made.content
    else:
        bring_back(watch, event, item, target, made)
    slot = made.entry if item.word in OUTS else None
    if has_root(item):
        watch.roots[item.operands[0]] = slot
    else:
        watch.memory.table(item.operands[3]).put(item.operands[4], slot)


def give_up(watch: Watch, event: Event, item: Item, source: int) -> None:
    """The page that was sealed: the guest's is Reclaim, a metadata page Firmware, with zero words."""
    frames = range(source, source + 1)
    watch.memory.clear(frames)
    if kind_of(item) == GUEST_PAGE:
        watch.put(frames, event, RECLAIM)
    else:
        watch.change(frames, event, kind='Firmware')


def bring_back(watch: Watch, event: Event, item: Item, target: int, made: Made) -> None:
    """The page that was opened: the guest's with the entry's facts, or a metadata page."""
    frames, entry = range(target, target + 1), made.entry
    watch.memory.put(target, made.content.copy())
    if kind_of(item) == METADATA_PAGE:
        watch.change(frames, event, kind='Metadata')
        return
    facts = watch.facts_of(target) or Facts()
    watch.put(frames, event, replace(facts, gpn=entry.gpn, validated=entry.validated, vmsa=entry.vmsa, permissions=entry.permissions))


def refills(watch: Watch, item: Item, made: Made | None, zeroed: str) -> dict[range, str]:
    """What a commit does to the words of whole frames."""
    source, target = (range(frame, frame + 1) for frame in item.operands[1:3])
    if item.word in OUTS:
        return {source: f"sealed the page into frame {target.start}, and this frame's {zeroed}",
                target: f'put the ciphertext of the page of frame {source.start} here'}
    sealed = made.entry.sealed if made is not None else None
    if made is None or sealed is None or made.content is not sealed.plain:
        return {target: f'opened the page here from frame {source.start}'}
    since = f'with the words that frame {sealed.frame} had as event {sealed.event} sealed it'
    return {target: f'opened the page here from frame {source.start}, {since}'}


def compute_words(watch: Watch, event: Event, item: Item) -> list[str]:
    """What a compute does."""
    frame = item.operands[1]
    if item.word in OUTS:
        return [(f"the words of frame {frame} are copied and sealed, under counter {watch.counters.get(item.operands[0], '?')} of guest "
                 f"{item.operands[0]}")]
    entry = slot_entry(watch, item)
    words = [f'the words of frame {frame} are copied and opened; {entry_words(watch, item, entry)}']
    if not event.outcome and entry is not None and is_foreign(watch, item, entry):
        words.append('a foreign ciphertext meets this tag: what is promised of the guest\'s memory ends here (docs/THEOREMS.md)')
    return words


def is_foreign(watch: Watch, item: Item, entry: Entry) -> bool:
    """Whether a page has other words than the ciphertext that was sealed for the guest under the entry's counter."""
    source, kept = watch.memory.at(item.operands[1]), watch.archive.get((item.operands[0], entry.counter))
    return kept is None or source is not kept and source.all() != kept.all()


def commit_words(watch: Watch, item: Item) -> str:
    """What a commit changes, in words."""
    source, target = item.operands[1:3]
    if item.word in OUTS:
        given = 'becomes a page in the state Reclaim' if kind_of(item) == GUEST_PAGE else 'is a Firmware page again'
        return (f'frame {target} gets the ciphertext; frame {source} {given}, with zero words; {slot_words(item)} is written, and the '
                f'counter of guest {item.operands[0]} is now {watch.counters.get(item.operands[0], 0) + 1}')
    entry = slot_entry(watch, item)
    if kind_of(item) == METADATA_PAGE:
        return f'frame {target} is the metadata page that was sealed; {slot_words(item)} is cleared'
    if entry is None:
        return f"frame {target} gets the page's words; {slot_words(item)} is cleared"
    state = 'Pre-Swap' if entry.validated else 'Pre-Guest'
    return (f'frame {target} becomes page {page_of(entry.gpn)} of guest {item.operands[0]} again ({state}), with the words and permissions '
            f'that it had; {slot_words(item)} is cleared')
