"""Texts that are no example and no case, for `alloc` and `sanitized`.

    text_of(name)    the text of this name: one of OWN, a case of cases/ where the name ends with `.in`, or else an example
    walks(count)     32 actors of 256 loads through five levels, each of 31 events, and a schedule of so many events of each actor
"""
import pathlib

HERE = pathlib.Path(__file__).resolve().parent
OPENING = f'''snp 1
regions 1
guest 1 opened asid 1 iv 0 key {64 * "0"}
page 8 of 1 at 0 4k valid 0 0 0
word 1 0 0x2007
word 2 0 0x3007
word 3 0 0x4007
word 4 0 0x8007
'''
# by name
OWN = {
    'a page sealed, changed and opened': OPENING + '''word 8 2 7
actor 1 cpu 1 vmpl 0 npt 1 flat
actor 2 host
rmpupdate 8 4k 1 1 0 1
rmpupdate 10 4k 1 0 0 1
rmpupdate 9 4k 1 1 0 1
rmpupdate 12 4k 1 1 0 1
xor 0xb000 1
xor 0xb000 1
actor 3 fw
md_init 10
swap_out 1 8 11 10 0
swap_in 1 11 9 10 0
swap_in 1 11 9 10 0
swap_in 1 11 12 10 0
order 2*8 3*8 2 3*5 2 3*10
end
''',
    'four processors beside a host': OPENING + ''.join(f'actor {actor} cpu 1 vmpl 0 npt 1 flat\nload 0x10\nload 0x10\n' for actor in range(1, 5))
    + '''actor 5 host
rmpupdate 9 4k 1 1 0 0
store 0x4000 0x9007
end
'''}


def text_of(name):
    if name in OWN:
        return OWN[name].encode()
    return (HERE / 'cases' / name if name.endswith('.in') else HERE.parent / 'examples' / name).read_bytes()


def walks(count):
    head = OPENING.replace('snp 1', 'snp 2') + 'word 8 0 7\n'
    actors = [f'actor {actor} cpu 1 vmpl 0 npt 1 la57 0\n' + 256 * 'load 0\n' for actor in range(1, 33)]
    orders = ['order ' + ' '.join(f'{actor}*{count}' for actor in some) + '\n' for some in (range(1, 17), range(17, 33))]
    return ''.join((head, *actors, *orders, 'end\n')).encode()
