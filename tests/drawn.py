"""The scenario that a number draws, in the text of docs/FORMATS.md, after docs/MODEL.md and without the program.

    draw(number)    the bytes of the scenario that `snp gen NUMBER` is to write
"""
WORD = 2 ** 64 - 1
MULTIPLIER = 6364136223846793005
INCREMENT = 3  # of stream 1


class Generator:
    """PCG XSH RR 64/32 on stream 1."""

    def __init__(self, number):
        self.state = number + INCREMENT & WORD
        self._step()

    def _step(self):
        self.state = self.state * MULTIPLIER + INCREMENT & WORD

    def below(self, count):
        """The next word of 32 bits, modulo the count."""
        state = self.state
        self._step()
        mixed = ((state >> 18) ^ state) >> 27 & 0xffffffff
        turns = state >> 59
        return (mixed >> turns | mixed << (32 - turns) & 0xffffffff) % count


def guest_item(g):
    kind, page, index = g.below(8), g.below(16), g.below(512)
    address = 4096 * page + 8 * index
    if kind < 4:
        return 'load %d' % address
    if kind < 6:
        return 'store %d %d' % (address, g.below(1000))
    if kind == 6:
        return 'xor %d %d' % (address, g.below(1000))
    return 'pvalidate %d 4k %d' % (4096 * page, g.below(2))


def host_item(g):
    kind, guest = g.below(6), 1 + g.below(2)
    frame, place = 64 * guest + g.below(16), g.below(16)
    if kind == 0:
        return 'rmpupdate %d 4k 1 %d %d %d' % (frame, guest, place, g.below(2))
    if kind == 1:
        return 'store %d %d' % (4096 * (16 * guest + 3) + 8 * place, 4096 * frame + 7)
    if kind == 2:
        return 'rmpupdate %d 4k 0 0 0 0' % frame
    if kind == 3:
        return 'xor %d 1' % (4096 * (300 + g.below(16)) + 8 * place)
    if kind == 4:
        return 'rmpupdate %d 4k 1 0 0 1' % (400 + g.below(4))
    return 'load %d' % (4096 * frame + 8 * place)


def firmware_item(g):
    kind, guest = g.below(5), 1 + g.below(2)
    frame, other = 64 * guest + g.below(16), 64 * guest + g.below(16)
    sealed, metadata, entry = 300 + g.below(16), 400 + g.below(4), g.below(64)
    return ('md_init %d' % metadata,
            'page_move %d %d %d' % (guest, frame, other),
            'swap_out %d %d %d %d %d' % (guest, frame, sealed, metadata, entry),
            'swap_in %d %d %d %d %d' % (guest, sealed, frame, metadata, entry),
            'page_reclaim %d' % frame)[kind]


ACTORS = (('cpu 1 vmpl 0 npt 16 flat', guest_item), ('cpu 1 vmpl 0 npt 16 flat', guest_item),
          ('cpu 2 vmpl 0 npt 32 flat', guest_item), ('cpu 2 vmpl 0 npt 32 flat', guest_item),
          ('host', host_item), ('host', host_item), ('fw', firmware_item), ('fw', firmware_item))


def opening():
    """The lines before the actors."""
    guests = (1, 2)
    yield from ('snp 1', 'regions 2')
    for guest in guests:
        yield 'guest %d opened asid %d iv 0 key %s' % (guest, guest, 64 * str(guest))
    for guest in guests:
        yield from ('page %d of %d at %d 4k valid 0 0 0' % (64 * guest + page, guest, page) for page in range(8))
    for guest in guests:
        table = 16 * guest
        yield from ('word %d 0 %d' % (table + level, 4096 * (table + level + 1) + 7) for level in range(3))
        yield from ('word %d %d %d' % (table + 3, page, 4096 * (64 * guest + page) + 7) for page in range(16))


def draw(number):
    g = Generator(number)
    lines = list(opening())
    for place, (role, item) in enumerate(ACTORS):
        lines.append('actor %d %s' % (place + 1, role))
        lines += [item(g) for _ in range(512)]
    return ('\n'.join(lines + ['end']) + '\n').encode()
