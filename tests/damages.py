"""Damaged images over drives: fields of the format set to other numbers, sections that agree with each other and with nothing else,
and bytes at random."""
import random

from images import PAGE, drives_of, entry, direction, image_of, joined
from samples import DETOUR, G1_EDGES, KITE, LONG_DEGREES, LONG_STAR, PAIR

# each with the number of drives and the unit
SOUND = [drives_of(image_of(edges), drives, unit) for edges, drives, unit in (
    (G1_EDGES, 1, 16), (G1_EDGES, 1, 16), (G1_EDGES, 2, 1), (G1_EDGES, 3, 2), (DETOUR, 1, 16), (DETOUR, 2, 1), (KITE, 1, 1),
    (PAIR, 2, 2), ([], 1, 16), (LONG_DEGREES, 1, 16), (LONG_STAR, 2, 1))]

# the bytes of a label's fields, and of a header's: where each begins, and how many it has
LABEL = [(0, 8), (8, 4), (12, 4), (16, 4), (20, 4), (24, 8), (32, 1), (PAGE - 1, 1)]
HEADER = [(0, 8), (8, 4), (12, 4), (16, 4), (20, 4), (24, 8), (32, 8), (40, 8), (48, 8), (56, 8), (64, 4), (68, 4), (72, 4),
          (76, 1), (PAGE - 1, 1)]
LIMITS = (2**24, 2**26, 2**27, 2**19, 2**31, 2**32 - 1, 2**63, 2**64 - 1, 255, 256, PAGE)


def other(drawn, number, size):
    """A number near this one, near a limit, or anywhere."""
    near = drawn.choice((number, number, 0, drawn.choice(LIMITS)))
    drawn_number = drawn.choice((near + drawn.randint(-2, 2), near ^ 1 << drawn.randrange(8 * size), drawn.randrange(256**size)))
    return drawn_number % 256**size


def set_field(drawn, content, place, size):
    if place + size <= len(content):
        number = other(drawn, int.from_bytes(content[place:place + size], 'little'), size)
        content[place:place + size] = number.to_bytes(size, 'little')


def fields_of(drawn, contents):
    """Fields of labels, of the header, of entries and of the index, one to three of them."""
    for _ in range(drawn.choice((1, 1, 1, 2, 3))):
        content = drawn.choice(contents)
        kind = drawn.random()
        if kind < .1:
            set_field(drawn, content, *drawn.choice(LABEL))
        elif kind < .5:
            place, size = drawn.choice(HEADER)
            set_field(drawn, contents[0], PAGE + place, size)
        else:
            # the first bytes of a page of entries or of the index
            page = drawn.randrange(1, max(2, len(content) // PAGE))
            size = drawn.choice((1, 4, 4))
            set_field(drawn, content, PAGE * page + size * drawn.randrange(24 // size), size)


def bytes_of(drawn, contents):
    """Bytes at random, pages that change places, and drives that are cut, grow or change places."""
    for _ in range(drawn.choice((1, 1, 2, 8))):
        number = drawn.randrange(len(contents))
        content = contents[number]
        kind = drawn.random()
        if kind < .8 and len(content) > PAGE:
            # mostly behind the label, which one byte spoils
            place = drawn.randrange(PAGE * drawn.choice((0, 1, 1, 1, 1)), len(content))
            content[place] = drawn.randrange(256)
        elif kind < .85:
            del content[drawn.choice((drawn.randrange(len(content) + 1), PAGE * drawn.randrange(6))):]
        elif kind < .9:
            content += bytes(drawn.randrange(3 * PAGE))
        elif kind < .97 and len(content) >= 3 * PAGE:
            one, two = (PAGE * drawn.randrange(1, len(content) // PAGE) for _ in range(2))
            content[one:one + PAGE], content[two:two + PAGE] = content[two:two + PAGE], content[one:one + PAGE]
        else:
            two = drawn.randrange(len(contents))
            contents[number], contents[two] = contents[two], contents[number]


def section_of(drawn, n, weighted, most):
    """The degrees of a direction and its entries, of which some lead to no vertex."""
    degrees = [drawn.choice((0, 0, 1, 2, 3, drawn.choice(most))) for _ in range(n)]
    past = drawn.random() < .4
    targets = (n + drawn.randrange(2) if past and drawn.random() < .1 else drawn.randrange(n) for _ in range(sum(degrees)))
    return degrees, b''.join(entry(target, drawn.choice((0, 1, 9, 2**32 - 1)), weighted) for target in targets)


def spliced(drawn):
    """Drives of an image whose header, sections and index agree, and whose lists are anything."""
    n, weighted = drawn.choice((1, 2, 5, 9, 40)), drawn.random() < .4
    most = drawn.choice(((1,), (4, 7), (254, 255, 256), (1024, 1025)))
    sides = [section_of(drawn, n, weighted, most) for _ in range(2)]
    if drawn.random() < .2:
        sides[1] = sides[0]
    (outs, out_bytes), (ins, in_bytes) = sides
    image = bytearray(joined(n, weighted, out_bytes, in_bytes, direction(outs) + direction(ins)))
    if drawn.random() < .2:
        image[drawn.randrange(PAGE, len(image))] ^= 1 << drawn.randrange(8)
    drives, unit = drawn.choice(((1, 16), (1, 1), (2, 1), (3, 2)))
    return list(drives_of(bytes(image), drives, unit).values())


def damaged(seed):
    """The drives of this seed, one list of bytes each."""
    drawn = random.Random(seed)
    kind = drawn.random()
    if kind < .2:
        return spliced(drawn)
    contents = [bytearray(content) for content in drawn.choice(SOUND).values()]
    (fields_of if kind < .6 else bytes_of)(drawn, contents)
    return [bytes(content) for content in contents]


def words_of(seed, drives):
    """The job of each command on these drives: its words, and the program with its argument and its most iterations."""
    drawn = random.Random(~seed)
    program = drawn.choice(('bfs', 'bfs', 'sssp', 'wcc', 'core', 'rank'))
    argument = drawn.choice((0, 0, 0, 1, 4, 9)) if program in ('bfs', 'sssp') else 1000
    most = 3 if program == 'rank' else drawn.choice((2, 2**32 - 1))
    given = {'bfs': f' --source {argument}', 'sssp': f' --source {argument}', 'rank': f' --cut {argument}'}.get(program, '')
    asked = f'--program {program}{given} --max {most}'
    engine = drawn.choice(('', '--workers 1 --sets 1 --ways 1', '--workers 8 --sets 1 --ways 1 --depth 1 --shift 0',
                           '--workers 8 --shift 0 --helpers', '--workers 2 --sets 2 --ways 2 --helpers'))
    names = [f'D{drive}' for drive in range(drives)]
    return {command: [command, *words.split(), *names]
            for command, words in (('run', f'{asked} {engine}'), ('ref', asked), ('check', ''))}, (program, argument, most)
