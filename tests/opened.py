"""What `run`, `ref` and `check` print of drives, sound or damaged, by docs/image-format.md and docs/errors.md alone."""
import struct
from collections import Counter
from dataclasses import dataclass

from images import LONG, PAGE
from reference import BadEdge, lines


class Refused(Exception):
    """What is wrong with the drives or what they hold, and the status."""

    def __init__(self, what, status=7):
        super().__init__(what)
        self.status = status


@dataclass
class Opened:
    """What drives open to: the graph's lists of pairs of target and weight, and what a check looks at besides."""
    weighted: bool
    drives: int
    pages: int
    outs: list
    ins: list
    # each section's first page and its bytes behind that
    sections: list
    image: bytes


def label_of(content):
    """The label's numbers: drive, drives, unit, image pages and image number; none where the first page isn't a label."""
    if len(content) < PAGE or not content.startswith(b'FGDRIVE\0') or any(content[32:PAGE]):
        return None
    drive, drives, unit, pages, number = struct.unpack_from('<IIIIQ', content, 8)
    accepted = drive < drives <= 16 and 1 <= unit <= 256 and 2 <= pages <= 2**19
    return (drive, drives, unit, pages, number) if accepted else None


def need_on(drive, drives, unit, pages):
    """How many pages of its own a drive needs, its label among them."""
    rounds, rest = divmod(pages, unit * drives)
    return 1 + rounds * unit + min(max(rest - drive * unit, 0), unit)


def open_labels(contents):
    """The drives, the unit and the image pages that all labels tell."""
    first = label_of(contents[0])
    for number, content in enumerate(contents):
        label = label_of(content)
        if label is None:
            raise Refused(f'drive {number} has no label')
        if label[0] != number:
            raise Refused(f'drive {number} is labelled {label[0]}')
        if label[1] != len(contents) or label[2:] != first[2:]:
            raise Refused(f'drive {number} label differs')
        held, need = len(content) // PAGE, need_on(number, *label[1:4])
        if held < need:
            raise Refused(f'drive {number} has {held} pages, needs {need}')
    return first[1:4]


def image_on(contents, drives, unit, pages):
    """The image's bytes, page by page from the drives."""
    image = bytearray()
    for page in range(pages):
        dealt = page // unit
        local = 1 + dealt // drives * unit + page % unit
        image += contents[dealt % drives][local * PAGE:(local + 1) * PAGE]
    return bytes(image)


def pages_for(count):
    return -(-count // PAGE)


def degrees_of(index, start, n, entries, name):
    """The degrees of a direction, and where it ends in the index."""
    def expect(holds, place):
        if not holds:
            raise Refused(f'bad {name} index at {place}')
    expect(start + n <= len(index), start)
    degrees = list(index[start:start + n])
    long = [v for v in range(n) if degrees[v] == LONG]
    at = start + n
    expect(at + 4 <= len(index) and int.from_bytes(index[at:at + 4], 'little') == len(long), at)
    at += 4
    for v in long:
        expect(at + 8 <= len(index), at)
        found, degrees[v] = struct.unpack_from('<II', index, at)
        expect(found == v and degrees[v] >= LONG, at)
        at += 8
    expect(sum(degrees) == entries, start)
    return degrees, at


def lists_of(section, degrees, weighted):
    """The lists of a section, which stand one behind the other."""
    numbers = struct.unpack(f'<{len(section) // 4}I', section)
    pairs = list(zip(numbers[::2], numbers[1::2])) if weighted else [(target, 1) for target in numbers]
    rows, at = [], 0
    for degree in degrees:
        rows.append(pairs[at:at + degree])
        at += degree
    return rows


def open_drives(contents):
    """What these drives hold, or the first refusal."""
    drives, unit, pages = open_labels(contents)
    image = image_on(contents, drives, unit, pages)
    header = image[:PAGE]
    if not header.startswith(b'FGIMAGE\0'):
        raise Refused('bad header')
    version, flags, n, said, outs, ins, *sizes = struct.unpack_from('<IIIIQQQQQ', header, 8)
    firsts = struct.unpack_from('<III', header, 64)
    if version != 1:
        raise Refused(f'version {version} unknown')
    if flags > 1 or n > 2**24 or max(outs, ins) > 2**26 or any(header[76:]):
        raise Refused('bad header')
    size = 8 if flags else 4
    in_first = 1 + pages_for(sizes[0])
    index_first = in_first + pages_for(sizes[1])
    agree = (sizes[:2] == [outs * size, ins * size] and sizes[2] <= 2**27 and firsts == (1, in_first, index_first)
             and said == pages == index_first + pages_for(sizes[2]))
    if not agree:
        raise Refused('bad sections')
    sections = [(first, image[first * PAGE:first * PAGE + count]) for first, count in zip(firsts, sizes)]
    index = sections[2][1]
    out_degrees, behind = degrees_of(index, 0, n, outs, 'out')
    in_degrees, end = degrees_of(index, behind, n, ins, 'in')
    if end != len(index):
        raise Refused(f'bad in index at {end}')
    lists = (lists_of(sections[k][1], degrees, flags == 1) for k, degrees in enumerate((out_degrees, in_degrees)))
    return Opened(flags == 1, drives, pages, *lists, sections, image)


def first_bad_edge(opened):
    """The first entry, by vertex, direction and place, that leads to no vertex."""
    n = len(opened.outs)
    for v, lists in enumerate(zip(opened.outs, opened.ins)):
        for name, row in zip(('out', 'in'), lists):
            for place, (target, _) in enumerate(row):
                if target >= n:
                    return BadEdge(v, name, place, target)
    return None


def is_padded(opened, first, section):
    """Whether only zeros stand behind the section, to the end of its last page."""
    end = first * PAGE + len(section)
    return not any(opened.image[end:end + -len(section) % PAGE])


def check(opened):
    """The line of a check, or the first fault."""
    bad = first_bad_edge(opened)
    if bad:
        raise Refused(str(bad), 8)
    for first, section in opened.sections:
        if not is_padded(opened, first, section):
            raise Refused(f'page {first + pages_for(len(section)) - 1} padding', 9)
    mirror = [[] for _ in opened.outs]
    for source, row in enumerate(opened.outs):
        for target, weight in row:
            mirror[target].append((source, weight))
    for v, (row, own) in enumerate(zip(mirror, opened.ins)):
        if Counter(row) != Counter(own):
            raise Refused(f'vertex {v} not mirrored', 9)
    outs, ins = (sum(map(len, lists)) for lists in (opened.outs, opened.ins))
    kind = 'weighted' if opened.weighted else 'plain'
    yield f'checked vertices {len(opened.outs)} out {outs} in {ins} {kind} pages {opened.pages} drives {opened.drives}'


def run(opened, program, argument, most):
    """The lines of a run, or up to what refuses it."""
    n = len(opened.outs)
    if program in ('bfs', 'sssp') and argument >= n:
        raise Refused(f'source {argument} not below {n}', 8)
    try:
        yield from lines(program, argument, n, opened.outs, sum(map(len, opened.ins)), most, ins=opened.ins)
    except BadEdge as bad:
        raise Refused(str(bad), 8) from None


def told(contents, work):
    """What a job prints and its status: `work` gives its lines on what the drives open to."""
    text, status = '', 0
    try:
        for line in work(open_drives(contents)):
            text += f'{line}\n'
    except Refused as refused:
        text += f'refused: {refused}\n'
        status = refused.status
    return text, status
