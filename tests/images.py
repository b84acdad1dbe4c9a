"""Images of graphs over drives, made by docs/image-format.md alone, for the transcripts of the program.

A graph is a list of edges (source, target) or (source, target, weight). The image is one list of bytes, and drives are
made of it by dealing out its pages.
"""
import itertools
import struct

PAGE = 4096
LONG = 255


def padded(section):
    """The bytes of a section, with zeros to whole pages."""
    return section + bytes(-len(section) % PAGE)


def entry(target, weight, weighted):
    return struct.pack('<II', target, weight) if weighted else struct.pack('<I', target)


def direction(degrees):
    """The index of one direction."""
    longs = [(v, degree) for v, degree in enumerate(degrees) if degree >= LONG]
    low = bytes(min(degree, LONG) for degree in degrees)
    return low + struct.pack('<I', len(longs)) + b''.join(struct.pack('<II', *pair) for pair in longs)


def kept(edges):
    """The edges with their weights, by source and target; a pair that stands more than once with its least weight."""
    weighted = sorted((*edge, 1)[:3] for edge in edges)
    return [next(same) for _, same in itertools.groupby(weighted, key=lambda edge: edge[:2])]


def vertices_of(edges):
    """One vertex more than the greatest number, or none."""
    return max((max(edge[:2]) for edge in edges), default=-1) + 1


def out_lists(edges, n):
    """Each vertex's targets with their weights."""
    outs = [[] for _ in range(n)]
    for source, target, weight in kept(edges):
        outs[source].append((target, weight))
    return outs


def image_of(edges, n=None):
    """The image of these edges."""
    weighted = any(len(edge) == 3 for edge in edges)
    n = vertices_of(edges) if n is None else n
    ins = out_lists([(target, source, *weight) for source, target, *weight in edges], n)
    return spelled(n, weighted, out_lists(edges, n), ins)


def spelled(n, weighted, outs, ins):
    """The image of a graph whose lists are these; they need not be each other's mirror."""
    sections = [b''.join(entry(*found, weighted) for row in rows for found in row) for rows in (outs, ins)]
    index = direction([len(row) for row in outs]) + direction([len(row) for row in ins])
    return joined(n, weighted, *sections, index)


def joined(n, weighted, outs, ins, index):
    """The image of these sections."""
    firsts = [1]
    for section in (outs, ins, index):
        firsts.append(firsts[-1] + len(padded(section)) // PAGE)
    size = 8 if weighted else 4
    header = b'FGIMAGE\0' + struct.pack(
        '<IIIIQQQQQIII', 1, int(weighted), n, firsts[3], len(outs) // size, len(ins) // size,
        len(outs), len(ins), len(index), *firsts[:3])
    return b''.join(map(padded, (header, outs, ins, index)))


def label(drive, drives, unit, pages, number=0):
    return padded(b'FGDRIVE\0' + struct.pack('<IIIIQ', drive, drives, unit, pages, number))


def drives_of(image, drives=1, unit=16, number=0):
    """The drives that hold the image, as files D0, D1 and so on."""
    pages = len(image) // PAGE
    held = [bytearray(label(drive, drives, unit, pages, number)) for drive in range(drives)]
    for page in range(pages):
        held[page // unit % drives] += image[page * PAGE:(page + 1) * PAGE]
    return {f'D{drive}': bytes(content) for drive, content in enumerate(held)}


def built_line(image, drives=1):
    """The line of a build, by the numbers in the image's header."""
    weighted, n, pages, outs, ins = struct.unpack_from('<IIIQQ', image, 12)
    kind = 'weighted' if weighted else 'plain'
    return f'built vertices {n} out {outs} in {ins} {kind} pages {pages} drives {drives}\n'


def changed(content, place, number):
    """The bytes with the four at this place set to a number."""
    return content[:place] + number.to_bytes(4, 'little') + content[place + 4:]
