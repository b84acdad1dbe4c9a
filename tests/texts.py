"""Edge texts by docs/formats.md alone: what a text says, and the text of generated edges."""
import re

EDGE = re.compile(rb'[ \t]*([0-9]+)[ \t]+([0-9]+)(?:[ \t]+([0-9]+))?[ \t]*')


class Refused(Exception):
    """The first refused line, and what is wrong with it."""


def lines_of(text):
    """The lines without their ends; what follows the last LF is one where it isn't empty."""
    *lines, last = text.split(b'\n')
    return [line.removesuffix(b'\r') for line in (lines + [last] if last else lines)]


def edges_of(text, undirected=False):
    """The edges of a text of at most 2^26 pairs, as images.py takes them."""
    edges = []
    for number, line in enumerate(lines_of(text), 1):
        if line.startswith(b'#') or not line.strip(b' \t'):
            continue
        fields = EDGE.fullmatch(line)
        if not fields or int(fields[3] or 0) >= 2**32:
            raise Refused(f'line {number} not an edge')
        source, target = int(fields[1]), int(fields[2])
        if max(source, target) >= 2**24:
            raise Refused(f'line {number} id too large')
        weight = (int(fields[3]),) if fields[3] else ()
        edges.append((source, target, *weight))
        if undirected and source != target:
            edges.append((target, source, *weight))
    return edges


def text_of_edges(edges):
    return ''.join(' '.join(map(str, edge)) + '\n' for edge in edges).encode()


def words_of(start):
    """The generator's words."""
    multiplier, increment = 6364136223846793005, 109
    state = ((start + increment) * multiplier + increment) % 2**64
    while True:
        word, places = ((state >> 18 ^ state) >> 27) % 2**32, state >> 59
        yield (word >> places | word << 32 - places) % 2**32
        state = (state * multiplier + increment) % 2**64


def generated_text(start, nodes, edges):
    words = words_of(start)
    pairs = ((next(words) % nodes, next(words) % nodes) for _ in range(edges))
    return f'# gen {start} {nodes} {edges}\n'.encode() + text_of_edges(pairs)
