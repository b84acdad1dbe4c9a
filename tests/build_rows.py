"""Rows of builds, with runs on the drives that they left, of their refusals in order, and of generated edges."""
from images import PAGE, built_line, changed, drives_of, image_of, joined, label, padded
from samples import (
    DETOUR, DETOUR_TEXT, G1, G1_BUILT, G1_DRIVE, G1_EDGES, G1_TEXT, HEADER, INDEX, LONG_DEGREES, LONG_STAR, LONG_TEXT,
    LOOP, LOOP_TEXT, PAIR, RANK_TEXT, STAR, WEIGHTED, WEIGHTED_TEXT, star_text)
from texts import Refused, edges_of, text_of_edges
from transcripts import Call, Row, names, one, prints, refused

# the text of WEIGHTED with comments, tabs, carriage returns, a repeat and a last line without its end
DIRECTED = (b'# Directed graph\r\n# FromNodeId\tToNodeId\r\n'
            b'0\t1\t7\r\n0 1 3\r\n\r\n1\t0')

# the index of LONG_DEGREES: the vertices 1 and 2 have long out-lists, no vertex a long in-list
LONG_INDEX = (
    bytes.fromhex('fe ff ff') + bytes(253) + bytes.fromhex('02000000 01000000 ff000000 02000000 00010000')
    + b'\2' + b'\3' * 254 + b'\1' + bytes(4))

# a vertex at the limit: an index of 8193 pages
LAST = 2**24 - 1
LAST_INDEX = b'\1' + bytes(LAST) + bytes(4) + bytes(LAST) + b'\1' + bytes(4)
LAST_IMAGE = joined(2**24, False, LAST.to_bytes(4, 'little'), bytes(4), LAST_INDEX)

FULL = bytes(PAGE)


def on(edges):
    """The one drive of these edges."""
    return drives_of(image_of(edges))


def with_numbers(drives, numbers):
    """The one drive with these numbers in its header."""
    content = drives['D0']
    for place, number in numbers.items():
        content = changed(content, HEADER + place, number)
    return one(content)


def build_of(text, words='', drives=1, unit=16, number=0, piece=0):
    """A build from a text, by what the text says."""
    call = f'build {words} {names(drives)}'
    try:
        image = image_of(edges_of(text, '--undirected' in words))
    except Refused as refusal:
        empty = dict.fromkeys(names(drives).split(), b'')
        return Call(call, f'refused: {refusal}\n', 6, text, piece, leaves=empty)
    left = drives_of(image, drives, unit, number)
    return Call(call, built_line(image, drives), 0, text, piece, leaves=left)


def built(shows, text, words, line, left, runs=()):
    """A build, and then each of the runs from pages and in memory on the drives that it left."""
    drives = names(len(left))
    calls = [Call(f'build {words} {drives}', f'built {line} drives {len(left)}\n', 0, text, leaves=left)]
    for options, printed, *status in runs:
        calls += [Call(f'{command} --program {options} {drives}', printed, *status) for command in ('run', 'ref')]
    return Row(shows, calls)


def unbuilt(shows, text, what, words='build D0', files=None, status=6, made=('D0',)):
    """A build that is refused, and leaves the drives that it made without a byte."""
    call = Call(words, f'refused: {what}\n', status, text, leaves=dict.fromkeys(made, b''))
    return Row(shows, [call], files or {})


def full(shows, words, drive, files, text=b'0 1\n', made=()):
    """A build over drives of which the one of this number is the first that holds a page."""
    return unbuilt(shows, text, f'drive {drive} not empty', words, files, 7, made)


BUILDS = [
    built('levels on what was built', text_of_edges(G1_EDGES), '', G1_BUILT, one(G1_DRIVE),
          [('bfs --source 0', G1_TEXT)]),
    built('levels on what was built over three drives', text_of_edges(G1_EDGES), '--unit 2 --number 9', G1_BUILT,
          drives_of(G1, 3, 2, 9), [('bfs --source 0', G1_TEXT)]),
    built('levels on what was built over sixteen drives', text_of_edges(G1_EDGES[::-1]),
          '--number 18446744073709551615 --unit 256', G1_BUILT, drives_of(G1, 16, 256, 2**64 - 1),
          [('bfs --source 0', G1_TEXT)]),
    built('an image of nothing', b'', '', 'vertices 0 out 0 in 0 plain pages 2', on([]),
          [('bfs --source 0', 'refused: source 0 not below 0\n', 8),
           ('rank', 'program rank vertices 0 out 0 in 0\nsettled 0\n'),
           ('wcc', 'program wcc vertices 0 out 0 in 0\nsettled 0\n')]),
    built('a loop, and a line without its end', b'0 0', '', 'vertices 1 out 1 in 1 plain pages 4', on(LOOP),
          [('bfs --source 0', LOOP_TEXT)]),
    built('weights, comments, tabs and carriage returns', DIRECTED, '', 'vertices 2 out 2 in 2 weighted pages 4',
          on(WEIGHTED), [('sssp --source 0', WEIGHTED_TEXT)]),
    built('a lighter way round, over weights of 0', b'0 1 5\n0 2 1\n2 1 0\n1 2 0\n', '',
          'vertices 3 out 4 in 4 weighted pages 4', on(DETOUR), [('sssp --source 0', DETOUR_TEXT)]),
    built('two iterations of rank', b'0 1\n1 0\n', '', 'vertices 2 out 2 in 2 plain pages 4', on(PAIR),
          [('rank --max 2', RANK_TEXT)]),
    built('degrees of 254, 255 and 256', text_of_edges(LONG_DEGREES), '', 'vertices 256 out 765 in 765 plain pages 4',
          with_numbers(one(on(LONG_DEGREES)['D0'][:INDEX] + padded(LONG_INDEX)), {56: 536}),
          [('bfs --source 2', LONG_TEXT)]),
    built('a section that fills its page', text_of_edges(STAR), '', 'vertices 1024 out 1024 in 1024 plain pages 4',
          with_numbers(on(STAR), {64: 1, 68: 2, 72: 3}), [('bfs --source 0', star_text(1024))]),
    built('a section of two pages', text_of_edges(LONG_STAR), '', 'vertices 1025 out 1025 in 1025 plain pages 6',
          with_numbers(on(LONG_STAR), {64: 1, 68: 3, 72: 5}), [('bfs --source 0', star_text(1025))]),
    built('a vertex at the limit', f'0 {LAST}'.encode(), '', f'vertices {LAST + 1} out 1 in 1 plain pages 8196',
          drives_of(LAST_IMAGE)),
    built('each edge both ways, a loop once', b'0 1\n1 1\n', '--undirected', 'vertices 2 out 3 in 3 plain pages 4',
          on([(0, 1), (1, 0), (1, 1)])),
    Row('a text from a file',
        [Call('build --input edges.txt D0', f'built {G1_BUILT} drives 1\n', leaves=one(G1_DRIVE))],
        {'edges.txt': text_of_edges(G1_EDGES)}),
    Row('a drive that holds less than a page keeps it',
        [Call('build D0', f'built {G1_BUILT} drives 1\n', 0, text_of_edges(G1_EDGES), leaves=one(b'seven' + G1_DRIVE))],
        one(b'seven')),
    Row('a line that no output takes is written behind the image',
        [Call('build D0', '', 4, text_of_edges(G1_EDGES), output='/dev/full', leaves=one(G1_DRIVE)),
         Call('run --program bfs --source 0 D0', G1_TEXT)]),
    Row('what was built is full',
        [build_of(DIRECTED), Call('build D0', 'refused: drive 0 not empty\n', 7, DIRECTED),
         Call('run --program sssp --source 0 D0', WEIGHTED_TEXT)]),
]

# each first part of the text, as a text of its own
CUT = [Row(f'a text cut behind {end} bytes', [build_of(DIRECTED[:end])]) for end in range(len(DIRECTED) + 1)]

PIECES = [
    *(Row(f'a text in pieces of {piece}', [build_of(text, piece=piece)])
      for piece in (1, 7) for text in (DIRECTED, DIRECTED + b'\r\n', b'0 1\n2\t3 \r\n# 4 5\r\n\n6 x', b'12345678 ')),
    Row('a text in pieces of 7 that goes on behind a refused line',
        [build_of(b'0 1\nx\n' + b'2 3\n' * 1000, piece=7)]),
    Row('a text in pieces of 4096', [build_of(text_of_edges(LONG_DEGREES), piece=4096)]),
]

REFUSALS = [
    # the text
    unbuilt('a line that is no edge', b'1 x', 'line 1 not an edge'),
    unbuilt('a line of four fields', b'0 1\n1 2 3 4\n', 'line 2 not an edge'),
    unbuilt('a weight of 2^32', b'0 1 4294967296', 'line 1 not an edge'),
    unbuilt('a vertex past the limit', b'0 16777216', 'line 1 id too large'),
    unbuilt('a source past the limit', b'16777216 0', 'line 1 id too large'),
    unbuilt('a vertex past the limit before a line that is no edge', b'0 1\n99999999 0\nx\n', 'line 2 id too large'),
    unbuilt('drives of a refused text', b'x', 'line 1 not an edge', 'build D0 D1', made=('D0', 'D1')),
    # the input
    unbuilt('an input that is absent', b'', 'input failed', 'build --input none.txt D0', status=3),
    unbuilt('an input that is a folder', b'', 'input failed', 'build --input . D0', status=3),
    # the drives, before the input and the text
    full('a drive with a page', 'build D0', 0, one(FULL)),
    full('a drive with more than a page', 'build D0', 0, one(FULL + b'more')),
    full('a full drive before a line that is no edge', 'build D0', 0, one(FULL), b'1 x'),
    full('a full drive before an absent input', 'build --input none.txt D0', 0, one(FULL)),
    full('a second drive that is full', 'build D0 D1', 1, {'D1': FULL}, made=('D0',)),
    full('a second drive that is full, before a line that is no edge', 'build D0 D1', 1, {'D1': FULL}, b'x', ('D0',)),
    full('the first of two full drives', 'build D0 D1 D2', 1, {'D1': FULL, 'D2': FULL}, made=('D0',)),
    full('a full drive before a folder', 'build D0 .', 0, one(FULL)),
    unbuilt('a folder before a full drive', b'0 1\n', 'drive 0 failed', 'build . D0', one(FULL), 5, ()),
    unbuilt('a drive that is a folder', b'0 1\n', 'drive 0 failed', 'build .', status=5, made=()),
    unbuilt('a second drive that is a folder, before a line that is no edge', b'x', 'drive 1 failed', 'build D0 .',
            status=5),
    # appends that fail
    unbuilt('a drive that takes no page', b'0 1\n', 'drive 0 failed', 'build /dev/full', status=5, made=()),
    Row('a second drive that takes no page',
        [Call('build D0 /dev/full', 'refused: drive 1 failed\n', 5, text_of_edges(G1_EDGES), leaves=one(label(0, 2, 16, 4)))]),
    # the words, before the drives
    refused('a build without a drive', 'build', 'words missing drive', 2, {}),
    refused('a unit of no page', 'build --unit 0 D0', 'words range unit', 2, one(FULL)),
    refused('a unit of 257 pages', 'build --unit 257 D0', 'words range unit', 2, {}),
    refused('a program of a build', 'build --program bfs D0', 'words extra program', 2, {}),
]

GENERATED = [
    prints('three generated edges', 'gen --start 42 --nodes 10 --edges 3', '# gen 42 10 3\n3 7\n4 5\n5 6\n', {}),
    prints('no generated edge', 'gen --start 0 --nodes 1 --edges 0', '# gen 0 1 0\n', {}),
    prints('generated edges that no output takes', 'gen --start 1 --nodes 9 --edges 9', '', {}, 4, output='/dev/full'),
    prints('more of them than are gathered', 'gen --start 1 --nodes 9 --edges 100000', '', {}, 4, output='/dev/full'),
    prints('a run on generated edges', 'large --start 42 --nodes 10 --edges 3 --program bfs --source 4',
           'program bfs vertices 8 out 3 in 3\niteration 0 phase 0 active 1 messages 1\n'
           'iteration 1 phase 0 active 1 messages 1\niteration 2 phase 0 active 1 messages 0\nsettled 3\nsum 3\n', {}),
    prints('components of generated edges', 'large --start 42 --nodes 10 --edges 3 --program wcc',
           'program wcc vertices 8 out 3 in 3\niteration 0 phase 0 active 8 messages 6\n'
           'iteration 1 phase 0 active 3 messages 4\niteration 2 phase 0 active 1 messages 1\nsettled 3\nsum 21\n', {}),
    refused('a source that is no vertex of theirs', 'large --start 42 --nodes 10 --edges 3 --program bfs --source 8',
            'source 8 not below 8', 8, {}),
    refused('edges between no vertices', 'gen --start 1 --nodes 0 --edges 1', 'words range nodes', 2, {}),
    refused('a drive of generated edges', 'gen --start 1 --nodes 1 --edges 1 D0', 'words extra drive', 2, {}),
]
