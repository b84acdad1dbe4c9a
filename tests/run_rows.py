"""Rows of runs and checks on drives that images.py makes: each program, words, and each refusal of drives and images."""
from images import PAGE, changed, drives_of, image_of
from samples import (
    DETOUR, DETOUR_TEXT, G1, G1_BUILT, G1_COMPONENTS, G1_DRIVE, G1_HEAD, G1_LEVELS, G1_TEXT, HEADER, INDEX, KITE, KITE_TEXT,
    LONG_DEGREES, LONG_STAR, LONG_TEXT, LOOP, LOOP_TEXT, OUTS, PAIR, RANK_HEAD, RANK_LINES, RANK_TEXT, STAR, WEIGHTED, WEIGHTED_TEXT, star_text)
from transcripts import names, one, prints, refused as refused_on

FROM_FOUR = G1_HEAD + 'iteration 0 phase 0 active 1 messages 0\nsettled 1\n0 -\n1 -\n2 -\n3 -\n4 0\n'

BFS = 'run --program bfs --source 0 D0'


def on(edges):
    """The one drive of these edges."""
    return drives_of(image_of(edges))


def row(shows, words, text, files=None, **more):
    """A run on G1's drive, or on these files."""
    return prints(shows, words, text, one(G1_DRIVE) if files is None else files, **more)


def refused(shows, words, what, status, files=None):
    return refused_on(shows, words, what, status, one(G1_DRIVE) if files is None else files)


def damaged(place, number):
    """G1's drive with the four bytes at this place set to a number."""
    return one(changed(G1_DRIVE, place, number))


def with_byte(place, byte):
    """G1's drive with one byte set."""
    return one(G1_DRIVE[:place] + bytes([byte]) + G1_DRIVE[place + 1:])


TO_FIVE = changed(G1_DRIVE, OUTS + 12, 5)
TO_SIX_TOO = changed(TO_FIVE, OUTS + 8, 6)
TWO_DRIVES = drives_of(G1, 2, 1)
SWAPPED = {'D0': TWO_DRIVES['D1'], 'D1': TWO_DRIVES['D0']}
OTHER_NUMBER = {'D0': TWO_DRIVES['D0'], 'D1': drives_of(G1, 2, 1, number=7)['D1']}
OTHER_UNIT = {'D0': TWO_DRIVES['D0'], 'D1': drives_of(G1, 2, 2)['D1']}

RUNS = [
    # levels
    row('levels from vertex 0', BFS, G1_TEXT),
    row('the same in memory', 'ref --program bfs --source 0 D0', G1_TEXT),
    row('over three drives', f'run --program bfs --source 0 {names(3)}', G1_TEXT, drives_of(G1, 3, 2)),
    row('over three drives, in memory', f'ref --program bfs --source 0 {names(3)}', G1_TEXT, drives_of(G1, 3, 2)),
    row('over sixteen drives, most of them with a label alone', f'run --program bfs --source 0 {names(16)}', G1_TEXT,
        drives_of(G1, 16, 1)),
    row('levels from a vertex without entries', 'run --program bfs --source 4 D0', FROM_FOUR),
    row('leading zeros of a source', 'run --program bfs --source 0004 D0', FROM_FOUR),
    row('options in another order', 'run --max 9 --source 4 --each --program bfs D0',
        FROM_FOUR.replace('settled', '0 -\n1 -\n2 -\n3 -\n4 0\nsettled')),
    row('a drive with pages that nobody needs', BFS, G1_TEXT, one(G1_DRIVE + b'more' * 2000)),
    row('a message to itself wakes no vertex', BFS, LOOP_TEXT, on(LOOP)),
    row('settled at the most iterations', 'run --program bfs --source 0 --max 4 D0', G1_TEXT),
    row('stopped before', 'run --program bfs --source 0 --max 2 --quiet D0',
        G1_HEAD + ''.join(line + '\n' for line in G1_LEVELS.splitlines()[:2]) + 'stopped 2\nsum 4\n'),
    row('a list that fills a page', BFS, star_text(1024), on(STAR)),
    row('a list that goes on to the next page', f'run --program bfs --source 0 {names(2)}', star_text(1025),
        drives_of(image_of(LONG_STAR), 2, 1)),
    row('degrees of 254, 255 and 256', 'run --program bfs --source 2 D0', LONG_TEXT, on(LONG_DEGREES)),
    # least weights
    row('least weights, a pair kept with the lesser one', 'run --program sssp --source 0 D0', WEIGHTED_TEXT,
        on(WEIGHTED)),
    row('a lighter way round, over weights of 0', 'ref --program sssp --source 0 D0', DETOUR_TEXT, on(DETOUR)),
    # components and core numbers
    row('components', 'run --program wcc D0', G1_COMPONENTS),
    row('the same over three drives, in memory', f'ref --program wcc {names(3)}', G1_COMPONENTS, drives_of(G1, 3, 2)),
    row('components of no vertex', 'run --program wcc D0', 'program wcc vertices 0 out 0 in 0\nsettled 0\n', on([])),
    row('core numbers', 'run --program core D0', KITE_TEXT, on(KITE)),
    row('the same in memory', 'ref --program core D0', KITE_TEXT, on(KITE)),
    # rank
    row('two iterations of rank', 'run --program rank --max 2 D0', RANK_TEXT, on(PAIR)),
    row('their sum', 'run --program rank --max 2 --quiet D0',
        RANK_HEAD + ''.join(RANK_LINES) + 'stopped 2\nsum 581958\n', on(PAIR)),
    row('values after each iteration', 'ref --program rank --max 2 --each --quiet D0',
        RANK_HEAD + RANK_LINES[0] + '0 157286 133693\n1 157286 133693\n' + RANK_LINES[1]
        + '0 290979 113639\n1 290979 113639\nstopped 2\nsum 581958\n', on(PAIR)),
    row('rank of no vertex', 'run --program rank D0', 'program rank vertices 0 out 0 in 0\nsettled 0\n', on([])),
    row('a cut that nothing reaches', 'run --program rank --cut 157287 --quiet D0', RANK_HEAD + 'settled 0\nsum 0\n',
        on(PAIR)),
    # words
    refused('no words', '', 'words parse', 2),
    refused('an unknown command', 'walk D0', 'words command', 2),
    refused('an option without a command', '--program bfs', 'words parse', 2),
    refused('an unknown option', 'run --colour --program bfs --source 0 D0', 'words parse', 2),
    refused('an option twice', 'run --source 0 --source 1 --program bfs D0', 'words parse', 2),
    refused('an option without its value', 'run --program bfs --source', 'words parse', 2),
    row('an option behind a drive', 'run --program bfs --source 4 D0 --max=9', FROM_FOUR),
    refused('a source of components', 'run --program wcc --source 0 D0', 'words extra source', 2),
    refused('no program', 'run D0', 'words missing program', 2),
    refused('another program', 'run --program fast --source 0 D0', 'words range program', 2),
    refused('no source', 'run --program bfs D0', 'words missing source', 2),
    refused('a source of rank', 'run --program rank --source 0 D0', 'words extra source', 2),
    refused('a cut of levels', 'run --program bfs --source 0 --cut 5 D0', 'words extra cut', 2),
    refused('a source past its range', 'run --program bfs --source 4294967296 D0', 'words range source', 2),
    refused('a source with a sign', 'run --program bfs --source +1 D0', 'words range source', 2),
    refused('a source of twenty-one digits', 'run --program bfs --source 000000000000000000001 D0',
            'words range source', 2),
    refused('no iteration', 'run --program bfs --source 0 --max 0 D0', 'words range max', 2),
    refused('a cut of 0', 'run --program rank --cut 0 D0', 'words range cut', 2),
    refused('no drive', 'run --program bfs --source 0', 'words missing drive', 2),
    refused('seventeen drives', f'ref --program bfs --source 0 {names(17)}', 'words range drive', 2),
    # the source and the drives' calls
    refused('a source that is no vertex', 'run --program bfs --source 5 D0', 'source 5 not below 5', 8),
    refused('a source where there is no vertex', BFS, 'source 0 not below 0', 8, on([])),
    refused('the greatest source', 'ref --program sssp --source 4294967295 D0', 'source 4294967295 not below 5', 8),
    refused('a drive that is absent', BFS, 'drive 0 failed', 5, {}),
    refused('a drive that is a folder', 'run --program bfs --source 0 .', 'drive 0 failed', 5, {}),
    refused('a second drive that is absent', 'ref --program bfs --source 0 D0 D1', 'drive 1 failed', 5,
            one(TWO_DRIVES['D0'])),
    # labels
    refused('two drives in the wrong order', f'run --program bfs --source 0 {names(2)}', 'drive 0 is labelled 1', 7,
            SWAPPED),
    refused('two drives of images with other numbers', f'run --program bfs --source 0 {names(2)}',
            'drive 1 label differs', 7, OTHER_NUMBER),
    refused('two drives of other units', f'ref --program bfs --source 0 {names(2)}', 'drive 1 label differs', 7,
            OTHER_UNIT),
    refused('a drive missing', BFS, 'drive 0 label differs', 7, one(TWO_DRIVES['D0'])),
    refused('a drive cut to four pages', BFS, 'drive 0 has 4 pages, needs 5', 7, one(G1_DRIVE[:4 * PAGE])),
    refused('a drive without its last byte', BFS, 'drive 0 has 4 pages, needs 5', 7, one(G1_DRIVE[:-1])),
    refused('an empty drive', BFS, 'drive 0 has no label', 7, one(b'')),
    refused('a label without its mark', BFS, 'drive 0 has no label', 7, with_byte(0, 71)),
    refused('a label of drive 1 of 1', BFS, 'drive 0 has no label', 7, damaged(8, 1)),
    refused('a byte behind the label', BFS, 'drive 0 has no label', 7, with_byte(PAGE - 1, 1)),
    # the header, the sections, the index
    refused('another mark', BFS, 'bad header', 7, with_byte(HEADER, 0)),
    refused('version 3', BFS, 'version 3 unknown', 7, damaged(HEADER + 8, 3)),
    refused('an unknown flag', BFS, 'bad header', 7, damaged(HEADER + 12, 2)),
    refused('in-lists that begin elsewhere', BFS, 'bad sections', 7, damaged(HEADER + 68, 3)),
    refused('entries of 2^63 bytes', BFS, 'bad sections', 7, with_byte(HEADER + 47, 128)),
    refused('a degree that is too small', BFS, 'bad out index at 0', 7, with_byte(INDEX, 1)),
    refused('a count of long degrees', BFS, 'bad out index at 5', 7, with_byte(INDEX + 5, 1)),
    refused('a degree of the in-lists', 'ref --program rank D0', 'bad in index at 9', 7, with_byte(INDEX + 9, 1)),
    # bad edges
    row('a bad target that no run meets', 'run --program bfs --source 4 D0', FROM_FOUR, one(TO_FIVE)),
    row('a bad target', BFS, G1_HEAD + G1_LEVELS.splitlines()[0] + '\nrefused: vertex 2 out entry 0 target 5\n',
        one(TO_FIVE), status=8),
    row('the first of two bad targets', 'ref --program bfs --source 0 D0',
        G1_HEAD + G1_LEVELS.splitlines()[0] + '\nrefused: vertex 1 out entry 0 target 6\n', one(TO_SIX_TOO), status=8),
    # checks
    row('a sound image', 'check D0', f'checked {G1_BUILT} drives 1\n'),
    row('a sound image over three drives', f'check {names(3)}', f'checked {G1_BUILT} drives 3\n', drives_of(G1, 3, 2)),
    row('a sound image with weights', 'check D0', 'checked vertices 2 out 2 in 2 weighted pages 4 drives 1\n', on(WEIGHTED)),
    row('an image of nothing', 'check D0', 'checked vertices 0 out 0 in 0 plain pages 2 drives 1\n', on([])),
    refused('a byte behind the out-lists', 'check D0', 'page 1 padding', 9, with_byte(OUTS + PAGE - 1, 1)),
    refused('a byte behind the index', 'check D0', 'page 3 padding', 9, with_byte(INDEX + PAGE - 1, 1)),
    refused('an out-entry that no in-entry mirrors', 'check D0', 'vertex 3 not mirrored', 9, damaged(OUTS + 12, 4)),
    refused('an out-entry to no vertex', 'check D0', 'vertex 2 out entry 0 target 5', 8, one(TO_FIVE)),
    refused('a header that is refused', 'check D0', 'bad header', 7, with_byte(HEADER, 0)),
    refused('an index that is refused', 'check D0', 'bad out index at 0', 7, with_byte(INDEX, 1)),
    refused('an absent drive', 'check D0', 'drive 0 failed', 5, {}),
    refused('a program of a check', 'check --program bfs D0', 'words extra program', 2),
    row('a check that no output takes', 'check D0', '', status=4, output='/dev/full'),
    # the output
    row('an output that takes nothing', BFS, '', status=4, output='/dev/full'),
    row('an output that takes no refusal', 'run D0', '', status=4, output='/dev/full'),
]
