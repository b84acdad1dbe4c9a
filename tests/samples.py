"""Graphs that rows share, their drives, and what runs on them print."""
from images import PAGE, image_of
from transcripts import TOP

G1_DRIVE = (TOP / 'crates/fg_run/data/g1.img').read_bytes()
G1_EDGES = [(0, 1), (0, 2), (1, 3), (2, 3), (3, 4)]
G1 = image_of(G1_EDGES)
G1_BUILT = 'vertices 5 out 5 in 5 plain pages 4'

G1_HEAD = 'program bfs vertices 5 out 5 in 5\n'
G1_LEVELS = (
    'iteration 0 phase 0 active 1 messages 2\n'
    'iteration 1 phase 0 active 2 messages 2\n'
    'iteration 2 phase 0 active 1 messages 1\n'
    'iteration 3 phase 0 active 1 messages 0\n'
    'settled 4\n')
G1_TEXT = G1_HEAD + G1_LEVELS + '0 0\n1 1\n2 1\n3 2\n4 3\n'

# a vertex with an entry to itself
LOOP = [(0, 0)]
LOOP_TEXT = 'program bfs vertices 1 out 1 in 1\niteration 0 phase 0 active 1 messages 1\nsettled 1\n0 0\n'

# degrees of 254, 255 and 256
LONG_DEGREES = [(source, target) for source, begin, end in ((0, 1, 255), (1, 0, 255), (2, 0, 256))
                for target in range(begin, end)]
LONG_TEXT = (
    'program bfs vertices 256 out 765 in 765\niteration 0 phase 0 active 1 messages 256\n'
    'iteration 1 phase 0 active 255 messages 509\nsettled 2\n'
    + ''.join(f'{v} {int(v != 2)}\n' for v in range(256)))

# a list that fills a page, and one that goes on to the next
STAR = [(0, target) for target in range(1024)]
LONG_STAR = STAR + [(0, 1024)]


def star_text(n):
    """Levels from the middle of a star of so many vertices, which has an entry to itself too."""
    return (f'program bfs vertices {n} out {n} in {n}\niteration 0 phase 0 active 1 messages {n}\n'
            f'iteration 1 phase 0 active {n - 1} messages 0\nsettled 2\n'
            + ''.join(f'{v} {min(v, 1)}\n' for v in range(n)))


WEIGHTED = [(0, 1, 3), (1, 0, 1)]
WEIGHTED_TEXT = (
    'program sssp vertices 2 out 2 in 2\niteration 0 phase 0 active 1 messages 1\n'
    'iteration 1 phase 0 active 1 messages 1\nsettled 2\n0 0\n1 3\n')

DETOUR = [(0, 1, 5), (0, 2, 1), (2, 1, 0), (1, 2, 0)]
DETOUR_TEXT = (
    'program sssp vertices 3 out 4 in 4\niteration 0 phase 0 active 1 messages 2\n'
    'iteration 1 phase 0 active 2 messages 2\niteration 2 phase 0 active 1 messages 1\nsettled 3\n'
    '0 0\n1 1\n2 1\n')

PAIR = [(0, 1), (1, 0)]
RANK_HEAD = 'program rank vertices 2 out 2 in 2\n'
RANK_LINES = ['iteration 0 phase 0 active 2 messages 2\n', 'iteration 1 phase 0 active 2 messages 2\n']
RANK_TEXT = RANK_HEAD + ''.join(RANK_LINES) + 'stopped 2\n0 290979 113639\n1 290979 113639\n'

# each edge of the diamond with its tail both ways
G1_COMPONENTS = (
    'program wcc vertices 5 out 5 in 5\n'
    'iteration 0 phase 0 active 5 messages 10\n'
    'iteration 1 phase 0 active 4 messages 8\n'
    'iteration 2 phase 0 active 2 messages 4\n'
    'iteration 3 phase 0 active 1 messages 1\n'
    'settled 4\n' + ''.join(f'{v} 0\n' for v in range(5)))

# a triangle with a tail
KITE = [(0, 1), (1, 2), (2, 0), (2, 3)]
KITE_TEXT = (
    'program core vertices 4 out 4 in 4\n'
    'iteration 0 phase 1 active 1 messages 1\n'
    'iteration 1 phase 2 active 3 messages 7\n'
    'settled 2\n0 2\n1 2\n2 2\n3 1\n')

# a page of the image on its only drive, behind the label
HEADER, OUTS, INS, INDEX = (PAGE * page for page in (1, 2, 3, 4))
