"""Rows of random graphs, random texts and generated edges, compared with reference.py, images.py and texts.py."""
import random

from build_rows import build_of
from images import built_line, drives_of, image_of, out_lists, vertices_of
from reference import text_of
from texts import Refused, edges_of, generated_text
from transcripts import Call, Row, names, prints


def text_on(edges, program, argument, most=2**32 - 1, n=None, **options):
    """What a run on these edges prints."""
    outs = out_lists(edges, vertices_of(edges) if n is None else n)
    return text_of(program, argument, len(outs), outs, sum(map(len, outs)), most, **options)


def engine_words(drawn):
    """How a run is done, which its text doesn't show."""
    ways = drawn.choice((1, 2, 16))
    return (f'--workers {drawn.choice((1, 2, 5, 8))} --sets {drawn.choice((1, 3, 512))} --ways {ways}'
            f' --depth {drawn.choice((1, 2, 64))} --shift {drawn.choice((0, 1, 6, 16))}' + ' --helpers' * (drawn.random() < .3))


def graphs(seed):
    """Each program on a random graph, over several drives, from pages and in memory."""
    drawn = random.Random(seed)
    n = drawn.choice((1, 7, 60, 700))
    pairs = {(drawn.randrange(n), drawn.randrange(n) if drawn.random() < .7 else 0)
             for _ in range(drawn.randrange(6 * n))}
    weighted = drawn.random() < .5
    edges = [(*pair, drawn.choice((0, 1, 9, 2**32 - 1))) if weighted else pair for pair in sorted(pairs)]
    drives, unit = drawn.randint(1, 16), drawn.choice((1, 2, 16, 256))
    files = drives_of(image_of(edges, n), drives, unit, drawn.randrange(2**64))
    most = drawn.choice((1, 3, 40, 2**32 - 1))
    for program, option in (('bfs', 'source'), ('sssp', 'source'), ('wcc', ''), ('core', ''), ('rank', 'cut')):
        argument = drawn.randrange(n) if option == 'source' else drawn.choice((1000, 50000))
        given = f' --{option} {argument}' * bool(option)
        each, quiet = drawn.random() < .3, drawn.random() < .3
        text = text_on(edges, program, argument, most, n, each=each, quiet=quiet)
        words = f'--program {program}{given} --max {most}' + ' --each' * each + ' --quiet' * quiet
        for command in (f'run {engine_words(drawn)}', 'ref'):
            yield prints(f'random graph {seed}: {command} {program} over {drives} drives',
                         f'{command} {words} {names(drives)}', text, files)
    line = built_line(image_of(edges, n), drives).replace('built', 'checked')
    yield prints(f'random graph {seed}: checked over {drives} drives', f'check {names(drives)}', line, files)


BROKEN = (
    b'1', b'7 ', b'1 2 3 4', b'1 2 x', b'x', b'1,2', b'-1 2', b'1 +2', b'1 2.', b'1 2 4294967296', b'0x1 2', b'1 2#',
    b'1 2 99999999999999999999', b'16777216 2 4294967296', b' # 1 2', b'\r#', b'1 2\r\r', b'1\r2', b'1\0002', b'1\x0b2',
    b'\xff 1', '1\u00a02'.encode(), '\u0661 2'.encode(), b'\xef\xbb\xbf1 2')

TOO_LARGE = (
    b'16777216 0', b'0 16777216', b'4294967296 1', b'1 4294967297 5', b'18446744073709551616 0 1',
    b'99999999999999999999999999 99999999999999999999999999', b'00000016777216\t2')


def number(drawn, most):
    zeros = drawn.choice((0, 0, 0, 1, 30))
    return b'0' * zeros + str(drawn.randrange(most)).encode()


def edge_line(drawn, most, weighted):
    """A line of two numbers or three, with blanks around them."""
    def blanks(least):
        return bytes(drawn.choices(b' \t', k=drawn.choice((least, least, 1, 3))))
    fields = [number(drawn, most), number(drawn, most)]
    if weighted and drawn.random() < .5:
        fields.append(drawn.choice((number(drawn, 9), b'0', b'4294967295')))
    line = blanks(0) + fields[0]
    for found in fields[1:]:
        line += blanks(1) + found
    return line + blanks(0)


def drawn_text(drawn):
    """Lines of every kind, most of which are edges."""
    most, weighted = drawn.choice((1, 3, 20, 3000)), drawn.random() < .6
    bad = drawn.random() < .4
    lines = []
    for _ in range(drawn.choice((0, 1, 5, 40, 400))):
        kind = drawn.random()
        if kind < .8:
            lines.append(edge_line(drawn, most, weighted))
        elif kind < .9:
            lines.append(b'#' + bytes(drawn.choices(b'# 1\t2x\r\xff\0', k=drawn.randrange(9))))
        elif kind < .98 or not bad:
            lines.append(bytes(drawn.choices(b' \t', k=drawn.randrange(4))))
        else:
            lines.append(drawn.choice(BROKEN + TOO_LARGE))
    if bad:
        lines.insert(drawn.randint(0, len(lines)), drawn.choice(BROKEN + TOO_LARGE))
    text = b''.join(line + drawn.choice((b'\n', b'\n', b'\r\n')) for line in lines)
    return text.removesuffix(b'\n') if drawn.random() < .3 else text


def text_rows(seed):
    """A random text, its edges as they stand and both ways, and a run on what was built of it."""
    drawn = random.Random(seed)
    text = drawn_text(drawn)
    for undirected in (False, True):
        drives, unit, mark = drawn.randint(1, 16), drawn.choice((1, 2, 16, 256)), drawn.randrange(2**64)
        words = f'--unit {unit} --number {mark}' + ' --undirected' * undirected
        yield Row(f'random text {seed}: {len(text)} bytes, {words}',
                  [build_of(text, words, drives, unit, mark), *run_of(text, undirected, names(drives))])


def run_of(text, undirected, drives):
    """A run on what was built of the text, where it has an edge and isn't refused."""
    try:
        edges = edges_of(text, undirected)
    except Refused:
        return
    if edges:
        source = edges[0][0]
        yield Call(f'run --program sssp --source {source} {drives}', text_on(edges, 'sssp', source))


def line_rows():
    """Each broken line behind one that is an edge."""
    for line in BROKEN + TOO_LARGE:
        yield Row(f'the line {line}', [build_of(b'3 4\n' + line + b'\n')])


def sum_of(start, nodes, count, undirected, program, argument, most=2**32 - 1):
    """What a quiet run on generated edges prints."""
    edges = edges_of(generated_text(start, nodes, count), undirected)
    return text_on(edges, program, argument, most, quiet=True)


def generated_rows(seed):
    """Generated edges as a text, and the programs on them, one way and both ways."""
    drawn = random.Random(seed)
    start, nodes, count = drawn.randrange(2**64), drawn.choice((1, 9, 80, 2**14)), drawn.choice((1, 30, 500))
    words = f'--start {start} --nodes {nodes} --edges {count}'
    text = generated_text(start, nodes, count)
    yield prints(f'generated edges {seed}', f'gen {words}', text.decode(), {})
    source = edges_of(text)[0][0]
    for undirected in (False, True):
        for option, argument in ((f'bfs --source {source}', source), (f'sssp --source {source}', source),
                                 ('wcc', None), ('core', None), ('rank --cut 5000 --max 20', 5000)):
            program, most = option.split()[0], 20 if 'rank' in option else 2**32 - 1
            drives = f'--drives {drawn.randint(1, 16)} --unit {drawn.choice((1, 2, 16, 256))}'
            both = ' --undirected' * undirected
            yield prints(f'generated edges {seed}: {program}{both} {drives}',
                         f'large {words} --program {option} {drives}{both}',
                         sum_of(start, nodes, count, undirected, program, argument, most), {})


def large_row():
    """A million generated edges: the same text at each run, over any number of drives and by any number of workers."""
    words = 'large --start 1 --nodes 100000 --edges 1000000 --program bfs --source 0'
    text = sum_of(1, 100000, 1000000, False, 'bfs', 0)
    ways = ('', '', ' --drives 1', ' --drives 16', *(f' --workers {workers}' for workers in (1, 2, 8)), ' --sets 1 --ways 1 --workers 8')
    calls = [Call(words + way, text) for way in ways]
    return Row('a million generated edges', calls)


def random_rows():
    for make, seeds in ((graphs, 12), (text_rows, 30), (generated_rows, 4)):
        for seed in range(seeds):
            yield from make(seed)
    yield from line_rows()
    yield large_row()
