"""The tables of tests/measure-runs, in Markdown. `found` has what each job took, by its key."""
import itertools

from spent import MIB

PROGRAMS = ('bfs', 'sssp', 'wcc', 'core', 'rank')
WORKERS = (1, 2, 4)
MOST = max(WORKERS)
PAGE = 4096
# the program's own shape, where none is given
SETS, WAYS = 64, 8
# bytes of a vertex: its state, the most for its place in an inbox, and the most for what it becomes where it ran
STATE, PLACE, NEXT = 24, 16, 32
# bytes of a message, and the most entries that the blocks of a wave need where they are more than one
MESSAGE, WAVE = 8, 2**24
NONE = '–'


def print_table(title, columns, rows):
    print(f'### {title}\n\n| {" | ".join(columns)} |\n|{"---|" * len(columns)}')
    for row in rows:
        print(f'| {" | ".join(map(str, row))} |')
    print(flush=True)


def compared(mine, other, form):
    """What was measured of both, and the ratio."""
    ratio = f'{mine / other:.2f}' if mine is not None and other else NONE
    return [*(NONE if one is None else format(one, form) for one in (mine, other)), ratio]


def mebibytes(spent):
    return None if spent.is_own_memory() else spent.memory / MIB


def print_programs(found, images):
    """The builds and the programs, each beside the yardstick where that was measured."""
    rows = []
    for key, image in itertools.product([('build',), *((program, MOST) for program in PROGRAMS)], images):
        both = [found.get((who, image.name, *key)) for who in ('fg', 'yardstick')]
        spent = [one and one.spent for one in both]
        seconds, processor = [one and one.seconds for one in spent], [one and one.processor for one in spent]
        memory = [one and mebibytes(one) for one in spent]
        rows.append([key[0], image.name, *compared(*seconds, '.3f'), *compared(*processor, '.3f'), *compared(*memory, '.0f')])
    beside = ('yardstick', 'ratio')
    print_table(f'Programs, {MOST} workers', ['program', 'graph', 'seconds', *beside, 'processor', *beside, 'MiB', *beside], rows)


def memory_of_run(measured, image):
    """The most that a run held, what of it are frames and messages on their way, what is left for each vertex, and what may be."""
    # a line's numbers: iteration, phase, active, messages
    iterations = measured.numbers('iteration')
    active, messages = (max((line[at] for line in iterations), default=0) for at in (2, 3))
    frames, flying = SETS * WAYS * PAGE, MESSAGE * min(messages, WAVE)
    vertices, memory = max(image.vertices, 1), measured.spent.memory
    allowed = STATE + PLACE + NEXT * active / vertices
    left = (memory - frames - flying) / vertices
    return [*(f'{size / MIB:.0f}' for size in (memory, frames, flying)), f'{left:.1f}', f'{allowed:.1f}',
            f'{memory / (frames + flying + allowed * vertices):.2f}']


def print_memory(found, images):
    """Where the memory of runs goes, beside what it may be at most."""
    rows = []
    for program, image in itertools.product(PROGRAMS, images):
        measured = found['fg', image.name, program, MOST]
        if not measured.spent.is_own_memory():
            rows.append([program, image.name, *memory_of_run(measured, image)])
    columns = ['program', 'graph', 'peak, MiB', 'frames', 'messages', 'the rest, bytes a vertex', 'at most', 'peak to the sum']
    print_table(f'Memory of runs, {MOST} workers', columns, rows)


def print_builds(found, images):
    rows = []
    for image in images:
        memory = found['fg', image.name, 'build'].spent.memory
        rows.append([image.name, image.lines, f'{memory / MIB:.0f}', f'{memory / image.lines:.1f}'])
    print_table('Memory of builds', ['graph', 'lines', 'peak, MiB', 'bytes a line'], rows)


def print_scaling(found, images):
    rows = []
    for program, image in itertools.product(PROGRAMS, images):
        one, *more = (found['fg', image.name, program, workers].spent.seconds for workers in WORKERS)
        rows.append([program, image.name, *(f'{seconds:.3f}' for seconds in (one, *more)), *(f'{one / seconds:.2f}' for seconds in more)])
    seconds = [f'{workers} worker{"s" * (workers > 1)}' for workers in WORKERS]
    print_table('Scaling, seconds', ['program', 'graph', *seconds, *(f'{workers}: times as fast' for workers in WORKERS[1:])], rows)


def print_sizes(found, images):
    rows, above = [], {}
    for image in images:
        spent = {program: found['fg', image.name, program, MOST].spent for program in PROGRAMS}
        cells = [f'{one.seconds:.3f}' + (f' (x {one.seconds / above[program].seconds:.1f})' if above else '') for program, one in spent.items()]
        most = max(spent.values(), key=lambda one: one.memory)
        rows.append([image.vertices, image.entries, *cells, compared(mebibytes(most), None, '.0f')[0]])
        above = spent
    print_table(f'Sizes, {MOST} workers: seconds, and times the row above', ['vertices', 'edges', *PROGRAMS, 'most memory, MiB'], rows)


def print_caches(found):
    """Runs through caches, by graph, program and sets; each beside that of the first cache."""
    rows = []
    for _, runs in itertools.groupby(found.items(), lambda run: run[0][:2]):
        first = None
        for (graph, program, sets), measured in runs:
            reads, pages, *_ = measured.numbers('stats')[0]
            seconds = measured.spent.seconds
            first = first or (pages, seconds)
            rows.append([program, graph, f'{sets * WAYS * PAGE / MIB:g}', f'{seconds:.3f}', reads, pages, f'{pages / max(reads, 1):.1f}',
                         f'{pages / max(first[0], 1):.2f}', f'{seconds / first[1]:.2f}'])
    columns = ['program', 'graph', 'cache, MiB', 'seconds', 'reads', 'pages', 'pages a read', 'pages to the first', 'seconds to the first']
    print_table(f'Cache, {MOST} workers', columns, rows)
