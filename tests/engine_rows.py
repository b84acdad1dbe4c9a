"""Rows of the engine's options: whatever the workers, the blocks, the cache's shape and the helpers, a run prints the same."""
from images import drives_of, image_of
from run_rows import refused, row
from samples import G1, G1_COMPONENTS, G1_TEXT, KITE, KITE_TEXT, LONG_STAR, PAIR, RANK_TEXT, star_text
from transcripts import Call, Row, names

WORKERS = ['', '--workers 1', '--workers 2', '--workers 8', '--workers 64']
SHAPES = ['', '--sets 1 --ways 1', '--sets 1 --ways 4', '--sets 64 --ways 8', '--sets 262144 --ways 1', '--sets 16384 --ways 16']
QUEUES = ['', '--depth 1', '--depth 1024']
BLOCKS = ['', '--shift 0', '--shift 1', '--shift 16']
LEAST = '--sets 1 --ways 1 --depth 1 --shift 0 --workers 8'


def each_way():
    """Each of the options by itself, and some together, with and without helpers."""
    alone = [*WORKERS, *SHAPES[1:], *QUEUES[1:], *BLOCKS[1:], LEAST]
    return [words + helpers for words in alone for helpers in ('', ' --helpers')]


def same(shows, words, text, files):
    """A run that prints the same in each of these ways."""
    return Row(shows, [Call(f'{words} {way}'.strip(), text) for way in each_way()], files)


def ranged(option, least, most, past):
    """An option at both ends of its range, and past them."""
    run = f'run --program bfs --source 0 D0 --{option}'
    for number in (least, most):
        yield row(f'{option} {number}', f'{run} {number}', G1_TEXT)
    for number in (*past, 'x', '0' * 21):
        yield refused(f'{option} {number}', f'{run} {number}', f'words range {option}', 2)


def with_stats(text, line):
    """The text of a run that settled, with this line behind its end line."""
    head, end, values = text.partition('settled 4\n')
    return head + end + line + '\n' + values


def counted(shows, words, drives, line):
    """A run whose stats end with this line's numbers, whoever came first; with the numbers of reads and pages left out."""
    text = with_stats(G1_COMPONENTS, 'stats ' + line)
    return Row(shows, [Call(f"./fg {words} {names(drives)} | sed 's/reads [0-9]* pages [0-9]* //'", text, shell=True)], drives_of(G1, drives, 1))


ONCE = 'run --program wcc --workers 1 --sets 1'
STATS = [
    row('stats of a cache of one page', f'{ONCE} --ways 1 --stats D0', with_stats(G1_COMPONENTS, 'stats reads 6 pages 6 runs 12 entries 23')),
    row('stats of a cache of four pages', f'{ONCE} --ways 4 --stats D0', with_stats(G1_COMPONENTS, 'stats reads 1 pages 2 runs 12 entries 23')),
    row('stats before a sum', 'run --program bfs --source 0 --max 1 --stats --quiet D0',
        ''.join(G1_TEXT.splitlines(True)[:2]) + 'stopped 1\nstats reads 1 pages 1 runs 1 entries 2\nsum 2\n'),
    *[counted(f'stats of many workers through one page{way}', f'run --program wcc {LEAST}{way} --stats', 2, 'runs 12 entries 23')
      for way in ('', ' --helpers')],
    refused('stats of a run in memory', 'ref --program wcc --stats D0', 'words extra stats', 2),
    refused('stats of a build', 'build --stats D0', 'words extra stats', 2),
    refused('a value of stats', 'run --program wcc --stats=1 D0', 'words parse', 2),
    refused('stats twice', 'run --program wcc --stats --stats D0', 'words parse', 2),
    refused('stats before unit, where both are extra', 'ref --program wcc --unit 1 --stats D0', 'words extra stats', 2),
]

ENGINE = [
    same('levels over three drives, however they are run', f'run --program bfs --source 0 {names(3)}', G1_TEXT, drives_of(G1, 3, 2)),
    same('components, however they are run', f'run --program wcc {names(2)}', G1_COMPONENTS, drives_of(G1, 2, 1)),
    same('core numbers, however they are run', 'run --program core D0', KITE_TEXT, drives_of(image_of(KITE))),
    same('rank, however it is run', 'run --program rank --max 2 D0', RANK_TEXT, drives_of(image_of(PAIR))),
    same('a list over two pages, however it is run', f'run --program bfs --source 0 {names(2)}', star_text(1025),
         drives_of(image_of(LONG_STAR), 2, 1)),
    *STATS,
    *ranged('workers', 1, 64, (0, 65)),
    *ranged('sets', 1, 32768, (0, 262145)),
    *ranged('ways', 1, 16, (0, 17)),
    *ranged('depth', 1, 1024, (0, 1025)),
    *ranged('shift', 0, 16, (17,)),
    row('as many sets as there may be frames', 'run --program bfs --source 0 --sets 262144 --ways 1 D0', G1_TEXT),
    refused('more sets times ways than frames', 'run --program bfs --source 0 --sets 262144 --ways 2 D0', 'words range sets', 2),
    refused('more sets than the ways that are not said leave', 'run --program bfs --source 0 --sets 32769 D0', 'words range sets', 2),
    refused('workers of a run in memory', 'ref --program bfs --source 0 --workers 2 D0', 'words extra workers', 2),
    refused('helpers of a check', 'check --helpers D0', 'words extra helpers', 2),
    refused('sets of a build', 'build --sets 1 D0', 'words extra sets', 2),
    refused('workers before sets, where both are extra', 'check --sets 1 --workers 1 D0', 'words extra workers', 2),
    refused('a value of helpers', 'run --helpers=1 --program bfs --source 0 D0', 'words parse', 2),
    refused('workers twice', 'run --workers 1 --workers 1 --program bfs --source 0 D0', 'words parse', 2),
]
