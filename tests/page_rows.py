"""Rows of the transcripts in README.md and docs/: each block is a row, each line that begins with `$` a call."""
import re
import shlex

from images import drives_of, image_of
from samples import G1_DRIVE, G1_EDGES
from texts import edges_of, text_of_edges
from transcripts import TOP, Call, Row

PAGES = ('README.md', 'docs/command-line.md', 'docs/in-and-out.md')

FILES = {
    'D0': G1_DRIVE,
    'edges.txt': text_of_edges(G1_EDGES),
    **{f'examples/{path.name}': path.read_bytes() for path in (TOP / 'examples').iterdir()},
}

# what a line leaves that names this file
NAMES = {'names.txt': b'anna\nben\ncarl\ndora\ned\n'}

STATUSES = {
    'words ': 2, 'input failed': 3, r'drive \d+ failed': 5, 'line ': 6, r'drive \d+ (not empty|label differs)': 7,
    'source ': 8}

# what stands behind one program of a line, and before the next
THEN = re.compile(r' (?:&&|\|) ')


def status_of(text):
    """The status that the program ends with where it printed this last."""
    return next((status for what, status in STATUSES.items() if re.search(f'^refused: {what}', text, re.M)), 0)


def built_by(line):
    """The drives that a line leaves which builds from one of the files, or through a pipe from the edges of the small graph."""
    words = iter(shlex.split(line)[2:])
    undirected, given, drives = False, {'--unit': '16', '--number': '0', '--input': 'edges.txt'}, []
    for word in words:
        if word == '--undirected':
            undirected = True
        elif word.startswith('--'):
            given[word] = next(words)
        else:
            drives.append(word)
    image = image_of(edges_of(FILES.get(given['--input'], FILES['edges.txt']), undirected))
    held = drives_of(image, len(drives), int(given['--unit']), int(given['--number']))
    return dict(zip(drives, held.values()))


def call_of(transcript):
    """The call of one line that begins with `$`, with what stands below it."""
    line, _, text = transcript.partition('\n')
    parts = THEN.split(line)
    leaves = built_by(next(part for part in parts if part.startswith('./fg build'))) if text.startswith('built') else {}
    leaves |= {name: held for name, held in NAMES.items() if name in line}
    if THEN.search(line) or not line.startswith('./fg'):
        return Call(line, text, status_of(text), shell=True, leaves=leaves)
    return Call(line.removeprefix('./fg').strip(), text, status_of(text), leaves=leaves)


def rows_in(page):
    """The rows of a page, each named by its first call, with the files that they don't make."""
    for block in re.findall(r'^```console\n(.*?)^```$', (TOP / page).read_text(), re.M | re.S):
        calls = [call_of(transcript) for transcript in re.split(r'^\$ ', block, flags=re.M)[1:]]
        made = {name for call in calls for name in call.leaves}
        yield Row(f'{page}: {calls[0].words}', calls, {name: held for name, held in FILES.items() if name not in made})


TRANSCRIPTS = [row for page in PAGES for row in rows_in(page)]
