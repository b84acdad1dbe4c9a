"""Rows: calls of the program on files in a folder of its own, what each prints, its status and the files it leaves."""
import fcntl
import pathlib
import re
import shlex
import subprocess
import tempfile
import termios
import time
from dataclasses import dataclass, field

TOP = pathlib.Path(__file__).resolve().parent.parent
FG = str(TOP / 'fg')
PROGRAM = str(TOP / 'crates/fg_run/out/fg_run')


@dataclass
class Call:
    words: str
    text: str
    status: int = 0
    input: bytes = b''
    # the most bytes that wait in the input's pipe at a time, where the input is written in pieces
    piece: int = 0
    # the file that it prints to; what it prints isn't looked at then
    output: str = ''
    # the files that it makes or changes, as they are behind it
    leaves: dict = field(default_factory=dict)
    # whether the words are a whole line for the shell, in which `./fg` is the program
    shell: bool = False


@dataclass
class Row:
    shows: str
    calls: list
    files: dict = field(default_factory=dict)


def names(drives):
    return ' '.join(f'D{drive}' for drive in range(drives))


def one(content):
    """The files of a single drive."""
    return {'D0': content}


def prints(shows, words, text, files, status=0, **more):
    """A row of one call, which leaves the files as they were."""
    return Row(shows, [Call(words, text, status, **more)], files)


def refused(shows, words, what, status, files):
    return prints(shows, words, f'refused: {what}\n', files, status)


def command_of(words):
    """These words as a command, or, where there are none, the program without its launcher, which builds it before."""
    if words:
        return shlex.split(words)
    subprocess.run([FG, *'gen --start 1 --nodes 1 --edges 1'.split()], stdout=subprocess.DEVNULL, check=True)
    return [PROGRAM]


def waiting(pipe):
    """How many bytes wait in the pipe."""
    return int.from_bytes(fcntl.ioctl(pipe, termios.FIONREAD, bytes(4)), 'little')


def feed(program, text, piece):
    """Writes the text in pieces, each once the program took the one before it."""
    try:
        for at in range(0, len(text), piece):
            program.stdin.write(text[at:at + piece])
            while waiting(program.stdin) and program.poll() is None:
                time.sleep(.0002)
    except BrokenPipeError:
        # it ended before the text did
        pass


def run(call, folder):
    """What the call prints, and its status."""
    command = [FG, *shlex.split(call.words)]
    if call.shell:
        command = ['bash', '-c', re.sub(r'(?<!\S)\./fg(?!\S)', shlex.quote(FG), call.words)]
    if call.output:
        with open(call.output, 'wb') as out:
            return '', subprocess.run(command, cwd=folder, input=call.input, stdout=out).returncode
    if call.piece:
        pipe = subprocess.PIPE
        with subprocess.Popen(command, cwd=folder, stdin=pipe, stdout=pipe, bufsize=0) as program:
            feed(program, call.input, call.piece)
            text = program.communicate()[0]
        return text.decode(), program.returncode
    done = subprocess.run(command, cwd=folder, input=call.input, stdout=subprocess.PIPE)
    return done.stdout.decode(), done.returncode


def files_in(folder):
    """The files below a folder, by their names from there."""
    return {str(path.relative_to(folder)): path.read_bytes() for path in folder.rglob('*') if path.is_file()}


def faults_of(call, folder, files):
    """What is wrong with the call, which should leave these files, a line each."""
    text, status = run(call, folder)
    if text != call.text:
        yield f'printed {text[:400]!r}, not {call.text[:400]!r}'
    if status != call.status:
        yield f'ended with {status}, not {call.status}'
    if files_in(folder) != files:
        yield 'left its files otherwise'


def first_faults(row):
    """What is wrong with the first call of the row that isn't as it should be."""
    files = dict(row.files)
    with tempfile.TemporaryDirectory() as name:
        folder = pathlib.Path(name)
        for file, content in files.items():
            (folder / file).parent.mkdir(exist_ok=True)
            (folder / file).write_bytes(content)
        for call in row.calls:
            files |= call.leaves
            found = [f'{call.words}: {fault}' for fault in faults_of(call, folder, files)]
            if found:
                return found
    return []
