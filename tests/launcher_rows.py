"""Rows of the launcher `fg` with a stand-in for `rt`: when it builds, what it tells, and that it ends with the program's status."""
import contextlib
import os
import pathlib
import pty
import re
import shutil
import signal
import subprocess
import tempfile

from transcripts import FG

# what it is called with goes to `calls`; it takes as long as the file `takes` has it and says what stands in `says_run` or
# `says_all`, by its first word; where there is a file `fails` it builds nothing
RT = r'''#!/usr/bin/env bash
echo "$*" >>../../calls
[ ! -e ../../takes ] || sleep "$(cat ../../takes)"
cat "../../says_$1" 2>/dev/null
[ "$1" = run ] || exit 0
[ ! -e ../../fails ] || exit 1
mkdir -p out
printf '%s\n' '#!/bin/sh' 'echo "ran $*"' 'cat' 'exit 7' >out/fg_run
chmod +x out/fg_run
'''

# all that the launcher and the stand-in call
COMMANDS = 'bash cat chmod dirname find grep mkdir mktemp mv nproc readlink rm sh sleep sort stat wc'.split()

CRATES = 'fg_base: thiserror\nfg_run: fg_base\n\n# not in the program\nfg_spare: fg_base\n'
BUILD = 'run -- gen --start 0 --nodes 1 --edges 0\n'
BESIDE = 'all check --jobs {}\n' + BUILD
SAYS = 'rt: chose --jobs 2 for fg_base\nrt: waiting for another rt to finish in /x\nrt: chose --jobs 1 for fg_run\n'
TOLD = (
    'fg: the program is proved and built once, from 2 crates: usually 3 to 7 min from nothing\n'
    'fg: crate 1 of 2, fg_base, usually 2 to 4 min; TIME so far\n'
    'fg: waiting for another rt to finish in /x\n'
    'fg: crate 2 of 2, fg_run, usually 1 to 3 min; TIME so far\n'
    'fg: TIME in all\n')
SAYS_ALL = '== fg_base\nproved\n== summary\nfg_base: ok\n'
SAYS_RUN = 'rt: chose --jobs 1 for fg_run\n'
TOLD_BESIDE = (
    'fg: the program is proved and built once, from 2 crates, 3 side by side: usually 3 to 7 min from nothing\n'
    'fg: crate 1 of 2 is done, fg_base; TIME so far\n'
    'fg: crate 2 of 2, fg_run, usually 1 to 3 min; TIME so far\n'
    'fg: TIME in all\n')
TOLD_LATE = (
    'fg: the program is proved and built once, from 2 crates: usually 3 to 7 min from nothing\n'
    'fg: TIME in all\n')


class Place:
    """A repository of three crates with the launcher, and a toolchain beside it."""

    def __init__(self, folder):
        self.folder = pathlib.Path(folder) / 'a repository'
        for name, lines in (('fg_base', 1300), ('fg_run', 1000), ('fg_spare', 9)):
            self.write(f'crates/{name}/src/lib.rt', 'a line\n' * lines)
            self.write(f'crates/{name}/specs/Lib.antt', 'a line\n')
        self.write('crates.txt', CRATES)
        shutil.copy(FG, self.folder)
        self.commands = self.folder.parent / 'commands'
        self.commands.mkdir()
        for command in COMMANDS:
            (self.commands / command).symlink_to(shutil.which(command))
        self.take_toolchain('one')

    def write(self, name, text):
        (self.folder / name).parent.mkdir(parents=True, exist_ok=True)
        (self.folder / name).write_text(text)

    def take_toolchain(self, name):
        """Puts another toolchain on the path, or none."""
        self.tools = self.folder.parent / name
        if name:
            self.tools.mkdir()
            (self.tools / 'rt').write_text(RT)
            (self.tools / 'rt').chmod(0o755)
            (self.tools / 'rattle').write_text(name)

    def stand_in(self, command, does):
        """Puts a script in the place of a command."""
        (self.commands / command).unlink()
        (self.commands / command).write_text(f'#!/bin/sh\n{does}\n')
        (self.commands / command).chmod(0o755)

    def words(self):
        return {
            'args': [self.folder / 'fg', 'check', 'a b'], 'text': True,
            'env': {**os.environ, 'FG_JOBS': '1', 'PATH': f'{self.tools}:{self.commands}'}}

    def call(self, **more):
        """What a call prints, tells and ends with, and what `rt` was called with since the last one."""
        words = self.words()
        words['env'] |= more
        done = subprocess.run(**words, input='in\n', capture_output=True)
        calls = self.folder / 'calls'
        called = calls.read_text() if calls.exists() else ''
        calls.unlink(missing_ok=True)
        return done.stdout, re.sub(r'\d+ min \d\d s', 'TIME', done.stderr), done.returncode, called


RAN = 'ran check a b\nin\n'
FAILED = 'fg: the program could not be built\n'


def drop_source(place):
    (place.folder / 'crates/fg_base/specs/Lib.antt').unlink()


def add_old_source(place):
    place.write('crates/fg_base/specs/Old.antt', '')
    os.utime(place.folder / 'crates/fg_base/specs/Old.antt', (0, 0))


def drop_toolchain_behind_a_change(place):
    place.write('crates/fg_base/specs/Lib.antt', 'another line\n')
    place.take_toolchain('')


def fail_to_build(place):
    place.write('says_run', 'no proof\n')
    place.write('fails', '')
    drop_source(place)


NO_TOOLS = 'fg: the program has to be built, and its toolchain (the command rt) is not on the path\n'

# what is done behind a first call, and what the second then gives
SECOND = (
    ('nothing changed', lambda place: None, (RAN, '', 7, '')),
    ('a source went', drop_source, (RAN, '', 7, BUILD)),
    ('a source came that is older than the program', add_old_source, (RAN, '', 7, BUILD)),
    ('a source changed', lambda place: place.write('crates/fg_run/src/lib.rt', ''), (RAN, '', 7, BUILD)),
    ('a source changed outside the program', lambda place: place.write('crates/fg_spare/src/lib.rt', ''), (RAN, '', 7, '')),
    ('a library more', lambda place: place.write('crates.txt', CRATES.replace('thiserror', 'clap')), (RAN, '', 7, BUILD)),
    ('a crate more outside the program', lambda place: place.write('crates.txt', CRATES + 'fg_more:\n'), (RAN, '', 7, '')),
    ('another toolchain', lambda place: place.take_toolchain('two'), (RAN, '', 7, BUILD)),
    ('a toolchain that changed', lambda place: (place.tools / 'rattle').write_text('changed'), (RAN, '', 7, BUILD)),
    ('no toolchain', lambda place: place.take_toolchain(''), (RAN, '', 7, '')),
    ('no toolchain, and a source changed', drop_toolchain_behind_a_change, ('', NO_TOOLS + FAILED, 125, '')),
    ('a build that fails', fail_to_build, ('', 'no proof\n' + FAILED, 125, BUILD)),
    ('the program went', lambda place: (place.folder / 'crates/fg_run/out/fg_run').unlink(), (RAN, '', 7, BUILD)),
)


def first_call(says_run='', says_all='', takes='0', **more):
    with tempfile.TemporaryDirectory() as folder:
        place = Place(folder)
        place.write('says_run', says_run)
        place.write('says_all', says_all)
        place.write('takes', takes)
        return place.call(**more)


def chosen_call(processors, free):
    """What `rt` is called with on a machine of so many processors and so many kB of memory."""
    with tempfile.TemporaryDirectory() as folder:
        place = Place(folder)
        place.stand_in('nproc', f'echo {processors}')
        place.stand_in('grep', f'echo "MemAvailable:   {free} kB"')
        return place.call(FG_JOBS='')[3]


SENT = (signal.SIGHUP, signal.SIGINT, signal.SIGTERM)


def heed_signals():
    """Signals that whoever runs these rows ignores, as behind `nohup`, would be ignored below them too."""
    for sent in SENT:
        signal.signal(sent, signal.SIG_DFL)


def call_on_terminal(program, sent=None):
    """What a call prints, tells a terminal and ends with, by this program; sent a signal where it has begun."""
    with tempfile.TemporaryDirectory() as folder:
        place = Place(folder)
        place.call()
        place.write('crates/fg_run/out/fg_run', f'#!/bin/sh\n{program}\n')
        seen, terminal = pty.openpty()
        ends = {'stdin': subprocess.PIPE, 'stdout': subprocess.PIPE, 'stderr': terminal}
        with subprocess.Popen(**place.words(), **ends, preexec_fn=heed_signals) as done:
            os.close(terminal)
            begun = ''
            if sent:
                begun = done.stdout.readline()
                done.send_signal(sent)
            printed = begun + done.communicate('in\n')[0]
        told = b''
        # a terminal that nobody holds any more has no end but this
        with contextlib.suppress(OSError):
            while more := os.read(seen, 4096):
                told += more
        os.close(seen)
        return printed, told.decode().replace('\r', '').replace(str(place.folder), ''), done.returncode


def second_call(change):
    with tempfile.TemporaryDirectory() as folder:
        place = Place(folder)
        place.call()
        change(place)
        return place.call()


NO_JOBS = 'fg: FG_JOBS is a number of crates, from 1 to 9999, and not {}\n'

WAITS = 'trap "echo ended; exit 9" TERM; echo begun; while true; do sleep .05; done'
PAGE = 'fg: the commands and their options, with examples, stand in /docs/command-line.md\n'

# a program on a terminal, and what a call of it then prints, tells and ends with
ON_TERMINAL = (
    ('words that make no command line', 'echo refused: words parse; exit 2', ('refused: words parse\n', PAGE, 2)),
    ('a command that is unknown', 'echo refused: words command; exit 2', ('refused: words command\n', PAGE, 2)),
    ('an option at fault', 'echo refused: words extra unit; exit 2', ('refused: words extra unit\n', '', 2)),
    ('a refusal of another status', 'echo refused: words parse; exit 5', ('refused: words parse\n', '', 5)),
    ('the input and the words', 'echo "ran $*"; cat; exit 7', (RAN, '', 7)),
)


def launcher_rows():
    """What each row shows, and what is wrong with it."""
    rows = [
        ('how far a first call is', first_call(SAYS), (RAN, TOLD, 7, BUILD)),
        ('crates side by side', first_call(SAYS_RUN, SAYS_ALL, FG_JOBS='3'), (RAN, TOLD_BESIDE, 7, BESIDE.format(3))),
        ('a build that says nothing', first_call(takes='6'), (RAN, TOLD_LATE, 7, BUILD)),
        *((f'FG_JOBS={jobs}', first_call(FG_JOBS=jobs), ('', NO_JOBS.format(jobs) + FAILED, 125, ''))
          for jobs in ('0', 'two', '-1', '10000')),
        ('a crate a processor', chosen_call(3, 90_000_000), BESIDE.format(3)),
        ('3 GB a crate', chosen_call(8, 7_000_000), BESIDE.format(2)),
        ('little memory', chosen_call(8, 2_900_000), BUILD),
        ('one processor', chosen_call(1, 90_000_000), BUILD),
        *((shows, second_call(change), wanted) for shows, change, wanted in SECOND),
        *((f'on a terminal, {shows}', call_on_terminal(program), wanted) for shows, program, wanted in ON_TERMINAL),
        *((f'on a terminal, {sent.name}', call_on_terminal(WAITS, sent), ('begun\nended\n', '', -sent))
          for sent in SENT),
        ('on a terminal, an end by a signal', call_on_terminal('echo begun; exec sleep 60', SENT[0]), ('begun\n', '', -SENT[0])),
    ]
    for shows, found, wanted in rows:
        yield f'the launcher: {shows}', [] if found == wanted else [f'gave {found}, not {wanted}']
