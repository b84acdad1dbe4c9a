"""What commands take: seconds, processor time, and the most memory that they hold."""
import itertools
import os
import pathlib
import resource
import subprocess
import sys
import time
from dataclasses import dataclass

# the system counts memory in these
KIB = 1024
MIB = 1024 * KIB


@dataclass(frozen=True)
class Spent:
    seconds: float
    # of user and system together, all threads
    processor: float
    # in bytes
    memory: int

    def is_own_memory(self):
        """Whether it held no more than this script does itself: a command begins as that, so its own memory can't be told then."""
        return self.memory <= resource.getrusage(resource.RUSAGE_SELF).ru_maxrss * KIB


@dataclass(frozen=True)
class Measured:
    """What a command took in all rounds, and the lines that it printed in the last."""
    spent: Spent
    lines: list

    def numbers(self, first):
        """The numbers of each line that begins with the word."""
        return [[int(word) for word in line.split() if word.isdigit()] for line in self.lines if line.startswith(first + ' ')]


def spend(words, output):
    """Runs a command, which prints to a file of that name. One that fails ends the script."""
    with open(output, 'wb') as out:
        begun = time.monotonic()
        child = subprocess.Popen(words, stdout=out)
        _, status, used = os.wait4(child.pid, 0)
        seconds = time.monotonic() - begun
    # Popen doesn't know that the child was waited for
    child.returncode = os.waitstatus_to_exitcode(status)
    if child.returncode:
        raise SystemExit(f'{" ".join(words)}: status {child.returncode}')
    return Spent(seconds, used.ru_utime + used.ru_stime, used.ru_maxrss * KIB)


def together(spent):
    """The least times and the most memory."""
    return Spent(min(one.seconds for one in spent), min(one.processor for one in spent), max(one.memory for one in spent))


def measure(jobs, rounds, folder):
    """What each job takes, a list of words in which `{out}` is a file that it may write; all jobs of a round one after the other."""
    spent, lines, output, printed = {key: [] for key in jobs}, {}, f'{folder}/out', f'{folder}/printed'
    for number, (key, words) in itertools.product(range(rounds), jobs.items()):
        print(f'round {number + 1} of {rounds}: {" ".join(map(str, key))}', file=sys.stderr)
        pathlib.Path(output).unlink(missing_ok=True)
        spent[key].append(spend([word.replace('{out}', output) for word in words], printed))
        lines[key] = pathlib.Path(printed).read_text().splitlines()
    return {key: Measured(together(found), lines[key]) for key, found in spent.items()}
