"""What the runners beside this file share: naming the program, running it, comparing its answer and reporting."""
import os
import subprocess
import sys
from concurrent.futures import ThreadPoolExecutor
from dataclasses import dataclass
from io import BytesIO
from itertools import zip_longest

# Seconds that a run may take.
PATIENCE = 120

# Bytes of a line that are shown where it differs.
SHOWN = 160


@dataclass(frozen=True)
class Answer:
    """What a run ends with; the status is that of subprocess, below 0 where a signal ended it."""

    status: int
    output: bytes
    error: bytes


def wrong_call(message):
    print(message, file=sys.stderr)
    sys.exit(2)


def named_program():
    """The program that the command line names, ready to be run: a launcher that has to build it first has done so."""
    if len(sys.argv) != 2:
        wrong_call(f'usage: {sys.argv[0]} PROGRAM')
    program = os.path.abspath(sys.argv[1])
    if not os.path.isfile(program) or not os.access(program, os.X_OK):
        wrong_call(f'{sys.argv[0]}: {sys.argv[1]} is no program')
    try:
        subprocess.run([program, '--help'], stdin=subprocess.DEVNULL, stdout=subprocess.DEVNULL, check=False)
    except OSError as error:
        wrong_call(f'{sys.argv[0]}: {sys.argv[1]} does not start: {error.strerror}')
    return program


def answer_of(program, words, text):
    """The program's answer to these words and this standard input."""
    run = subprocess.run([program, *words], input=text, capture_output=True, timeout=PATIENCE, check=False)
    return Answer(run.returncode, run.stdout, run.stderr)


def part_of(line, place):
    """A line, or as much of it as is shown, round the place where it differs."""
    if line is None:
        return 'nothing'
    start = 0 if len(line) <= SHOWN else max(0, place - SHOWN // 2)
    return repr(line[start:start + SHOWN])


def differences(name, got, wanted):
    """What to say of two texts: the first line that differs, or nothing where they are the same."""
    lines = zip_longest(BytesIO(got).readlines(), BytesIO(wanted).readlines())
    for number, (line, other) in enumerate(lines, 1):
        if line != other:
            place = len(os.path.commonprefix([line or b'', other or b'']))
            return [f'{name}, line {number}: {part_of(line, place)}, wanted {part_of(other, place)}']
    return []


def faults_of(check):
    """What is wrong by a check, which is called; a run that does not end or start is a fault too."""
    try:
        return check()
    except subprocess.TimeoutExpired:
        return [f'no end after {PATIENCE} seconds']
    except OSError as error:
        return [f'it does not start: {error.strerror}']


def report(checks):
    """Makes the checks side by side, each a name and a call that answers its faults, prints what failed and ends the process.

    It fails where there is nothing to check."""
    failed = 0
    with ThreadPoolExecutor(max_workers=os.cpu_count()) as pool:
        results = pool.map(lambda check: faults_of(check[1]), checks)
        for (name, _), faults in zip(checks, results):
            failed += bool(faults)
            for fault in faults:
                print(f'FAILED {name}: {fault}')
    print(f'{len(checks) - failed} passed, {failed} failed')
    sys.exit(1 if failed or not checks else 0)
