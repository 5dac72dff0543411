"""Running commands, reading files, and what is said on standard error."""
import subprocess
import sys
from pathlib import Path


class Stop(Exception):
    """Why there is no job."""


class Notes:
    """What is said on standard error, each line once."""

    def __init__(self):
        self.said = set()
        self.is_whole = True

    def pass_on(self, line):
        """Says what a command said."""
        if line not in self.said:
            self.said.add(line)
            print(line, file=sys.stderr)

    def say(self, text):
        self.pass_on(f'from-postfix: {text}')

    def left_out(self, text):
        """Names what the job lacks."""
        self.is_whole = False
        self.say(f'left out: {text}')


class Silent(Notes):
    """Says nothing: for a list that is read a second time."""

    def pass_on(self, line):
        pass


def output_of(words, text=None, statuses=(0,), called=None):
    """What a command writes. It fails with another status; what it says on standard error is passed on."""
    called = called or words[0]
    try:
        run = subprocess.run(words, input=text, stdin=None if text is not None else subprocess.DEVNULL, stdout=subprocess.PIPE, check=False)
    except FileNotFoundError:
        raise Stop(f'{called} is not to be found') from None
    except OSError as error:
        raise Stop(f'{called} does not run: {error.strerror}') from None
    if run.returncode not in statuses:
        raise Stop(f'{called} ended with status {run.returncode}')
    return run.stdout


def with_config(command, config):
    """A command of Postfix, told where main.cf is."""
    return [command, *(['-c', config] if config else [])]


def contents(path):
    try:
        return Path(path).read_bytes()
    except OSError as error:
        raise Stop(f'{path}: {error.strerror}') from None


def lines_of(text):
    """The lines that are neither empty nor comments, as text."""
    lines = [line.decode('latin-1') for line in text.split(b'\n')]
    return [line for line in lines if line.strip() and not line.strip().startswith('#')]
