"""The words of the command line, and what is done by them."""
import argparse
import os
import signal
import sys
import tempfile

from .addresses import ADDRESS
from .asking import Notes, Stop
from .gathering import Gathering
from .planner import planner_of, with_envelope

USAGE = '''from-postfix [OPTIONS] QUEUE-FILE ..
       from-postfix [OPTIONS] --from PATH --to PATH ..
       from-postfix [OPTIONS] --check [--no-routes]'''

ABOUT = '''Writes the job of messages in the queue of a Postfix, of an envelope, or of all its aliases: what it would send, and to where.

A QUEUE-FILE is the path of a queue file, or a queue id as mailq shows it. The job goes to standard output: of one message or of an envelope for
`aliasplan plan`, of several messages for `aliasplan plan --each`, with --check for `aliasplan check --all`.

It asks postconf, postcat, postmap, getent and dig, and changes nothing of the Postfix. What the job cannot say is named on standard error, a line
each that begins with `from-postfix: left out: `.'''

STATUSES = '''Exit statuses: 0 the job is whole; 1 it is written, and something is left out; 2 there is no job: a command is missing or failed, a file
cannot be read, or the planner refused; 5 the command line.'''


def path_word(word):
    """The path of an address of the command line, which may lack its brackets."""
    address = word[1:-1] if word.startswith('<') and word.endswith('>') else word
    if word != '<>' and not ADDRESS.fullmatch(address):
        raise argparse.ArgumentTypeError(f'{word!a} is no address')
    return f'<{address}>'


def number_word(word):
    if not word.isascii() or not word.isdigit():
        raise argparse.ArgumentTypeError(f'{word!a} is no number')
    return int(word)


def parser():
    made = argparse.ArgumentParser(
        prog='from-postfix',
        usage=USAGE,
        description=ABOUT,
        epilog=STATUSES,
        formatter_class=argparse.RawDescriptionHelpFormatter,
        exit_on_error=False,
        allow_abbrev=False,
    )
    add = made.add_argument
    add('queue_files', metavar='QUEUE-FILE', nargs='*', help=argparse.SUPPRESS)
    add('--from', metavar='PATH', dest='sender', type=path_word, help='the sender of a message that is in no queue; <> is the null sender')
    add('--to', metavar='PATH', dest='recipients', type=path_word, nargs='+', action='extend', help='its recipients')
    add('--check', action='store_true', help='a job of all aliases')
    add('--no-routes', action='store_true', help='with --check, asks no name server: each domain counts as a host of its own')
    add('--config', metavar='DIR', help='the folder of main.cf, as for `postconf -c`')
    add('--files', metavar='DIR', help='keeps the files that the job is gathered of in this new folder')
    add('--jobs', metavar='DIR', help='writes the job of each message to a file ID.job in this new folder')
    add('--look-ups', metavar='N', type=number_word, default=1000000, help='how many keys tables are asked for at most (%(default)s)')
    add('--program', metavar='PROGRAM', help='the planner, where it is neither beside this script nor on the PATH')
    made.error = lambda why: (_ for _ in ()).throw(argparse.ArgumentError(None, why))
    return made


def fault_of(options):
    """What is wrong with the words together, or nothing."""
    asked = [bool(options.queue_files), options.sender is not None or bool(options.recipients), options.check]
    if '' in (options.config, options.files, options.jobs, options.program):
        return 'an option has an empty value'
    if sum(asked) != 1:
        return 'one of QUEUE-FILE, --from with --to, and --check has to be there'
    if asked[1] and (options.sender is None or not options.recipients):
        return '--from and --to belong together'
    if options.recipients and '<>' in options.recipients:
        return '--to: the null path is no recipient'
    if options.no_routes and not options.check:
        return '--no-routes belongs to --check'
    if options.jobs and not options.queue_files:
        return '--jobs belongs to messages of the queue'
    if options.files and len(options.queue_files) > 1:
        return '--files is for one job'
    return None


def read_words():
    made = parser()
    try:
        options = made.parse_args()
        fault = fault_of(options)
    except argparse.ArgumentError as error:
        fault = str(error)
    if fault:
        print(f'from-postfix: {fault}', file=sys.stderr)
        print(made.format_usage(), end='', file=sys.stderr)
        sys.exit(5)
    return options


def write_jobs(path, jobs, place):
    """Writes each job to a file of a new folder, which is there once all are."""
    made = os.path.join(place, 'jobs')
    os.mkdir(made)
    for name, job in jobs.items():
        with open(os.path.join(made, f'{name}.job'), 'wb') as file:
            file.write(job)
    os.rename(made, path)


def answer(options, notes):
    """Writes what is asked for. Folders are made beside the places that they get, so that they can be renamed."""
    for path in filter(None, (options.files, options.jobs)):
        if os.path.lexists(path):
            raise Stop(f'{path} is there already')
    kept = options.jobs or options.files
    parent = os.path.dirname(os.path.abspath(kept)) if kept else None
    if parent and not os.path.isdir(parent):
        raise Stop(f'{parent} is no folder')
    program = planner_of(options.program)
    with tempfile.TemporaryDirectory(prefix='.from-postfix-', dir=parent) as place:
        gathering = Gathering(program, options, notes, place)
        tables, jobs = gathering.jobs()
        if options.files:
            gathering.keep_parts(options.files)
        if options.jobs:
            write_jobs(options.jobs, jobs, place)
            return b''
    if len(jobs) < 2 and len(options.queue_files) < 2:
        return next(iter(jobs.values()), tables)
    text = tables
    for name, envelope in gathering.envelopes.items():
        text = with_envelope(text, envelope, name)
    return text


def main():
    options = read_words()
    notes = Notes()
    # A signal ends the process as an exception does, so that the files are removed.
    for number in (signal.SIGINT, signal.SIGTERM, signal.SIGHUP):
        signal.signal(number, lambda *_: sys.exit(2))
    try:
        sys.stdout.buffer.write(answer(options, notes))
        sys.stdout.buffer.flush()
    except BrokenPipeError:
        os.dup2(os.open(os.devnull, os.O_WRONLY), 1)
        sys.exit(2)
    except Stop as why:
        print(f'from-postfix: {why}', file=sys.stderr)
        sys.exit(2)
    except OSError as error:
        print(f'from-postfix: {error.filename or "a file"}: {error.strerror}', file=sys.stderr)
        sys.exit(2)
    sys.exit(0 if notes.is_whole else 1)
