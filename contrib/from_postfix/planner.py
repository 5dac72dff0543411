"""The planner that the job is for, which also says what the job reaches."""
import os
import shutil
import subprocess

from .asking import Stop, output_of

TOP = os.path.dirname(os.path.dirname(os.path.dirname(os.path.realpath(__file__))))


def planner_of(named):
    """The planner: the one that is named, or else the one that these scripts come with, or that of the PATH.

    The command of a checkout would prove and build where nothing is built, for an hour; so its ./build is asked for the program alone."""
    beside = os.path.join(TOP, 'aliasplan'), os.path.join(TOP, '../../../bin/aliasplan'), 'aliasplan'
    found = next(filter(None, map(shutil.which, [named] if named else beside)), None)
    if found is None:
        raise Stop(f'{named or "aliasplan"} is not to be found')
    place, name = os.path.split(os.path.realpath(found))
    build = os.path.join(place, 'build')
    is_checkout = all(os.path.exists(it) for it in (build, os.path.join(place, 'crates.txt')))
    if name != 'aliasplan' or not is_checkout:
        return found
    run = subprocess.run([build, '--program'], stdin=subprocess.DEVNULL, stdout=subprocess.PIPE, check=False)
    if run.returncode:
        raise Stop(f'there is no program of the sources in {place}: run {build} first, or name a program with --program')
    return os.fsdecode(run.stdout.rstrip(b'\n'))


def run_planner(program, words, text=None, statuses=(0,)):
    return output_of([program, *words], text, statuses, 'the planner')


def gathered(program, files):
    """The job of the files in a folder, each named for its section."""
    names = [it for it in ('settings', 'aliases', 'mailboxes', 'transport', 'mx') if os.path.exists(os.path.join(files, it))]
    return run_planner(program, ['gather', '--verbose', *(it for name in names for it in (f'--{name}', os.path.join(files, name)))])


def with_envelope(job, envelope, name=None):
    """A job of files and tables, with an envelope."""
    return job + b'%envelope' + (b' ' + name.encode() if name else b'') + b'\n' + envelope
