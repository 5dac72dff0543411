"""The planner as a co-process, by the tables of a file that may change while it runs."""
import os
import shutil
import signal
import time
from contextlib import contextmanager

from aliasplan import Planner, PlannerError, Refusal

# Seconds that the planner may read tables for: Postfix waits for 100 (smtpd_policy_service_timeout).
READING = 90

# Seconds for which a planner that failed isn't asked, and after which one that has no tables tries to read them again.
REST, PAUSE = 1, 60


class Unplanned(Exception):
    """Why there is no plan of a recipient."""


class NoAddress(Unplanned):
    """The recipient is none that an envelope can have."""


class Late(Exception):
    """The planner didn't answer in its time."""


# What shows that the planner ended, hangs, or is none.
BROKEN = PlannerError, Late, OSError, ValueError, LookupError


class Clock:
    """Raises Late in the midst of what takes longer than it may. It is for the first thread alone, which gets the signals."""

    def __init__(self):
        self.seconds = 0
        signal.signal(signal.SIGALRM, self.ring)

    def ring(self, *_):
        if self.seconds:
            raise Late(f'the planner did not answer in {self.seconds} seconds')

    @contextmanager
    def limit(self, seconds):
        self.seconds = seconds
        signal.setitimer(signal.ITIMER_REAL, seconds)
        try:
            yield
        finally:
            self.seconds = 0
            signal.setitimer(signal.ITIMER_REAL, 0)


def stamp_of(path):
    """What tells a changed file from the one before, or nothing where there is no file."""
    try:
        found = os.stat(path)
    except OSError:
        return None
    return found.st_mtime_ns, found.st_ino, found.st_size


class Planning:
    """The planner reads a copy of the file, so that one that is started anew has tables that were taken, whatever the file has become."""

    def __init__(self, program, tables, patience, place, say):
        self.program, self.tables, self.patience, self.say = program, tables, patience, say
        self.copy, self.new, self.before = (os.path.join(place, name) for name in ('tables', 'new', 'before'))
        self.clock, self.planner, self.is_down = Clock(), None, False
        self.fault, self.rests_until = 'no tables are read', 0
        self.taken = self.seen = None

    def plan(self, address):
        """The plan of a message of the null sender to one recipient."""
        if not address.isascii() or not address.isprintable():
            raise NoAddress('it has bytes that no address has')
        if self.planner is None or time.monotonic() < self.rests_until:
            raise Unplanned(self.fault)
        try:
            # one that is down reads the tables first
            with self.clock.limit(READING if self.is_down else self.patience):
                answer = self.planner.ask(b'', [address.encode('ascii')])
            self.is_down = False
        except BROKEN as why:
            self.fail(why)
            raise Unplanned(self.fault) from None
        if isinstance(answer, Refusal):
            reason = answer.reason.decode('latin-1')
            raise (NoAddress if reason.startswith('line ') else Unplanned)(f'the planner refused it: {reason}')
        return answer

    def fail(self, why):
        """Ends the planner at once. The first question after a rest starts it again."""
        self.fault, self.is_down, self.rests_until = str(why), True, time.monotonic() + REST
        self.planner.__exit__(type(why), why, None)

    def look(self):
        """Takes the tables anew where the file has changed, but not since the last look: it may still be written. Answers whether it did."""
        stamp = stamp_of(self.tables)
        is_changed = stamp == self.seen != self.taken
        self.seen = stamp
        is_due = self.planner is None and time.monotonic() >= self.rests_until
        return (is_changed or is_due) and self.take()

    def take(self):
        """Takes the tables as the file has them, and answers whether it did. Those that can't be read or are refused change nothing."""
        self.taken = self.seen = stamp_of(self.tables)
        try:
            shutil.copyfile(self.tables, self.new)
            if not os.path.getsize(self.new):
                raise ValueError('the file is empty')
            self.start() if self.planner is None else self.change()
        except BROKEN as why:
            if self.planner is None:
                self.rests_until = time.monotonic() + PAUSE
            stay = 'those before stay' if self.planner else 'all answers are DUNNO'
            self.say(f'{self.tables}: tables refused: {getattr(why, "strerror", None) or why}; {stay}')
            return False
        return True

    def start(self):
        os.replace(self.new, self.copy)
        with self.clock.limit(READING):
            self.planner = Planner(self.program, self.copy)
        self.rests_until = 0
        self.say(f'{self.tables}: tables read, {len(self.planner.findings)} findings')

    def change(self):
        os.replace(self.copy, self.before)
        os.replace(self.new, self.copy)
        try:
            with self.clock.limit(READING):
                answer = self.planner.change_tables()
        except BROKEN as why:
            os.replace(self.before, self.copy)
            self.fail(why)
            raise
        if isinstance(answer, Refusal):
            os.replace(self.before, self.copy)
            raise ValueError(answer.reason.decode('latin-1'))
        self.say(f'{self.tables}: tables read, sum {answer.sum.decode("latin-1")}')

    def end(self):
        """Ends the planner, at once where it doesn't end by itself."""
        if self.planner is None:
            return
        try:
            with self.clock.limit(self.patience):
                self.planner.end()
        except BROKEN as why:
            self.fail(why)
