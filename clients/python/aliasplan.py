"""A client of the planner as a co-process, `aliasplan plan --each --tables FILE`. It needs Linux and Python 3.9 or later.

    with Planner('aliasplan', '/etc/aliasplan/tables') as planner:
        answer = planner.ask(b'ann@example.com', [b'team@example.org'])

Addresses are bytes without angle brackets, the null sender is b''. Parameters of MAIL and RCPT (`SIZE=1000`) are no part of an address.
One thread at a time may use a planner.
"""
import os
import select
import subprocess
from collections.abc import Callable, Iterable, Sequence
from types import TracebackType
from typing import NamedTuple, Optional, TypeVar, Union


class Transaction(NamedTuple):
    """One mail transaction to make; the hosts stand in the order in which they are tried."""

    sender: bytes
    transport: bytes
    nexthop: bytes
    hosts: list[bytes]
    recipients: list[bytes]


class Plan(NamedTuple):
    """What to do with a message, and what is wrong with its addresses and lists: the words behind `finding `."""

    transactions: list[Transaction]
    findings: list[bytes]


class Tables(NamedTuple):
    """The tables that hold from now on: the SHA-256 of their file, in hexadecimal digits."""

    sum: bytes


class Refusal(NamedTuple):
    """Why there is no plan of an envelope, or why the tables stay as they were: the words behind `refused `."""

    reason: bytes


class PlannerError(Exception):
    """The planner ended, or wrote what is no answer, at its start or twice without an answer in between."""


Answer = TypeVar('Answer')

_CR, _LF = b'\r\n'

# Octets that are read at once: what a pipe holds.
_AT_ONCE = 1 << 16


class Planner:
    """A planner that is kept. What it says on standard error goes where that of this process goes.

    `options` are further words of the command line, such as '--workers=1'; none that changes the form of the answers."""

    def __init__(self, program: Union[str, 'os.PathLike[str]'], tables: Union[str, 'os.PathLike[str]'], options: Sequence[str] = ()) -> None:
        self._words = [os.fspath(program), 'plan', '--each', '--tables', os.fspath(tables), *options]
        self._process: Optional['subprocess.Popen[bytes]'] = None
        self._number = 0
        # what is wrong with the lines of the tables that were read at the last start
        self.findings: list[bytes] = []
        self._start()

    def ask(self, sender: bytes, recipients: Iterable[bytes]) -> Union[Plan, Refusal]:
        """The answer to one envelope. ValueError: an address has CR or LF, and nothing was sent."""
        return self._answers([self._envelope(sender, recipients)], self._block)[0]

    def ask_many(self, envelopes: Iterable[tuple[bytes, Iterable[bytes]]]) -> list[Union[Plan, Refusal]]:
        """The answers to envelopes, each a sender and recipients, in their order; none waits for the answer to the one before."""
        return self._answers([self._envelope(sender, recipients) for sender, recipients in envelopes], self._block)

    def change_tables(self) -> Union[Tables, Refusal]:
        """Has the file of tables read anew."""
        return self._answers([b'%tables\n'], self._tables)[0]

    def end(self) -> None:
        """Ends the planner. A later question starts one again."""
        if self._process is not None and self._process.stdin:
            self._process.stdin.close()
            while os.read(self._output, _AT_ONCE):
                pass
            self._process.wait()
            self._stop()

    def __enter__(self) -> 'Planner':
        return self

    def __exit__(self, kind: Optional[type[BaseException]], error: Optional[BaseException], trace: Optional[TracebackType]) -> None:
        if error is None:
            self.end()
        else:
            self._stop()

    def _envelope(self, sender: bytes, recipients: Iterable[bytes]) -> bytes:
        addresses = [sender, *recipients]
        text = b'>\nRCPT TO:<'.join(addresses)
        if _CR in text or text.count(b'\n') >= len(addresses):
            raise ValueError('an address has CR or LF')
        self._number += 1
        return b'%%envelope %d\nMAIL FROM:<%b>\n%%end\n' % (self._number, text)

    def _answers(self, requests: Sequence[bytes], read: Callable[[bytes], Answer]) -> list[Answer]:
        """The answers to requests, each as it is read. Where the planner dies, a new one is asked what isn't answered."""
        answers: list[Answer] = []
        has_died = False
        while len(answers) < len(requests):
            try:
                if self._process is None:
                    self._start()
                unanswered = requests[len(answers):]
                self._send(b''.join(unanswered))
                for request in unanswered:
                    answers.append(read(request))
                    has_died = False
            except BaseException as error:
                # whatever it is, no later question may read this answer
                self._stop()
                if has_died or not isinstance(error, PlannerError):
                    raise
                has_died = True
        return answers

    def _start(self) -> None:
        self._process = process = subprocess.Popen(self._words, stdin=subprocess.PIPE, stdout=subprocess.PIPE, bufsize=0)
        try:
            assert process.stdin and process.stdout
            self._input, self._output = process.stdin.fileno(), process.stdout.fileno()
            os.set_blocking(self._input, False)
            self._ready = select.poll()
            self._ready.register(self._input, select.POLLOUT)
            self._ready.register(self._output, select.POLLIN)
            # what the planner didn't take yet; what it wrote, and from where on that isn't looked at
            self._unsent, self._text, self._place = memoryview(b''), b'', 0
            count = self._behind(b'tables ').removesuffix(b' findings')
            if not count.isdigit():
                raise PlannerError(f'the planner wrote {count!r} of its tables')
            self.findings = [self._behind(b'finding ') for _ in range(int(count))]
        except BaseException:
            self._stop()
            raise

    def _stop(self) -> None:
        """Ends the planner at once, where there is one."""
        process, self._process = self._process, None
        if process is not None:
            # which closes what leads to it, and waits
            with process:
                process.kill()

    def _send(self, text: Union[bytes, memoryview]) -> None:
        """Sends what the planner takes now, and keeps the rest. That it has ended shows where it is read."""
        try:
            sent = os.write(self._input, text)
        except BlockingIOError:
            sent = 0
        except BrokenPipeError:
            sent = len(text)
        self._unsent = memoryview(text)[sent:]

    def _more(self) -> bytes:
        """What the planner writes next; meanwhile it is sent what is unsent, so that neither waits for the other."""
        while self._unsent:
            ready = dict(self._ready.poll())
            if self._input in ready:
                self._send(self._unsent)
            if self._output in ready:
                break
        text = os.read(self._output, _AT_ONCE)
        if not text:
            raise PlannerError('the planner ended without an answer')
        return text

    def _until(self, mark: bytes) -> bytes:
        """What the planner writes up to this mark, which is taken off."""
        end = self._text.find(mark, self._place)
        if end < 0:
            end = self._read_until(mark)
        text = self._text[self._place:end]
        self._place = end + len(mark)
        return text

    def _read_until(self, mark: bytes) -> int:
        """Reads until there is such a mark, and answers its place."""
        last = self._text[self._place:]
        parts = [last]
        while mark not in last:
            parts.append(self._more())
            # a mark may be in two parts
            last = last[max(len(last) - len(mark) + 1, 0):] + parts[-1]
        self._text, self._place = b''.join(parts), 0
        return self._text.find(mark)

    def _behind(self, word: bytes) -> bytes:
        """What stands behind this word on the next line."""
        line = self._until(b'\n')
        if not line.startswith(word):
            raise PlannerError(f'the planner wrote {line!r} in place of {word!r}')
        return line[len(word):]

    def _block(self, request: bytes) -> Union[Plan, Refusal]:
        """The answer to an envelope; the first line of both has its number."""
        if self._place == len(self._text):
            self._text, self._place = self._more(), 0
        name = request[1:request.index(b'\n') + 1]
        if self._text.startswith(name + b'plan ', self._place):
            self._place += len(name)
        else:
            # a refusal, or what is read ends here
            if self._until(b'\n') + b'\n' != name:
                raise PlannerError('the planner answered another envelope')
            word = self._until(b' ')
            if word == b'refused':
                return Refusal(self._until(b'\n'))
            if word != b'plan':
                raise PlannerError(f'the planner wrote {word!r}')
        return _plan(self._until(b'\nend\n'))

    def _tables(self, _: bytes) -> Union[Tables, Refusal]:
        words = self._behind(b'tables ')
        if words.startswith(b'ok '):
            return Tables(words[3:])
        if words.startswith(b'refused '):
            return Refusal(words[8:])
        raise PlannerError(f'the planner wrote {words!r} of its tables')


def _plan(text: bytes) -> Plan:
    """The plan of the lines from `plan` to the one before `end`."""
    front, *findings = text.split(b'\nfinding ')
    head, *parts = front.split(b'\ntransaction ')
    if _LF in head or findings and _LF in b''.join(findings):
        raise PlannerError(f'the planner wrote {text[:100]!r}')
    return Plan([_transaction(part) for part in parts], findings)


def _transaction(text: bytes) -> Transaction:
    """The transaction of the lines from its number to its last recipient."""
    front, _, paths = text.partition(b'\nto <')
    front, *hosts = front.split(b'\nhost ')
    front, _, via = front.partition(b'>\nvia ')
    _, _, sender = front.partition(b'\nfrom <')
    transport, _, nexthop = via.partition(b' ')
    recipients = paths[:-1].split(b'>\nto <')
    # each line was taken for what it is
    if text.count(b'\n') != 2 + len(hosts) + len(recipients):
        raise PlannerError(f'the planner wrote {text[:100]!r}')
    return Transaction(sender, transport, nexthop, hosts, recipients)
