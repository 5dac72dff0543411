"""The sockets, and what is done while they are served."""
import asyncio
import os
import signal
import socket
import stat
import sys
import tempfile
from contextlib import ExitStack, suppress
from functools import partial
from pathlib import Path

from from_postfix.asking import Stop

from .answering import Answering
from .planning import Planning
from .protocols import Conversation

# Connections that may wait: each smtpd(8) keeps one of its own.
WAITING = 1024


def say(text):
    """Says a line on standard error; that nobody reads it is no fault."""
    with suppress(OSError):
        print(f'policy-service: {text}', file=sys.stderr, flush=True)


def is_served(path):
    """Whether a service answers at this socket, or has more connections waiting than it takes."""
    with socket.socket(socket.AF_UNIX) as probe:
        probe.setblocking(False)
        try:
            probe.connect(path)
        except BlockingIOError:
            return True
        except OSError:
            return False
    return True


def bound(address, end):
    """A socket for `unix:PATH` or `inet:HOST:PORT`. One that a service before has left is removed, and at the end this one."""
    kind, _, place = address.partition(':')
    try:
        if kind == 'inet':
            host, _, port = place.rpartition(':')
            return socket.create_server((host, int(port)), backlog=WAITING)
        if os.path.lexists(place):
            if not stat.S_ISSOCK(os.lstat(place).st_mode) or is_served(place):
                raise Stop(f'{address} is in use')
            os.unlink(place)
        server = socket.socket(socket.AF_UNIX)
        server.bind(place)
        end.callback(Path(place).unlink, missing_ok=True)
        return server
    except OSError as error:
        raise Stop(f'{address}: {error.strerror}') from None


def tell_ready(addresses):
    """Says where is served, and tells systemd where it asks for that (sd_notify(3))."""
    say(f'ready: {", ".join(f"{protocol} at {address}" for protocol, address in addresses)}')
    place = os.environ.get('NOTIFY_SOCKET')
    if place:
        with socket.socket(socket.AF_UNIX, socket.SOCK_DGRAM) as notice, suppress(OSError):
            notice.connect(place.replace('@', '\0', 1))
            notice.send(b'READY=1')


async def served(addresses, answering, end):
    """Serves until a signal ends it. Once a second it looks whether the tables changed."""
    loop, ended = asyncio.get_running_loop(), asyncio.Event()
    for number in (signal.SIGTERM, signal.SIGINT):
        loop.add_signal_handler(number, ended.set)
    loop.add_signal_handler(signal.SIGHUP, answering.reread)
    sockets = [bound(address, end) for _, address in addresses]
    for (protocol, _), server in zip(addresses, sockets):
        create = loop.create_unix_server if server.family == socket.AF_UNIX else loop.create_server
        await create(partial(Conversation, protocol, answering), sock=server, backlog=WAITING)
    tell_ready(addresses)
    while not ended.is_set():
        with suppress(asyncio.TimeoutError):
            await asyncio.wait_for(ended.wait(), 1)
        answering.look()


def serve(program, options):
    # while the tables are read for the first time; a handler, so that the planner doesn't ignore what is ignored here
    signal.signal(signal.SIGTERM, lambda *_: sys.exit(0))
    signal.signal(signal.SIGHUP, lambda *_: None)
    with ExitStack() as end:
        place = end.enter_context(tempfile.TemporaryDirectory(prefix='policy-service-'))
        planning = Planning(program, options.tables, options.patience, place, say)
        end.callback(planning.end)
        answering = Answering(planning, options.actions, options.most, say)
        answering.reread()
        asyncio.run(served(options.addresses, answering, end))
