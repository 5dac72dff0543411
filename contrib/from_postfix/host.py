"""This host: its users, its addresses, and who may write its files."""
import ipaddress
import os
import socket
import stat

from .addresses import local_text
from .asking import output_of
from .settings import pieces_of


def mailboxes_text(notes):
    """The names that have a mailbox: the users of this host."""
    users = [line.split(':') for line in output_of(['getent', 'passwd']).decode('latin-1').splitlines() if line.partition(':')[0]]
    for user in users:
        forward = os.path.join(user[5], '.forward') if len(user) > 5 and user[5] else ''
        if forward and os.path.exists(forward):
            notes.left_out(f'{forward}: the mailbox {user[0]} keeps its mail')
    return ''.join(f'{local_text(user[0])}\n' for user in users).encode('latin-1')


def is_own_literal(literal, settings):
    """Whether an address literal is an address of this host, by inet_interfaces or proxy_interfaces (postconf(5))."""
    try:
        address = ipaddress.ip_address(literal[1:-1].lower().removeprefix('ipv6:'))
    except ValueError:
        return False
    named = pieces_of(settings['inet_interfaces']) + pieces_of(settings['proxy_interfaces'])
    return any(is_address_of(address, name) for name in named)


def is_address_of(address, name):
    """Whether an address is one of those that a name in inet_interfaces stands for."""
    if name == 'all':
        return is_of_interface(address)
    if name == 'loopback-only':
        return str(address) in ('127.0.0.1', '::1')
    try:
        found = socket.getaddrinfo(name.strip('[]'), None)
    except OSError:
        return False
    return str(address) in {it[4][0].partition('%')[0] for it in found}


def is_of_interface(address):
    """Whether an interface has this address: only to such a one can a socket be bound. Of the loopback's network one alone is an interface's."""
    if address.is_unspecified or address.is_multicast or (address.is_loopback and str(address) not in ('127.0.0.1', '::1')):
        return False
    family = socket.AF_INET if address.version == 4 else socket.AF_INET6
    try:
        with socket.socket(family, socket.SOCK_DGRAM) as probe:
            probe.bind((str(address), 0))
    except OSError:
        return False
    return True


def note_writable(paths, notes):
    """Names the include files that others may write: local(8) bounces what leads to one."""
    for path in paths:
        if os.stat(path.encode('latin-1')).st_mode & stat.S_IWOTH:
            notes.left_out(f'{path} may be written by others: Postfix bounces what leads to it')
