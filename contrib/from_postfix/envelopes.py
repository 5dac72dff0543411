"""Envelopes: those of queue files, and of addresses that are named."""
import os

from .addresses import path_of
from .asking import Stop, output_of, with_config


def queue_envelope(config, queue_file, notes):
    """The envelope of a queue file: its sender, and the recipients that are not done yet."""
    words = [*with_config('postcat', config), '-e']
    if '/' not in queue_file and not os.path.exists(queue_file):
        words.append('-q')
    sender, recipients = None, []
    for line in output_of([*words, queue_file]).decode('latin-1').split('\n'):
        name, colon, address = line.partition(': ')
        if not colon or line.startswith('***'):
            continue
        if any(not ' ' <= it <= '~' for it in address):
            if name == 'sender':
                raise Stop(f'the sender {address!a} has bytes other than printable ASCII, which no job takes')
            if name == 'recipient':
                notes.left_out(f'the recipient {address!a}: it has bytes other than printable ASCII')
            continue
        if name == 'sender':
            sender = address
        elif name == 'recipient':
            recipients.append(address)
    if sender is None:
        raise Stop(f'{queue_file} is no queue file with a sender')
    if not recipients:
        raise Stop(f'{queue_file} has no recipient that is not done and that a job can have')
    return envelope_text(path_of(sender), map(path_of, recipients))


def queue_envelopes(config, queue_files, notes):
    """The envelopes of queue files, by the last part of their paths. One of several that has none, as it has left the queue, is named."""
    found = {}
    for queue_file in dict.fromkeys(queue_files):
        name = os.path.basename(queue_file)
        try:
            if name in found:
                raise Stop(f'{queue_file} is a second one of this name')
            found[name] = queue_envelope(config, queue_file, notes)
        except Stop as why:
            if len(queue_files) == 1:
                raise
            notes.left_out(f'the message {name}: {why}')
    if not found:
        raise Stop('none of the messages has an envelope')
    return found


def envelope_text(sender, recipients):
    """The envelope of a sender's path and of recipients' paths."""
    lines = [f'MAIL FROM:{sender}', *(f'RCPT TO:{it}' for it in dict.fromkeys(recipients))]
    return ''.join(f'{line}\n' for line in lines).encode('ascii')


def recipients_of(envelope):
    """The paths of the recipients of an envelope."""
    return [line.removeprefix('RCPT TO:') for line in envelope.decode('ascii').splitlines() if line.startswith('RCPT TO:')]
