"""The words of the command line."""
import argparse
import ipaddress
import sys

from from_postfix.asking import Stop
from from_postfix.planner import planner_of

from .judging import FAULTS, action_of
from .protocols import PROTOCOLS
from .serving import serve

USAGE = 'policy-service --tables FILE [--policy ADDRESS] [--socketmap ADDRESS] [OPTIONS]'

ABOUT = '''Answers Postfix what the planner knows of a recipient: at RCPT by the policy protocol (SMTPD_POLICY_README), and for look-ups by the
socketmap protocol (socketmap_table(5)), where the map `known` says whether there is such a recipient and `expand` to which addresses its mail goes.

An ADDRESS is unix:PATH or inet:PORT, the latter at 127.0.0.1; there may be several. The tables are a job without its envelope, as
`from-postfix --check` or `aliasplan gather` writes it. They are taken anew two seconds after the file has changed, or at SIGHUP; where they are
refused, or the file is empty, those before stay.

What is found is said on standard error, a line each. An ACTION is what is answered then: DUNNO, or REJECT or DEFER with a text behind it if wished.
All else is DUNNO, and so is what the planner doesn't answer.'''

STATUSES = 'Exit statuses: 0 a signal ended it; 2 there is no planner, or an address cannot be served; 5 the command line.'

HELP = {
    'missing': 'for a recipient that is neither an alias nor a mailbox',
    'loop': 'for a list that leads back to itself, or to one that does',
    'unrouted': 'for a list of which nothing is delivered, because addresses have no route',
    'large': 'for one with more final recipients than --most',
}


def address_word(word):
    """An address to serve at, of TCP with its host."""
    kind, _, place = word.partition(':')
    if kind == 'unix' and place:
        return word
    host, _, port = place.rpartition(':')
    try:
        is_good = kind == 'inet' and ipaddress.IPv4Address(host or '127.0.0.1').is_loopback and 0 < int(port) < 65536
    except ValueError:
        is_good = False
    if not is_good:
        raise argparse.ArgumentTypeError(f'{word!a} is neither unix:PATH nor inet:PORT')
    return f'inet:{host or "127.0.0.1"}:{port}'


def action_word(word):
    if word.partition(' ')[0] not in ('REJECT', 'DEFER', 'DUNNO') or not word.isascii() or not word.isprintable():
        raise argparse.ArgumentTypeError(f'{word!a} is none of REJECT, DEFER and DUNNO with a text')
    return word


def number_word(word):
    if not word.isascii() or not word.isdigit() or int(word) == 0:
        raise argparse.ArgumentTypeError(f'{word!a} is no number above 0')
    return int(word)


def parser():
    made = argparse.ArgumentParser(
        prog='policy-service',
        usage=USAGE,
        description=ABOUT,
        epilog=STATUSES,
        formatter_class=argparse.RawDescriptionHelpFormatter,
        exit_on_error=False,
        allow_abbrev=False,
    )
    add = made.add_argument
    add('--tables', metavar='FILE', required=True, help='the tables to plan by')
    for protocol in PROTOCOLS:
        add(f'--{protocol}', metavar='ADDRESS', type=address_word, action='append', default=[], help=f'where the {protocol} protocol is served')
    for kind in FAULTS:
        add(f'--{kind}', metavar='ACTION', type=action_word, default='DUNNO', help=HELP[kind])
    add('--most', metavar='N', type=number_word, default=1000, help='how many final recipients a list may have (%(default)s)')
    add('--patience', metavar='SECONDS', type=number_word, default=10, help='how long the planner may take for an answer (%(default)s)')
    add('--program', metavar='PROGRAM', help='the planner, where it is neither beside this script nor on the PATH')
    made.error = lambda why: (_ for _ in ()).throw(argparse.ArgumentError(None, why))
    return made


def read_words():
    made = parser()
    try:
        options = made.parse_args()
        options.addresses = [(protocol, address) for protocol in PROTOCOLS for address in getattr(options, protocol)]
        fault = None if options.addresses else 'one of --policy and --socketmap has to be there'
    except argparse.ArgumentError as error:
        fault = str(error)
    if fault:
        print(f'policy-service: {fault}', file=sys.stderr)
        print(made.format_usage(), end='', file=sys.stderr)
        sys.exit(5)
    options.actions = {kind: action_of(kind, getattr(options, kind)) for kind in FAULTS}
    return options


def main():
    options = read_words()
    try:
        serve(planner_of(options.program), options)
    except Stop as why:
        print(f'policy-service: {why}', file=sys.stderr)
        sys.exit(2)
