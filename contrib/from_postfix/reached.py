"""What a job reaches: the local names and addresses for which tables have to be asked.

The planner itself says it, of a job in which each alias and include file has one item more, a command that is found where it is reached; which has
no mailbox, so that each other name is missing; and whose transport table refuses each remote address. Names are not split there, so that each is
told whole; what stands before an extension is added as what the whole name leads to, behind all that a table says of that.
"""
import os
import re
from dataclasses import dataclass

from .addresses import base_of, local_text, unquoted
from .planner import gathered, run_planner, with_envelope
from .tables import ENTRY

MARK = '|reached'
NAME = r'("(?:\\.|[^"\\])*"|\S+)'
ALIAS = re.compile(rf'finding command {re.escape(MARK)} in alias {NAME}')
INCLUDE = re.compile(rf'finding command {re.escape(MARK)} in include (/.*)')
MISSING = re.compile(rf'finding missing {NAME} in (?:alias|include|envelope).*')
REMOTE = re.compile(r'finding unrouted <(.*)> refused')


@dataclass
class Reached:
    """Local names and addresses without quotes, the aliases among the names, and the paths of include files."""

    names: list
    aliases: list
    addresses: list
    includes: list


def reached_by(program, aliases, settings, bases, envelope, place):
    """What the envelope reaches by these aliases and settings, or where there is none, what all aliases do. `bases` has what stands before the
    extension of names that were reached before."""
    extended = ''.join(f'{local_text(name)}: {local_text(base)}\n' for name, base in bases.items()).encode('latin-1')
    files = {
        'settings': settings,
        'aliases': ENTRY.sub(lambda it: it[0] + MARK.encode() + b', ', aliases) + extended,
        'transport': b'* error:\n',
    }
    os.makedirs(place, exist_ok=True)
    for name, text in files.items():
        with open(os.path.join(place, name), 'wb') as file:
            file.write(text)
    job = re.sub(rb'^%include .*$', lambda it: it[0] + b'\n' + MARK.encode(), gathered(program, place), flags=re.MULTILINE)
    words, job = (['plan'], with_envelope(job, envelope)) if envelope else (['check', '--all'], job)
    lines = run_planner(program, words, job, (0, 1)).decode('latin-1').splitlines()
    found_aliases, missing, addresses, includes = (told_by(pattern, lines) for pattern in (ALIAS, MISSING, REMOTE, INCLUDE))
    return Reached(list(dict.fromkeys([*found_aliases, *missing])), found_aliases, addresses, includes)


def told_by(pattern, lines):
    """What a pattern finds in lines, each once, without quotes."""
    return list(dict.fromkeys(unquoted(it[1]) for it in map(pattern.fullmatch, lines) if it))


def more_bases(names, delimiter, known):
    """What stands before the extension of names, where that isn't known yet."""
    found = {name: base_of(name, delimiter) for name in names if name not in known}
    return {name: base for name, base in found.items() if base}
