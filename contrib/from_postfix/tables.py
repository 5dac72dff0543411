"""The tables of alias_maps and transport_maps, in their order: those whose source text is read, and those that postmap(1) is asked.

Postfix asks the tables in the order in which they are named, and the first that has a key decides; of a job's section the first line of a key
holds. So the lines of all tables in the same order answer as the tables do. The plan reports a later entry of a name as a duplicate.
"""
import os
import re
import subprocess
import tempfile

from .addresses import address_text, local_text, unquoted
from .asking import Stop, contents, lines_of, with_config
from .settings import TEXT_TABLES, pieces_of, text_table

# An entry of an alias file up to its colon (aliases(5)).
ENTRY = re.compile(rb'^("(?:\\.|[^"\\\n])*"|[^\s":#][^\s":]*)[ \t]*:', re.MULTILINE)

# Tables that take the whole key alone, and no part of an address: regexp_table(5), pcre_table(5), cidr_table(5), tcp_table(5), socketmap_table(5).
# A pipemap or unionmap of which one is such a table does so too.
WHOLE_KEYS = re.compile(r'(?:^|[{,\s])(?:regexp|pcre|cidr|tcp|socketmap|randmap):')

# Tables that local(8) refuses for aliases: whoever answers there could run commands.
NOT_LOCAL = ('tcp', 'socketmap')

# A table whose rules may take something of the key, such a rule with its result, and such a result.
RULES = re.compile(r'\b(regexp|pcre):(/[^,{}\s]+)')
RULE = re.compile(r'\s*(?:!\s*)*(?P<mark>[^\w\s])(?:\\.|(?!(?P=mark)).)*(?P=mark)\w*\s+(?P<result>.*)', re.DOTALL)
SUBSTITUTION = re.compile(r'\$[\w({]')


class TextTable:
    """A table whose source text is read."""

    def __init__(self, text, keys):
        self.text = text
        self.keys = keys

    def decides(self, key, is_part):
        return key.lower() in self.keys


class AskedTable:
    """A table that postmap(1) is asked: its answers, by key, each None where the table has none."""

    def __init__(self, setting, piece, name, config, notes):
        self.setting, self.piece, self.name, self.config, self.notes = setting, piece, name, config, notes
        self.answers = {}
        self.is_shut = False

    def decides(self, key, is_part):
        """Whether the table has a key, which may be part of an address, or None where it was not asked."""
        if self.is_shut or (is_part and WHOLE_KEYS.search(self.name)):
            return False
        return self.answers[key] is not None if key in self.answers else None

    def ask(self, keys):
        """Asks for these keys. A table that fails counts as empty."""
        words = [*with_config('postmap', self.config), '-q', '-', self.name]
        try:
            run = subprocess.run(words, input='\n'.join([*keys, '']).encode('latin-1'), capture_output=True, check=False)
        except FileNotFoundError:
            raise Stop('postmap is not to be found') from None
        said = run.stderr.decode('utf-8', 'replace').splitlines()
        fatal = [line for line in said if not line.startswith('postmap: warning: ')]
        if run.returncode not in (0, 1) or fatal:
            self.is_shut = True
            self.answers.clear()
            why = fatal[-1] if fatal else f'postmap ended with status {run.returncode}'
            self.notes.left_out(f'{self.setting} names {self.piece}, which has no source text and does not answer: {why}')
            return
        for line in said:
            self.notes.pass_on(line)
        self.answers.update(dict.fromkeys(keys))
        for line in run.stdout.decode('latin-1').split('\n')[:-1]:
            key, tab, value = line.partition('\t')
            if tab and value.strip() and key in self.answers:
                self.answers[key] = value
            else:
                self.notes.left_out(f'{self.setting}: a line of an answer of {self.piece}: {line!a}')

    @property
    def text(self):
        """A line for each answer, behind a comment that says where it is from. The planner folds what it looks up, as most tables do."""
        lines = {}
        for key, value in self.answers.items():
            if lines.setdefault(key.lower(), (key, value))[1] != value:
                self.notes.left_out(f'{self.setting}: {self.piece} has another answer for {key} in another case')
                lines[key.lower()] = (key, value) if value is not None else lines[key.lower()]
        named = [(self.name_of(key), value) for key, value in lines.values() if value is not None]
        # main.cf is read as UTF-8, what postmap writes byte by byte
        return b''.join(f'# {self.piece}\n'.encode() + f'{name} {value}\n'.encode('latin-1') for name, value in named if name)

    def name_of(self, key):
        """A key as a line of the section begins with it, or nothing where none can."""
        if self.setting == 'alias_maps':
            return f'{local_text(key)}:'
        name = address_text(key) if '@' in key else key
        if ' ' not in name:
            return name
        self.notes.left_out(f'{self.setting}: {self.piece} has {name}, which no line of the transport table can name')
        return None


def tables_of(setting, value, config, notes, scratch):
    """The tables of a list, in their order. One that can't be had is named."""
    tables = []
    for piece in pieces_of(value):
        path = text_table(piece)
        name = piece.removeprefix('proxy:')
        kind = name.partition(':')[0]
        if path is not None:
            tables.append(read_table(setting, piece, path, notes))
        elif kind in TEXT_TABLES or ':' not in name:
            notes.left_out(f'{setting} names {piece}, which has no source text at an absolute path')
        elif setting == 'alias_maps' and kind in NOT_LOCAL:
            notes.left_out(f'{setting} names {piece}, which local(8) refuses: its mail waits')
        else:
            # A table behind proxymap(8) is asked without it, as local(8) does: Postfix need not run.
            tables.append(AskedTable(setting, piece, without_substitution(name, scratch), config, notes))
    return tables


def joined(tables):
    """The lines of all tables, one table behind the other."""
    return b''.join(it.text for it in tables)


def read_table(setting, piece, path, notes):
    """A table by its source text, with what the text of a job has otherwise: colons behind the names of a texthash."""
    is_colon_due = setting == 'alias_maps' and ':texthash:' in f':{piece}'
    lines, begun = [], False
    for number, line in enumerate(contents(path).split(b'\n'), 1):
        ignored = not line.strip() or line.lstrip().startswith(b'#')
        if not ignored and not begun and line[:1].isspace():
            # It would continue the last entry of the file before.
            notes.left_out(f'{path} line {number} continues no line')
            continue
        begun = begun or not ignored
        if is_colon_due and not ignored and not line[:1].isspace():
            # A texthash has no colon behind a name, as a text that postalias reads has.
            name, _, rest = line.replace(b'\t', b' ').partition(b' ')
            line = name + b': ' + rest
        lines.append(line)
    text = b'\n'.join(lines)
    text = text if not text or text.endswith(b'\n') else text + b'\n'
    names = (it.decode('latin-1') for it in ENTRY.findall(text)) if setting == 'alias_maps' else patterns_of(text)
    return TextTable(text, {unquoted(it.lower()) for it in names})


def patterns_of(transport):
    """The patterns of a transport table, in lower case."""
    return {line.split()[0].lower() for line in lines_of(transport) if not line[0].isspace()}


def without_substitution(name, scratch):
    """The name of a table in which regexp and pcre tables lack the rules that Postfix skips here: those whose result has $1 or the like."""
    return RULES.sub(lambda it: f'{it[1]}:{copy_without_substitution(it[2], scratch)}', name)


def copy_without_substitution(path, scratch):
    """The path of a regexp or pcre table, or where it has such rules, that of a copy without them. Of one that can't be read postmap tells."""
    rules = []
    for line in lines_of(contents(path)) if os.access(path, os.R_OK) else ():
        if line[0].isspace() and rules:
            rules[-1] += f'\n{line}'
        else:
            rules.append(line)
    kept = [it for it in rules if not takes_of_key(it)]
    if len(kept) == len(rules):
        return path
    folder = tempfile.mkdtemp(prefix='without-substitution-', dir=scratch)
    copy = os.path.join(folder, os.path.basename(path))
    with open(copy, 'wb') as file:
        file.write(''.join(f'{it}\n' for it in kept).encode('latin-1'))
    return copy


def takes_of_key(rule):
    found = RULE.fullmatch(rule)
    return bool(found and SUBSTITUTION.search(found['result'].replace('$$', '')))


class LookUps:
    """How many keys may still be asked for."""

    def __init__(self, most, notes):
        self.most, self.left, self.notes = most, most, notes

    def take(self, number):
        """Whether so many more may be made. Where not, that is said, and no more are."""
        if number > self.left:
            more = f'{number} more are due: what they have is not in the job (--look-ups)'
            self.notes.left_out(f'tables are asked for {self.most} keys at most, and {more}')
            self.left = -1
        self.left -= number
        return self.left >= 0


def open_question(search, tables):
    """The table and the key that have to be asked before it is known what decides a search, or None.

    A search is keys in the order of the look-up, each with whether it is part of an address. Each key is looked up in all tables before the next."""
    for key, is_part in search:
        for table in tables:
            decides = table.decides(key, is_part)
            if decides is None:
                return table, key
            if decides:
                return None
    return None


def settle(searches, tables, look_ups):
    """Asks the tables until it is known of each search what decides it."""
    searches = list(searches)
    while searches:
        questions = [(search, open_question(search, tables)) for search in searches]
        questions = [(search, it) for search, it in questions if it]
        searches = [search for search, _ in questions]
        for table in tables:
            keys = sorted({key for _, (asked, key) in questions if asked is table})
            if keys and not look_ups.take(len(keys)):
                return
            if keys:
                table.ask(keys)
