"""The settings of main.cf, and those of the job that they give."""

from .addresses import DOMAIN, LITERAL
from .asking import Stop, contents, lines_of, output_of, with_config

# The settings of a job that stand in main.cf as they are.
PLAIN = ('myhostname', 'expand_owner_alias')
LIMITS = (
    'default_destination_recipient_limit',
    'smtp_destination_recipient_limit',
    'relay_destination_recipient_limit',
    'lmtp_destination_recipient_limit',
)
MOST_RECIPIENTS = 65535
TRANSPORTS = ('smtp', 'relay', 'lmtp')

# The kinds of table whose source text lies at the path that names the table.
TEXT_TABLES = ('btree', 'cdb', 'dbm', 'hash', 'lmdb', 'sdbm', 'texthash')

# Settings that change where mail goes and that no job can say, with the value that changes nothing.
OTHERS = {
    'canonical_maps': '',
    'fallback_transport': '',
    'fallback_transport_maps': '',
    'luser_relay': '',
    'mailbox_command_maps': '',
    'mailbox_transport_maps': '',
    'recipient_canonical_maps': '',
    'relocated_maps': '',
    'reset_owner_alias': 'no',
    'sender_canonical_maps': '',
    'sender_dependent_default_transport_maps': '',
    'sender_dependent_relayhost_maps': '',
    'smtp_fallback_relay': '',
    'smtp_generic_maps': '',
    'virtual_alias_maps': '',
    'virtual_mailbox_domains': '',
}

READ = (
    *PLAIN,
    *LIMITS,
    *OTHERS,
    'alias_maps',
    'default_transport',
    'inet_interfaces',
    'local_transport',
    'mailbox_transport',
    'mydestination',
    'myorigin',
    'owner_request_special',
    'parent_domain_matches_subdomains',
    'proxy_interfaces',
    'recipient_delimiter',
    'relay_domains',
    'relay_transport',
    'relayhost',
    'transport_maps',
    'virtual_alias_domains',
)


def settings_of(config):
    """The settings of main.cf with every $name put in, by name. One that this Postfix does not know is empty."""
    found = dict.fromkeys(READ, '')
    for line in output_of([*with_config('postconf', config), '-x', *READ]).decode('utf-8', 'replace').splitlines():
        key, equals, value = line.partition('=')
        if equals:
            found[key.strip()] = value.strip()
    return found


def pieces_of(value):
    """The pieces of a list of main.cf: cut at commas and white space, but not inside braces."""
    pieces, depth, piece = [], 0, ''
    for character in value:
        depth += (character == '{') - (character == '}')
        if depth <= 0 and character in ', \t\r\n':
            pieces.append(piece)
            piece = ''
        else:
            piece += character
    return [it for it in [*pieces, piece] if it]


def text_table(piece):
    """The path of the source text of a table `TYPE:PATH`, or None where it has none."""
    kind, _, path = piece.removeprefix('proxy:').partition(':')
    return path if kind in TEXT_TABLES and path.startswith('/') else None


def domains_of(key, value, notes):
    """The domains of a list of patterns, in which a path stands for a file of patterns and a text table for its names."""
    domains = []
    for piece in pieces_of(value):
        path = text_table(piece)
        if path is not None:
            domains += [line.split()[0] for line in lines_of(contents(path)) if not line[0].isspace()]
        elif piece.startswith('/'):
            for line in lines_of(contents(piece)):
                domains += domains_of(key, line, notes)
        elif DOMAIN.fullmatch(piece.removeprefix('.')) or (key == 'mydestination' and LITERAL.fullmatch(piece)):
            domains.append(piece)
        else:
            notes.left_out(f'{key} names {piece}')
    return list(dict.fromkeys(it.lower() for it in domains))


def origin_of(value):
    """myorigin, which may be the path of a file with the name (Debian's /etc/mailname)."""
    if not value.startswith('/'):
        return value
    lines = lines_of(contents(value))
    if not lines:
        raise Stop(f'{value}, which myorigin names, has no name')
    return lines[0].strip()


def limit_of(key, value, notes):
    """A limit of recipients as a job takes it; in Postfix 0 is no limit."""
    number = int(value) if value.isdigit() else -1
    if 1 <= number <= MOST_RECIPIENTS:
        return number
    notes.left_out(f'{key} = {value}: the job has {MOST_RECIPIENTS}')
    return MOST_RECIPIENTS


def delimiter_of(settings):
    """The one byte of recipient_delimiter that a job takes, or nothing."""
    return settings['recipient_delimiter'][:1]


def settings_text(settings, literals, notes):
    """The settings of the job; a setting that is empty, or that a job cannot have, keeps the job's default. The literals are this host's too."""
    lines = [(key, settings[key]) for key in PLAIN if settings[key]]
    lines.append(('myorigin', origin_of(settings['myorigin'])))
    lines.append(('mydestination', ', '.join([*domains_of('mydestination', settings['mydestination'], notes), *literals])))
    delimiter = settings['recipient_delimiter']
    if len(delimiter) > 1:
        notes.left_out(f'recipient_delimiter = {delimiter}: the job has {delimiter[0]} alone')
    lines.append(('recipient_delimiter', delimiter_of(settings)))
    lines += [(key, limit_of(key, settings[key], notes)) for key in LIMITS if settings[key]]
    default = settings['default_transport'].partition(':')[0]
    if default in TRANSPORTS:
        lines.append(('default_transport', default))
    elif default:
        notes.left_out(f'default_transport = {settings["default_transport"]}')
    mailbox = settings['mailbox_transport']
    if mailbox.partition(':')[0] in TRANSPORTS:
        lines.append(('mailbox_transport', mailbox.removesuffix(':')))
    elif mailbox:
        notes.left_out(f'mailbox_transport = {mailbox}')
    return ''.join(f'{key} = {value}\n' for key, value in lines).encode()


def note_others(settings, notes):
    """Names the settings that change where mail goes and that no job can say."""
    for key, harmless in OTHERS.items():
        if settings[key] not in ('', harmless):
            notes.left_out(f'{key} = {settings[key]}')
    virtual = settings['virtual_alias_domains']
    if virtual and virtual != settings['virtual_alias_maps']:
        notes.left_out(f'virtual_alias_domains = {virtual}')
    if settings['local_transport'].partition(':')[0] not in ('', 'local'):
        notes.left_out(f'local_transport = {settings["local_transport"]}: it reads no alias file')
    if settings['owner_request_special'] == 'no':
        more = ', and names that begin with owner- or end with -request are not split' if delimiter_of(settings) == '-' else ''
        notes.left_out(f'owner_request_special = no: an alias has the owner that is there all the same{more}')
