"""Which texts are jobs, and how the others are refused: the rules of docs/FORMATS.md and docs/PROFILE.md in a second hand.

Nothing here was learnt from the program, so that a fault of either shows where the two disagree."""
import re
from dataclasses import dataclass, field

WHITE = b' \t'
ATEXT = rb"[A-Za-z0-9!#$%&'*+\-/=?^_`{|}~]"
DOMAIN_NAME = rb'[A-Za-z0-9_-]+(?:\.[A-Za-z0-9_-]+)*'
# Bytes 33 to 126 without at sign, brackets and backslash.
LITERAL = rb'\[[!-?A-Z^-~]+\]'
DOMAIN = rb'(?:' + DOMAIN_NAME + rb'|' + LITERAL + rb')'
# A byte of 32 to 126, behind a backslash where it is a quote or a backslash.
QUOTED = rb'"((?:[ !#-\[\]-~]|\\[ -~])*)"'
UNQUOTED = rb'((?:' + ATEXT + rb'|\.)+)'
DOT_STRING = ATEXT + rb'+(?:\.' + ATEXT + rb'+)*'
PORT = rb'(?::[A-Za-z0-9-]+)?'
HOST = DOMAIN + PORT
SOCKET = rb'(?i:unix):[!-~]+'
NEXTHOP = {
    b'smtp': HOST,
    b'relay': HOST,
    b'lmtp': rb'(?:' + SOCKET + rb'|(?:(?i:inet):)?' + HOST + rb')',
}

HEADINGS = (b'%settings', b'%aliases', b'%mailboxes', b'%transport', b'%mx', b'%envelope')

# Octets (RFC 5321 section 4.5.3.1); a host name is short enough for each local part to fit beside it.
LOCAL_LIMIT, DOMAIN_LIMIT, PATH_LIMIT, HOSTNAME_LIMIT = 64, 255, 256, 189


class Refused(Exception):
    """The job is refused; the text is what the program says behind its name."""

    def __init__(self, line, reason):
        super().__init__(f'line {line}: {reason}')


@dataclass
class Section:
    """A heading's line, from 1, and the lines behind it with their own."""

    line: int
    lines: list = field(default_factory=list)


def has_form(form, text):
    return re.fullmatch(form, text) is not None


def lines_of(text):
    """The physical lines from 1, each without its LF and one CR before that; the last may lack its LF."""
    lines = text.split(b'\n')
    if not lines[-1]:
        lines.pop()
    return enumerate((line.removesuffix(b'\r') for line in lines), 1)


def heading_of(line):
    """The section that a heading begins, with an include file's path in one spelling; None where it is none of the forms."""
    heading = line.rstrip(WHITE)
    word, path = heading[:8], heading[8:]
    if word == b'%include' and has_form(rb'[ \t]+/.*', path):
        return b'%include ' + path.strip(WHITE)
    return heading if heading in HEADINGS else None


def sections_of(job):
    sections, section = {}, None
    for number, line in lines_of(job):
        if line.startswith(b'%') and not line.startswith(b'%%'):
            heading = heading_of(line)
            if heading is None or heading in sections:
                raise Refused(number, 'bad job line')
            section = sections[heading] = Section(number)
        elif section is not None:
            section.lines.append((number, line.removeprefix(b'%') if line.startswith(b'%%') else line))
        elif line.strip(WHITE):
            raise Refused(number, 'bad job line')
    return sections


def is_number(least, most):
    def test(value):
        digits = value.lstrip(b'0')
        return has_form(rb'[0-9]+', value) and len(digits) <= 20 and least <= int(digits or b'0') <= most

    return test


def is_one_of(*words):
    return lambda value: value in words


def is_hostname(value):
    return has_form(DOMAIN_NAME, value) and len(value) <= HOSTNAME_LIMIT


def are_domains(value):
    return all(has_form(DOMAIN, piece) for piece in re.split(rb'[, \t]+', value) if piece)


def is_delimiter(value):
    return not value or has_form(ATEXT, value)


def is_mailbox_transport(value):
    transport, colon, nexthop = value.partition(b':')
    return transport in NEXTHOP and (not colon or has_form(NEXTHOP[transport], nexthop))


is_limit = is_number(1, 65_535)

SETTINGS = {
    b'myhostname': is_hostname,
    b'myorigin': is_hostname,
    b'mydestination': are_domains,
    b'recipient_delimiter': is_delimiter,
    b'default_destination_recipient_limit': is_limit,
    b'smtp_destination_recipient_limit': is_limit,
    b'relay_destination_recipient_limit': is_limit,
    b'lmtp_destination_recipient_limit': is_limit,
    b'default_transport': is_one_of(*NEXTHOP),
    b'mailbox_transport': is_mailbox_transport,
    b'seed': is_number(0, 2**64 - 1),
    b'expand_owner_alias': is_one_of(b'yes', b'no'),
}


def check_settings(section):
    seen = set()
    for number, line in section.lines:
        if not line.strip(WHITE) or line.lstrip(WHITE).startswith(b'#'):
            continue
        key, equals, value = (part.strip(WHITE) for part in line.partition(b'='))
        if not equals or key in seen or key not in SETTINGS or not SETTINGS[key](value):
            raise Refused(number, 'bad setting')
        seen.add(key)


def written_length(local):
    """The octets of a local part as it is written: between quotes where it isn't a Dot-string."""
    return len(local) if has_form(DOT_STRING, local) else len(re.sub(rb'(["\\])', rb'\\\1', local)) + 2


def is_path(text):
    if text == b'<>':
        return True
    path = re.fullmatch(rb'<(?:' + QUOTED + rb'|' + UNQUOTED + rb')(?:@(' + DOMAIN + rb'))?>', text)
    if path is None:
        return False
    quoted, unquoted, domain = path.groups()
    local = unquoted if quoted is None else re.sub(rb'\\(.)', rb'\1', quoted)
    length = written_length(local)
    if not local or length > LOCAL_LIMIT:
        return False
    # Without a domain the origin is there, which always fits.
    return domain is None or (len(domain) <= DOMAIN_LIMIT and length + len(domain) + len(b'<@>') <= PATH_LIMIT)


def check_envelope(section):
    if section is None:
        raise Refused(0, 'bad envelope')
    paths = []
    for number, line in section.lines:
        if not line.strip(WHITE):
            continue
        command = b'RCPT TO:' if paths else b'MAIL FROM:'
        word, path = line[:len(command)], line[len(command):].rstrip(WHITE)
        if word.upper() != command or not is_path(path) or (paths and path == b'<>'):
            raise Refused(number, 'bad envelope')
        paths.append(path)
    if len(paths) < 2:
        raise Refused(section.line, 'bad envelope')


def refusal_of(job):
    """What the program says of a text that is no job, behind its name; None where it is a job."""
    try:
        sections = sections_of(job)
        check_settings(sections.get(b'%settings', Section(0)))
        check_envelope(sections.get(b'%envelope'))
    except Refused as refused:
        return str(refused)
    return None
