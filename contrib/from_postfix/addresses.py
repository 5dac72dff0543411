"""Addresses and local names: as a path of a job spells them (RFC 5321 section 4.1.2), and as Postfix has them inside, without quotes."""
import re

ATOM = r"[A-Za-z0-9!#$%&'*+\-/=?^_`{|}~]+"
DOT_STRING = re.compile(rf'{ATOM}(\.{ATOM})*')
DOMAIN = re.compile(r'[A-Za-z0-9_-]+(\.[A-Za-z0-9_-]+)*')
LITERAL = re.compile(r'\[[!-?A-Z^-~]+\]')
QUOTED = r'"(?:\\[ -~]|[ !#-\[\]-~])*"'
ADDRESS = re.compile(rf'(?:[.{ATOM[1:-2]}]+|{QUOTED})(?:@(?:{DOMAIN.pattern}|{LITERAL.pattern}))?')

# Local parts that have no extension (local(8)).
WHOLE = ('postmaster', 'mailer-daemon', 'double-bounce')


def local_text(local):
    """The one spelling of a local part."""
    if DOT_STRING.fullmatch(local):
        return local
    return '"' + re.sub(r'(["\\])', r'\\\1', local) + '"'


def address_text(address):
    """The one spelling of an address, or of a local name, that has no quotes."""
    local, at, domain = address.rpartition('@')
    return f'{local_text(local)}@{domain}' if at else local_text(address)


def path_of(address):
    """The path of an address as queue files have it, without quotes."""
    return f'<{address_text(address)}>' if address else '<>'


def unquoted(address):
    """An address, or a local name, without the quotes of its local part."""
    quoted = re.match(QUOTED, address)
    return re.sub(r'\\(.)', r'\1', quoted[0][1:-1]) + address[quoted.end():] if quoted else address


def base_of(local, delimiter):
    """What stands before the extension of a folded local part, or None where it has none (local(8), recipient_delimiter)."""
    at = local.find(delimiter) if delimiter else -1
    is_list_role = delimiter == '-' and (local.startswith('owner-') or local.endswith('-request'))
    return None if at < 1 or local in WHOLE or is_list_role else local[:at]
