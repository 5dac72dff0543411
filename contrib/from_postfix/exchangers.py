"""Mail exchangers, as dig(1) is told of them: many domains side by side, each domain and kind of record once."""
import re
import subprocess
import sys
from concurrent.futures import ThreadPoolExecutor
from threading import Lock

from .asking import Stop

# How many dig processes ask at once, and how many domains one is told of at most.
AT_ONCE = 64
MOST_OF_ONE = 16

# A name server has ten seconds for an answer. It is asked again after each of them, since of some hundred questions one is lost: two processes had
# the same port, which dig allows.
TIMES = ('+time=1', '+tries=10')

QUESTION = re.compile(r';(\S+?)\.?\s+IN\s+(\w+)')
STATUS = re.compile(r';; ->>HEADER<<- .*status: (\w+)')


class Progress:
    """A line on a terminal that says how many answers are there."""

    def __init__(self, kind, number):
        self.kind, self.number, self.done = kind, number, 0
        self.is_shown = sys.stderr.isatty()
        self.lock = Lock()

    def step(self):
        with self.lock:
            self.done += 1
            if self.is_shown:
                width = len(str(self.number))
                print(f'\r[{self.done:{width}}/{self.number}] {self.kind}', end='', file=sys.stderr, flush=True)

    def __enter__(self):
        return self

    def __exit__(self, *_):
        if self.is_shown and self.done:
            print('\r\033[K', end='', file=sys.stderr, flush=True)


def dig(domains, kind, progress):
    """The answers of one dig process: the status and the records of each domain that was answered."""
    words = ['dig', '+noall', '+comments', '+question', '+answer', *TIMES, *(it for domain in domains for it in ('-q', domain, '-t', kind))]
    try:
        process = subprocess.Popen(words, stdin=subprocess.DEVNULL, stdout=subprocess.PIPE)
    except FileNotFoundError:
        raise Stop('dig is not to be found: it is in the package bind9-dnsutils of Debian, and in bind-utils of RHEL') from None
    except OSError as error:
        raise Stop(f'dig does not run: {error.strerror}') from None
    found, status, current = {}, None, None
    with process:
        for line in process.stdout:
            line = line.decode('latin-1').rstrip('\n')
            if told := STATUS.match(line):
                status = told[1]
            elif asked := QUESTION.fullmatch(line):
                current = []
                found[asked[1].lower()] = status, current
                progress.step()
            elif line.strip() and not line.startswith(';') and current is not None:
                current.append(line.split())
    # dig ends with 9 where no server answered.
    if process.returncode not in (0, 9):
        raise Stop(f'dig ended with status {process.returncode}')
    for _ in range(len(domains) - len(found)):
        progress.step()
    return found


class NameServers:
    """What the name servers answered, by domain and kind of record."""

    def __init__(self, notes):
        self.notes = notes
        self.kept = {}

    def ask(self, domains, kind):
        """Asks for the records of these domains that are not known yet."""
        domains = [it for it in domains if (it, kind) not in self.kept]
        size = max(1, min(MOST_OF_ONE, -(-len(domains) // AT_ONCE)))
        parts = [domains[at:at + size] for at in range(0, len(domains), size)]
        answers = {}
        with Progress(kind, len(domains)) as progress, ThreadPoolExecutor(AT_ONCE) as pool:
            for found in pool.map(lambda part: dig(part, kind, progress), parts):
                answers.update(found)
        for domain in domains:
            self.kept[domain, kind] = self.records_of(domain, kind, answers.get(domain))

    def records_of(self, domain, kind, answer):
        """The records of an answer, or None where there is none. Those behind an alias name (CNAME) are the domain's own (RFC 5321 section 5.1)."""
        status, lines = answer or ('no name server answered', [])
        if status not in ('NOERROR', 'NXDOMAIN'):
            self.notes.left_out(f'the {kind} records of {domain}: {status}')
            return None
        return [it[4:] for it in lines if len(it) > 4 and it[3] == kind]

    def mx_text(self, domains):
        """The lines of domains for the MX table."""
        names = [it for it in domains if is_name(it)]
        for domain in sorted(set(domains) - set(names)):
            self.notes.left_out(f'the MX records of {domain}: it is no name of the DNS')
        self.ask(names, 'MX')
        without = [it for it in names if self.kept[it, 'MX'] == []]
        self.ask(without, 'A')
        self.ask([it for it in without if not self.kept[it, 'A']], 'AAAA')
        return ''.join(f'{line}\n' for domain in names for line in self.mx_lines(domain)).encode('latin-1')

    def mx_lines(self, domain):
        """The lines of a domain whose records are known."""
        records = self.kept[domain, 'MX']
        if records:
            hosts = sorted((int(number), host.lower()) for number, host in records)
            return [f'{domain} MX {number} {host if host == "." else host.removesuffix(".")}' for number, host in hosts]
        has_address = any(self.kept.get((domain, kind)) for kind in ('A', 'AAAA'))
        return [f'{domain} A'] if has_address else []


def is_name(domain):
    """Whether dig takes it (RFC 1035 section 2.3.4)."""
    return len(domain) <= 253 and all(len(it) <= 63 for it in domain.split('.'))
