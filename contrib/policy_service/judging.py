"""What the plan of a recipient says of it, and what Postfix is told to do."""
import re

ATOMS = re.compile(r"[\w!#$%&'*+/=?^`{|}~-]+(\.[\w!#$%&'*+/=?^`{|}~-]+)*", re.ASCII)
QUOTED = re.compile(r'"([^"\\]|\\.)*"')
UNROUTED = re.compile(r'unrouted <(?:"(?:[^"\\]|\\.)*"|[^"@> ]+)@([^> ]+)> ')

# What can be set to be refused, in the order in which it is looked at: a detail of the status (RFC 3463) and the text of the answer.
FAULTS = {
    'missing': ('1.1', 'no such address here'),
    'loop': ('4.6', 'the list leads back to itself'),
    'unrouted': ('4.4', 'nothing that the list leads to has a route'),
    'large': ('7.1', 'the list has more recipients than are allowed'),
}
CLASSES = {'REJECT': '5', 'DEFER': '4'}


def spelled(address):
    """The address as a path has it: Postfix tells local parts without their quotes."""
    local, at, domain = address.rpartition('@') if '@' in address else (address, '', '')
    if local and not ATOMS.fullmatch(local) and not QUOTED.fullmatch(local):
        quoted = re.sub(r'(["\\])', r'\\\1', local)
        local = f'"{quoted}"'
    return local + at + domain


def action_of(kind, words):
    """The answer that is set for a fault: `REJECT`, `DEFER` or `DUNNO`, the first two with a status and a text."""
    verb, _, text = words.partition(' ')
    if verb == 'DUNNO':
        return verb
    detail, default = FAULTS[kind]
    text = text.strip() or default
    return f'{verb} {text}' if re.match(r'[45]\.\d+\.\d+ ', text) else f'{verb} {CLASSES[verb]}.{detail} {text}'


def fault_of(address, finding, recipients):
    """The kind of fault that a finding is for this recipient, or `other`.

    An address without a route is no fault of its own: tables hold the mail exchangers of lists, and not those of all hosts that mail goes to."""
    kind = finding.partition(' ')[0]
    if kind == 'missing':
        return 'missing' if finding.endswith(' in envelope') else 'other'
    if kind == 'unrouted':
        found = UNROUTED.match(finding)
        is_own = found and found[1].lower() == address.rpartition('@')[2].lower()
        return 'other' if recipients or is_own else 'unrouted'
    return kind if kind == 'loop' else 'other'


def faults_of(address, recipients, findings, most):
    """What is wrong by a plan with so many recipients and these findings: for each kind the first words, and how many more there are."""
    counts, first = {}, {}
    for finding in findings:
        kind = fault_of(address, finding, recipients)
        counts[kind] = counts.get(kind, 0) + 1
        first.setdefault(kind, finding)
    faults = {kind: words + (f', and {counts[kind] - 1} more' if counts[kind] > 1 else '') for kind, words in first.items()}
    if recipients > most:
        faults['large'] = f'{recipients} recipients, more than {most}'
    return faults


def judged(faults, actions):
    """The answer for these faults: the first that isn't DUNNO of those that are set for them."""
    set_for = (actions[kind] for kind in FAULTS if kind in faults)
    return next((it for it in set_for if it != 'DUNNO'), 'DUNNO')
