"""What the JSON form says, by the lines of the plan form, and whether it is as the schemas of docs/schemas have it."""
import json
import os
import re

try:
    import jsonschema
except ImportError:
    jsonschema = None

SCHEMAS = os.path.join(os.path.dirname(os.path.dirname(os.path.realpath(__file__))), 'docs', 'schemas')

# The names that the members of an object have, for where jsonschema isn't there.
NAMES = {
    'plan': ({'plan', 'transactions', 'findings'},),
    'each': (
        {'tables', 'findings'}, {'envelope', 'plan', 'transactions', 'findings'}, {'envelope', 'refused'}, {'envelope', 'refused', 'line'},
        {'tables', 'sha256'}, {'tables', 'reason'}, {'tables', 'reason', 'line'}, {'done'},
    ),
}


def schema_of(name):
    """The schema of a file, with the one that it refers to in it."""
    with open(os.path.join(SCHEMAS, name + '.json'), encoding='utf-8') as file:
        schema = json.load(file)
    if name != 'plan':
        schema['$defs']['plan'] = schema_of('plan')
    return schema


def validator_of(name):
    schema = schema_of(name)
    jsonschema.Draft202012Validator.check_schema(schema)
    return jsonschema.Draft202012Validator(schema)


VALIDATORS = {name: validator_of(name) for name in NAMES} if jsonschema else {}


def faults_of_schema(name, value):
    """How a value isn't as a schema has it; where jsonschema isn't there, by the names of its members alone."""
    if not jsonschema:
        return [] if set(value) in NAMES[name] else [f'members {sorted(value)}']
    return [f'{"/".join(map(str, error.absolute_path))}: {error.message[:200]}' for error in VALIDATORS[name].iter_errors(value)]


def has_schemas():
    return jsonschema is not None


def say_what_is_skipped():
    if not has_schemas():
        print('SKIPPED the schemas but for the names of members: there is no jsonschema here', flush=True)


def members_of(plan):
    """The members that the JSON form has for the lines of a plan, each object as a list; a byte is the character of its number."""
    lines = plan.decode('latin-1').split('\n')
    _, transactions, _, recipients, _, findings, _ = lines[0].split(' ')
    counts = [('transactions', int(transactions)), ('recipients', int(recipients)), ('findings', int(findings))]
    planned, found = [], []
    for line in lines[1:-2]:
        word, _, rest = line.partition(' ')
        if word == 'transaction':
            hosts, to = [], []
            planned.append([('transaction', int(rest))])
        elif word == 'from':
            planned[-1].append(('from', rest))
        elif word == 'via':
            transport, _, nexthop = rest.partition(' ')
            planned[-1] += [('transport', transport), ('nexthop', nexthop), ('hosts', hosts), ('recipients', to)]
        elif word == 'finding':
            found.append(rest)
        else:
            {'host': hosts, 'to': to}[word].append(rest)
    return [('plan', counts), ('transactions', planned), ('findings', found)]


def reason_of(name, words):
    """The members for why something is refused."""
    line = re.fullmatch('line ([0-9]+) (.*)', words)
    return [(name, line[2]), ('line', int(line[1]))] if line else [(name, words)]


def block_of(lines):
    """The members of an envelope's object, and what is behind its block."""
    name = ('envelope', lines[0].removeprefix('envelope '))
    if lines[1].startswith('refused '):
        return [name, *reason_of('refused', lines[1].removeprefix('refused '))], lines[2:]
    end = lines.index('end') + 1
    return [name, *members_of('\n'.join([*lines[1:end], '']).encode('latin-1'))], lines[end:]


def objects_of(answer):
    """The members of each object that `plan --each --form json` writes in place of the lines of a whole answer."""
    lines, objects = answer.decode('latin-1').split('\n')[:-1], []
    while lines:
        words = lines[0].split(' ')
        if words[0] == 'envelope':
            members, lines = block_of(lines)
            objects.append(members)
            continue
        if words[:2] == ['tables', 'ok']:
            objects.append([('tables', 'ok'), ('sha256', words[2])])
        elif words[:2] == ['tables', 'refused']:
            objects.append([('tables', 'refused'), *reason_of('reason', ' '.join(words[2:]))])
        elif words[0] == 'tables':
            objects.append([('tables', [('findings', int(words[1]))]), ('findings', [])])
        elif words[0] == 'finding':
            objects[0][1][1].append(lines[0].removeprefix('finding '))
        else:
            objects.append([('done', [(name, int(number)) for number, name in zip(words[1::2], words[2::2])])])
        lines = lines[1:]
    return objects


def faults_of_lines(text, wanted, schema):
    """What is wrong with objects a line, by their members and the schema of each."""
    faults = [] if text.isascii() else ['it is not ASCII']
    lines = text.decode('ascii', 'replace').split('\n')
    faults += [] if len(lines) == len(wanted) + 1 and lines[-1] == '' else [f'{len(lines) - 1} lines, wanted {len(wanted)}']
    for number, (line, members) in enumerate(zip(lines, wanted), 1):
        try:
            got = json.loads(line, object_pairs_hook=list)
        except ValueError as fault:
            faults.append(f'line {number}: no JSON: {fault}')
            continue
        faults += [] if got == members else [f'line {number}: {got!r}, wanted {members!r}']
        faults += [f'line {number}: {fault}' for fault in faults_of_schema(schema, json.loads(line))]
    return faults
