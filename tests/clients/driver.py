"""Asks by the Python client what the lines of standard input say, as tests/clients/run has them: driver.py PROGRAM TABLES."""
import sys

from aliasplan import Plan, Planner, PlannerError, Tables


def write(*lines):
    sys.stdout.buffer.write(b''.join(line + b'\n' for line in lines))
    sys.stdout.buffer.flush()


def show(answer):
    if not isinstance(answer, Plan):
        return write(b'refused ' + answer.reason)
    lines = [b'plan %d transactions %d recipients %d findings' % (len(answer.transactions), sum(len(it.recipients) for it in answer.transactions), len(answer.findings))]
    for number, it in enumerate(answer.transactions, 1):
        lines += [b'transaction %d' % number, b'from <%b>' % it.sender, b'via %b %b' % (it.transport, it.nexthop)]
        lines += [b'host ' + host for host in it.hosts] + [b'to <%b>' % recipient for recipient in it.recipients]
    return write(*lines, *(b'finding ' + words for words in answer.findings), b'end')


def answer(planner, word, addresses, kept):
    if word == b'ask':
        show(planner.ask(addresses[0], addresses[1:]))
    elif word == b'keep':
        kept.append((addresses[0], addresses[1:]))
    elif word == b'many':
        for it in planner.ask_many(kept):
            show(it)
        kept.clear()
    else:
        tables = planner.change_tables()
        write(b'tables ok ' + tables.sum if isinstance(tables, Tables) else b'tables refused ' + tables.reason)


def main():
    kept = []
    with Planner(*sys.argv[1:]) as planner:
        for line in sys.stdin.buffer:
            word, *addresses = line.rstrip(b'\n').translate(bytes.maketrans(b'\1\2', b'\r\n')).split(b'\t')
            try:
                answer(planner, word, addresses, kept)
            except ValueError:
                write(b'error address')
            except PlannerError:
                write(b'error ended')
    write(b'ended')


try:
    main()
except PlannerError:
    write(b'error ended')
except OSError:
    write(b'error system')
