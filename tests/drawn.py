"""Jobs of drawn aliases, include files and owners, and what leads where in them by the rules alone."""
import random

LOCAL = ('localhost', 'example.org')
# The one domain that has a mail exchanger.
ROUTED = 'good.example'


class Drawn:
    """A job: its lists by name and by path, its mailboxes, envelope and whether an owner's one address is the sender."""

    def __init__(self, seed):
        draw = random.Random(seed)
        names = [f'a{n}' for n in range(draw.randint(1, 7))]
        paths = [f'/inc/{n}' for n in range(draw.randint(0, 3))]
        self.boxes = ['m0', 'm1']

        def item():
            kind = draw.random()
            if kind < .35:
                return draw.choice(names)
            if kind < .5:
                return draw.choice(self.boxes)
            if kind < .6:
                return draw.choice(['gone1', 'gone2'])
            if kind < .7:
                return draw.choice([f'x@{ROUTED}', 'y@bad.example', 'z@bad2.example'])
            if kind < .8:
                return ':include:' + draw.choice([*paths, '/inc/none'])
            if kind < .87:
                return f'"|cmd {draw.randint(1, 2)}"'
            if kind < .94:
                return f'/var/f{draw.randint(1, 2)}'
            return draw.choice(names) + '@example.org'

        self.aliases = {}
        for name in names:
            self.aliases[name] = [item() for _ in range(draw.randint(1, 4))]
            if draw.random() < .4:
                one = draw.random() < .8
                self.aliases['owner-' + name] = [draw.choice([f'ann@{ROUTED}', 'boss', draw.choice(names)])] if one else [f'p@{ROUTED}', f'q@{ROUTED}']
        self.includes = {path: [item() for _ in range(draw.randint(0, 3))] for path in paths}
        self.recipients = [
            draw.choice([*names, *self.boxes, 'gone1', 'zz']) + '@' + draw.choice(LOCAL) if draw.random() < .8 else draw.choice([f'x@{ROUTED}', 'y@bad.example'])
            for _ in range(draw.randint(1, 4))
        ]
        self.sender = draw.choice([f'<s@{ROUTED}>', '<>', '<owner-a0@example.org>'])
        self.expand = draw.random() < .5

    def text(self):
        lines = ['%settings', 'myorigin = example.org', 'mydestination = localhost', f'expand_owner_alias = {"yes" if self.expand else "no"}', '%aliases']
        lines += [f'{name}: {", ".join(items)}' for name, items in self.aliases.items()]
        for path, items in self.includes.items():
            lines += [f'%include {path}', *items]
        lines += ['%mailboxes', *self.boxes, '%mx', f'{ROUTED} MX 10 mx.{ROUTED}', '%envelope', f'MAIL FROM:{self.sender}']
        lines += [f'RCPT TO:<{recipient}>' for recipient in self.recipients]
        return '\n'.join(lines) + '\n'

    def address(self, address, parent):
        local, domain = address.split('@')
        return self.name(local, parent) if domain in LOCAL else ('remote', address)

    def name(self, name, parent):
        if name in self.aliases and name != parent:
            return ('alias', name)
        return ('mailbox' if name in self.boxes else 'missing', name)

    def target(self, item, parent):
        if item.startswith(':include:'):
            path = item[len(':include:'):]
            return ('include' if path in self.includes else 'noinclude', path)
        if item.startswith('"|'):
            return ('command', item[1:-1])
        if item.startswith('/'):
            return ('file', item)
        return self.address(item, parent) if '@' in item else self.name(item, parent)

    def sender_after(self, sender, kind, name):
        """An alias with an owner sets the sender."""
        owner = 'owner-' + name
        if kind != 'alias' or owner not in self.aliases:
            return sender
        items = self.aliases[owner]
        if self.expand and len(items) == 1:
            return f'<{items[0]}>' if '@' in items[0] else f'<{items[0]}@example.org>'
        return f'<{owner}@example.org>'
