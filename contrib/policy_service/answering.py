"""What a recipient is answered: an action for the policy protocol, and a reply for a look-up."""
from .judging import faults_of, judged, spelled
from .planning import NoAddress, Unplanned

# How many recipients the faults are kept of, so that long lists aren't planned for each message.
KEPT = 10000

# Octets of an expansion; Postfix takes no longer reply (socketmap_table(5)).
LONGEST = 99000

NOT_FOUND = 'NOTFOUND '


class Answering:
    """Answers by a planning. What can't be planned is `DUNNO`, or `TEMP` for a look-up, and is said."""

    def __init__(self, planning, actions, most, say):
        self.planning, self.actions, self.most, self.say = planning, actions, most, say
        self.kept = {}
        self.maps = {'known': self.known, 'expand': self.expansion}

    def look(self):
        """Looks whether the tables changed."""
        if self.planning.look():
            self.kept.clear()

    def reread(self):
        """Takes the tables anew, changed or not."""
        if self.planning.take():
            self.kept.clear()

    def faults(self, address):
        """What is wrong with a recipient, each kind with its words."""
        path = spelled(address)
        if path not in self.kept:
            plan = self.planning.plan(path)
            recipients = sum(len(it.recipients) for it in plan.transactions)
            if len(self.kept) >= KEPT:
                self.kept.clear()
            self.kept[path] = faults_of(path, recipients, [it.decode('latin-1') for it in plan.findings], self.most)
        return self.kept[path]

    def action(self, attributes):
        """The action for a request of the policy protocol, which may be about more than a recipient."""
        address = attributes.get('recipient')
        if attributes.get('request') != 'smtpd_access_policy':
            self.say(f'DUNNO: {attributes.get("request")!a} is no request of an access policy')
            return 'DUNNO'
        if attributes.get('protocol_state') != 'RCPT' or not address:
            return 'DUNNO'
        try:
            faults = self.faults(address)
            action = judged(faults, self.actions)
        except Exception as why:  # no fault here may keep mail from being taken
            faults, action = {'fault': why if isinstance(why, Unplanned) else repr(why)}, 'DUNNO'
        if faults:
            self.say(f'{action}: {address!a}: {"; ".join(map(str, faults.values()))}')
        return action

    def known(self, address):
        """Whether a recipient is an alias, a mailbox, or an address of another host."""
        return NOT_FOUND if 'missing' in self.faults(address) else 'OK known'

    def expansion(self, address):
        """The addresses that mail for a recipient is delivered to."""
        plan = self.planning.plan(spelled(address))
        addresses = {it for transaction in plan.transactions for it in transaction.recipients}
        text = b', '.join(sorted(addresses)).decode('latin-1')
        if len(text) > LONGEST:
            return f'PERM {len(addresses)} addresses, more than a reply may have'
        return f'OK {text}' if text else NOT_FOUND

    def reply(self, name, key):
        """The reply to a look-up."""
        if name not in self.maps:
            return f'PERM the maps are {" and ".join(self.maps)}'
        try:
            return self.maps[name](key)
        except NoAddress:
            return NOT_FOUND
        except Exception as why:
            told = why if isinstance(why, Unplanned) else repr(why)
            self.say(f'TEMP: {key!a}: {told}')
            return f'TEMP {told}'
