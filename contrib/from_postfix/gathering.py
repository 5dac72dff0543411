"""The way to a job: the settings, tables, users and envelopes, what the tables have that only Postfix reads, and the mail exchangers."""
import os
import shutil

from .addresses import local_text
from .asking import Silent
from .envelopes import envelope_text, queue_envelopes, recipients_of
from .exchangers import NameServers
from .host import is_own_literal, mailboxes_text, note_writable
from .planner import gathered, run_planner, with_envelope
from .reached import more_bases, reached_by
from .settings import delimiter_of, domains_of, note_others, settings_of, settings_text
from .tables import LookUps, joined, settle, tables_of
from .transport import is_for_subdomains, search_of, transport_text

# How often what was found is followed: more levels of aliases than local(8) follows.
ROUNDS = 100


class Gathering:
    """The parts of jobs, which lie in a folder: one job for each envelope, or one of all aliases where there is none."""

    def __init__(self, program, options, notes, place):
        self.program, self.options, self.notes = program, options, notes
        self.parts, self.scratch = os.path.join(place, 'parts'), os.path.join(place, 'scratch')
        os.mkdir(self.parts)
        os.mkdir(self.scratch)
        self.settings = settings_of(options.config)
        note_others(self.settings, notes)
        self.literals = []
        self.bases = {}
        self.owners = set()
        self.transport = self.tables('transport_maps')
        self.write_transport()
        self.write_settings()
        self.aliases = self.tables('alias_maps')
        self.write('mailboxes', mailboxes_text(notes))
        self.envelopes = self.named_envelopes()

    def tables(self, setting):
        return tables_of(setting, self.settings[setting], self.options.config, self.notes, self.scratch)

    def named_envelopes(self):
        """The envelopes that the command line names, by queue id."""
        options = self.options
        if options.recipients:
            return {'': envelope_text(options.sender, options.recipients)}
        return {} if options.check else queue_envelopes(options.config, options.queue_files, self.notes)

    def write(self, name, text):
        with open(os.path.join(self.parts, name), 'wb') as file:
            file.write(text)

    def write_settings(self):
        self.write('settings', settings_text(self.settings, self.literals, self.notes))

    def write_transport(self):
        self.write('transport', transport_text(self.settings, self.transport, self.notes))

    def all_recipients(self):
        """One envelope for all recipients of all, or nothing where there is none."""
        recipients = [it for envelope in self.envelopes.values() for it in recipients_of(envelope)]
        return envelope_text('<>', recipients) if recipients else None

    def follow(self):
        """Asks the tables for what the job reaches, and for what is reached by what they have, until nothing new comes."""
        look_ups = LookUps(self.options.look_ups, self.notes)
        for _ in range(ROUNDS):
            # Names are told whole: the delimiter is left away.
            settings = settings_text({**self.settings, 'recipient_delimiter': ''}, self.literals, Silent())
            place = os.path.join(self.scratch, 'reached')
            reached = reached_by(self.program, joined(self.aliases), settings, self.bases, self.all_recipients(), place)
            if not self.find_more(reached, look_ups):
                return reached
        self.notes.left_out(f'what aliases have that only {ROUNDS} rounds of look-ups lead to')
        return reached

    def find_more(self, reached, look_ups):
        """Asks the tables for all that is reached. Answers whether more may be reached now."""
        before = joined(self.aliases), len(self.literals), len(self.bases)
        self.bases.update(more_bases(reached.names, delimiter_of(self.settings), self.bases))
        self.add_literals(reached.addresses)
        if self.settings['owner_request_special'] != 'no':
            # A check follows owners too. Theirs aren't asked for: a table that has each name would have owner-owner-, and so on.
            self.owners |= {f'owner-{it}' for it in reached.aliases if not (self.options.check and it in self.owners)}
        names = dict.fromkeys([*reached.names, *sorted(self.owners)])
        settle([((name, False),) for name in names], self.aliases, look_ups)
        has_parents = not is_for_subdomains(self.settings)
        settle([search_of(it, delimiter_of(self.settings), has_parents) for it in reached.addresses], self.transport, look_ups)
        return before != (joined(self.aliases), len(self.literals), len(self.bases))

    def add_literals(self, addresses):
        """Puts the address literals of this host into mydestination, of those that are reached."""
        known = {*self.literals, *domains_of('mydestination', self.settings['mydestination'], Silent())}
        for literal in sorted({it.rpartition('@')[2] for it in addresses} - known):
            if literal.startswith('[') and is_own_literal(literal, self.settings):
                self.literals.append(literal)
                self.notes.say(f'put into mydestination: {literal}, an address of this host')

    def write_exchangers(self, reached):
        """Writes the MX table, of the names that the planner asks for."""
        envelope = self.all_recipients() or envelope_text('<>', [f'<{local_text(it)}>' for it in reached.aliases])
        self.write('mx', b'')
        domains = []
        if recipients_of(envelope):
            domains = run_planner(self.program, ['domains'], with_envelope(self.tables_job(), envelope)).decode('ascii').split()
        if self.options.no_routes:
            self.write('mx', ''.join(f'{it}\n' for it in ['# no name server was asked', *(f'{it} A' for it in domains)]).encode('ascii'))
        elif domains:
            self.write('mx', NameServers(self.notes).mx_text(domains))

    def tables_job(self):
        """The job without an envelope."""
        return gathered(self.program, self.parts)

    def jobs(self):
        """The job without an envelope, and that of each envelope, by its queue id."""
        reached = self.follow()
        self.write('aliases', joined(self.aliases))
        self.write_transport()
        self.write_settings()
        self.write_exchangers(reached)
        note_writable(reached.includes, self.notes)
        tables = self.tables_job()
        return tables, {name: with_envelope(tables, it) for name, it in self.envelopes.items()}

    def keep_parts(self, path):
        """Keeps the parts, with the one envelope if there is one, as a new folder."""
        for envelope in self.envelopes.values():
            self.write('envelope', envelope)
        shutil.copytree(self.parts, os.path.join(self.scratch, 'done'))
        os.rename(os.path.join(self.scratch, 'done'), path)
