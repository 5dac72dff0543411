"""The transport table of a job, and the keys by which Postfix looks an address up in it (transport(5))."""
from .addresses import base_of
from .asking import Silent
from .settings import TRANSPORTS, domains_of, pieces_of
from .tables import joined, patterns_of


def is_decided(patterns, domain):
    """Whether the transport table has a line for a domain without an address: it goes before relay_domains and relayhost."""
    labels = domain.lstrip('.').split('.')
    keys = {domain, '*', *('.' + '.'.join(labels[at:]) for at in range(1, len(labels)))}
    return bool(keys & patterns)


def with_nexthop(transport, nexthop):
    """A transport of main.cf, with this nexthop where it has none of its own."""
    name, _, own = transport.partition(':')
    return f'{name}:{own or nexthop}'


def is_for_subdomains(settings):
    """Whether a pattern `example.com` holds for all below it, and `.example.com` is not looked up."""
    return 'transport_maps' in pieces_of(settings['parent_domain_matches_subdomains'])


def transport_text(settings, tables, notes):
    """The transport table: the tables of transport_maps, then lines that say what relay_domains and relayhost do."""
    text = joined(tables)
    patterns, added = patterns_of(text), []
    if is_for_subdomains(settings):
        notes.left_out('parent_domain_matches_subdomains names transport_maps: a pattern holds for its own domain alone')
    parents = pieces_of(settings['parent_domain_matches_subdomains'])
    local = set(domains_of('mydestination', settings['mydestination'], Silent()))
    relay = with_nexthop(settings['relay_transport'] or 'relay', settings['relayhost'])
    for domain in domains_of('relay_domains', settings['relay_domains'], notes):
        wanted = [domain, '.' + domain] if 'relay_domains' in parents and not domain.startswith('.') else [domain]
        added += [f'{it} {relay}' for it in wanted if it not in local and not is_decided(patterns, it)]
    rest = with_nexthop(settings['default_transport'] or 'smtp', settings['relayhost'])
    transport, _, nexthop = rest.partition(':')
    # A transport that a job can't have makes what goes there unrouted: it isn't planned as if it were smtp.
    if (nexthop or transport not in TRANSPORTS) and '*' not in patterns:
        added.append(f'* {rest}')
    return text + ''.join(f'{line}\n' for line in added).encode()


def search_of(address, delimiter, has_parents):
    """The keys of an address in their order, each with whether it is part of it: a table that takes whole keys alone isn't asked for those."""
    local, _, domain = address.rpartition('@')
    base = base_of(local.lower(), delimiter)
    keys = [(f'{local}@{domain}', False)]
    keys += [(f'{base}@{domain}', True)] if base else []
    keys.append((domain, True))
    if has_parents and not domain.startswith('['):
        labels = domain.split('.')
        keys += [('.' + '.'.join(labels[at:]), True) for at in range(1, len(labels))]
    return (*keys, ('*', False))
