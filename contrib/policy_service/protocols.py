"""The two protocols, from octets to octets: policy delegation (SMTPD_POLICY_README) and socketmap (socketmap_table(5))."""
import asyncio
import re

# Octets that a request may have.
LONGEST = 100000

# The attributes that are looked at.
ATTRIBUTE = re.compile(r'^(request|protocol_state|recipient)=(.*)$', re.MULTILINE)
LENGTH = re.compile(rb'(0|[1-9][0-9]{0,5}):')


class Garbled(Exception):
    """What came is no request."""


def policy_requests(text):
    """The requests that are whole, and what is left."""
    *requests, left = text.split(b'\n\n')
    return requests, left


def policy_answer(answering, request):
    attributes = dict(ATTRIBUTE.findall(request.decode('latin-1')))
    return f'action={answering.action(attributes)}\n\n'.encode('latin-1')


def socketmap_requests(text):
    """The netstrings that are whole, and what is left."""
    requests, at = [], 0
    while (length := LENGTH.match(text, at)) is not None:
        end = length.end() + int(length[1])
        if end - at > LONGEST:
            raise Garbled('a request is too long')
        if end >= len(text):
            break
        if text[end] != ord(','):
            raise Garbled('no comma stands behind a netstring')
        requests.append(text[length.end():end])
        at = end + 1
    if length is None and not re.fullmatch(rb'([1-9][0-9]{0,5}|0)?', text[at:at + 8]):
        raise Garbled('it is no netstring')
    return requests, text[at:]


def socketmap_answer(answering, request):
    name, _, key = request.decode('latin-1').partition(' ')
    # why there is no answer may name a file of any letters
    reply = answering.reply(name, key).encode('latin-1', 'replace')
    return b'%d:%b,' % (len(reply), reply)


PROTOCOLS = {'policy': (policy_requests, policy_answer), 'socketmap': (socketmap_requests, socketmap_answer)}


class Conversation(asyncio.Protocol):
    """A connection, whose requests are answered in their order as they come. One that doesn't read its answers isn't read from."""

    def __init__(self, protocol, answering):
        self.requests, self.answer = PROTOCOLS[protocol]
        self.protocol, self.answering = protocol, answering
        self.left = b''

    def connection_made(self, transport):
        self.transport = transport

    def pause_writing(self):
        self.transport.pause_reading()

    def resume_writing(self):
        self.transport.resume_reading()

    def data_received(self, data):
        try:
            requests, self.left = self.requests(self.left + data)
            if len(self.left) > LONGEST:
                raise Garbled('a request is too long')
        except Garbled as why:
            self.answering.say(f'a connection of {self.protocol} is closed: {why}')
            self.transport.close()
            return
        self.transport.write(b''.join([self.answer(self.answering, it) for it in requests]))
