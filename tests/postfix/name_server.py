"""A name server on a UDP port of this host, for tests: it answers each question after a while, and counts how many wait at once."""
import heapq
import select
import socket
import struct
import threading
import time
from collections import Counter

MX = 15


def labels(name):
    return b''.join(bytes([len(it)]) + it.encode() for it in name.split('.')) + b'\0'


def question_of(packet):
    """The name and the kind of a query's question, and the bytes of it (RFC 1035 section 4.1)."""
    parts, at = [], 12
    while packet[at]:
        parts.append(packet[at + 1:at + 1 + packet[at]].decode().lower())
        at += 1 + packet[at]
    kind, = struct.unpack('!H', packet[at + 1:at + 3])
    return '.'.join(parts), kind, packet[12:at + 5]


def answer_of(packet):
    """An answer to a query: one mail exchanger, `mx.` and the name, and of another kind nothing."""
    name, kind, question = question_of(packet)
    record = b''
    if kind == MX:
        exchanger = struct.pack('!H', 10) + labels(f'mx.{name}')
        record = b'\xc0\x0c' + struct.pack('!HHIH', MX, 1, 300, len(exchanger)) + exchanger
    return packet[:2] + struct.pack('!HHHHH', 0x8580, 1, bool(record), 0, 0) + question + record


class NameServer:
    """Answers but for names that begin with `silent.`."""

    def __init__(self, delay):
        self.delay = delay
        self.questions = Counter()
        self.most_waiting = 0
        self.socket = socket.socket(socket.AF_INET, socket.SOCK_DGRAM)
        self.socket.setsockopt(socket.SOL_SOCKET, socket.SO_RCVBUF, 1 << 20)
        self.socket.bind(('127.0.0.1', 0))
        self.port = self.socket.getsockname()[1]
        self.is_ended = False
        self.thread = threading.Thread(target=self.serve)

    def __enter__(self):
        self.thread.start()
        return self

    def __exit__(self, *_):
        self.is_ended = True
        self.thread.join()
        self.socket.close()

    def serve(self):
        waiting = []
        while not self.is_ended:
            until = waiting[0][0] - time.monotonic() if waiting else 0.1
            if select.select([self.socket], [], [], max(0, min(until, 0.1)))[0]:
                packet, place = self.socket.recvfrom(4096)
                self.questions[question_of(packet)[:2]] += 1
                if not question_of(packet)[0].startswith('silent.'):
                    heapq.heappush(waiting, (time.monotonic() + self.delay, place, packet))
                self.most_waiting = max(self.most_waiting, len(waiting))
            while waiting and waiting[0][0] <= time.monotonic():
                _, place, packet = heapq.heappop(waiting)
                self.socket.sendto(answer_of(packet), place)
