#!/usr/bin/env python3
"""Many requests while a flood of bad datagrams comes: examples/soak.py [REQUESTS [PROGRAM [KIND [lossy]]]]

Starts a group of three, a chain if KIND isn't `primary` or `vr`, as processes on this machine, which talk UDP over loopback. Eight clients
ask through the switch until there were so many replies, 100,000 by default, while another process sends random and damaged datagrams to
every node and every client, half of the time. Each reply is checked against one store: of each object the stamps order the writes, a stamp
has one value, and an operation that begins once another one has ended doesn't go behind that one. With the word `lossy` a further process
stands between all nodes and clients, and of a hundred datagrams it loses one, sends one twice and keeps one back for a while. The
status is 0 where no reply is wrong and no node has ended.
"""
import heapq
import os
import random
import selectors
import socket
import struct
import subprocess
import sys
import tempfile
import time

HERE = os.path.dirname(os.path.abspath(__file__))
PROGRAM = os.path.join(HERE, "..", "crates", "hmd", "out", "hmd")
REPLICAS = 3
CLIENTS = range(1, 9)
OBJECTS = 32
WRITES = {"chain": 14_000, "primary": 14_000, "vr": 4_000}  # a log has room for 16,384 entries; in `vr` some reads are entries, too
PATIENCE = 30  # after so many seconds without a reply the group is taken to have stopped
WAITING_TIME = 0.2
CLIENT, SWITCH, REPLICA, SERVICE = 1, 2, 3, 4
READ, WRITE, REPLY = 1, 2, 7
WROTE, NONE, FOUND = 0, 1, 2


def head(kind, src, dst):
    return struct.pack(">BBBIBI", 1, kind, *src, *dst)


def request_of(client, request, thing, value):
    """The datagram of a read, or of a write where there is a value."""
    kind = READ if value is None else WRITE
    spelled = head(kind, (CLIENT, client), (SWITCH, 1)) + struct.pack(">QI", request, thing)
    return spelled if value is None else spelled + bytes([len(value)]) + value


def reply_in(spelled, client):
    """Request, stamp, answer and value of a reply to this client. None for any other bytes."""
    if len(spelled) < 33 or spelled[:2] != bytes([1, REPLY]) or spelled[7:12] != struct.pack(">BI", CLIENT, client):
        return None
    request, switch, seq, answer = struct.unpack_from(">QIQB", spelled, 12)
    if answer == FOUND and len(spelled) > 33 and len(spelled) == 34 + spelled[33]:
        return request, (switch, seq), FOUND, spelled[34:]
    return (request, (switch, seq), answer, None) if answer < FOUND and len(spelled) == 33 else None


class Store:
    """What the replies so far tell of one store."""

    def __init__(self):
        self.begun = [set() for _ in range(OBJECTS)]  # values whose write has begun
        self.value = [{(0, 0): None} for _ in range(OBJECTS)]  # which value a stamp has
        self.stamp = [{None: (0, 0)} for _ in range(OBJECTS)]  # which stamp a value has
        self.reached = [(0, 0)] * OBJECTS  # the greatest stamp of an operation that has ended

    def check(self, thing, written, least, stamp, answer, value):
        """What is wrong with a reply to an operation that began when the object had reached a stamp."""
        if (answer == WROTE) != (written is not None):
            return "of another kind"
        value = value if written is None else written
        if value is not None and value not in self.begun[thing]:
            return "with a value that nobody wrote"
        if self.value[thing].setdefault(stamp, value) != value or self.stamp[thing].setdefault(value, stamp) != stamp:
            return "with two values of one stamp, or two stamps of one value"
        if stamp < least or (written is not None and stamp == least):
            return "that goes back"
        self.reached[thing] = max(self.reached[thing], stamp)
        return None


class Client:
    """A client with one request at a time, over a socket of its own."""

    def __init__(self, number, store, writes):
        self.number, self.switch, self.store, self.share = number, None, store, writes
        self.socket = socket.socket(socket.AF_INET, socket.SOCK_DGRAM)
        self.socket.bind(("127.0.0.1", 0))
        self.socket.setblocking(False)
        self.request = self.replies = self.writes = self.resent = self.strays = 0
        self.thing, self.written, self.least, self.spelled, self.sent = 0, None, (0, 0), b"", None

    def begin(self):
        self.request += 1
        self.thing = random.randrange(OBJECTS)
        self.written = struct.pack(">IQ", self.number, self.request) if random.random() < self.share else None
        if self.written is not None:
            self.store.begun[self.thing].add(self.written)
        self.least = self.store.reached[self.thing]
        self.spelled = request_of(self.number, self.request, self.thing, self.written)
        self.send()

    def send(self):
        self.sent = time.monotonic()
        try:
            self.socket.sendto(self.spelled, self.switch)
        except BlockingIOError:
            pass

    def send_again(self, now):
        if self.sent is not None and now - self.sent > WAITING_TIME:
            self.resent += 1
            self.send()

    def take(self):
        """Takes a datagram: whether it was the reply that is waited for, and what is wrong with that."""
        reply = reply_in(self.socket.recv(2048), self.number)
        if reply is None or reply[0] != self.request or self.sent is None:
            self.strays += 1
            return False, None
        self.sent = None
        self.replies += 1
        self.writes += self.written is not None
        return True, self.store.check(self.thing, self.written, self.least, *reply[1:])


def free_ports(count):
    sockets = [socket.socket(socket.AF_INET, socket.SOCK_DGRAM) for _ in range(count)]
    for one in sockets:
        one.bind(("127.0.0.1", 0))
    return [one.getsockname()[1] for one in sockets]


def damaged(rng):
    """A packet with a fault: it is cut, or has more bytes, or a byte that no packet has there."""
    nodes = [(CLIENT, rng.choice(CLIENTS)), (SWITCH, 1), (REPLICA, rng.randrange(REPLICAS)), (SERVICE, 0)]
    spelled = head(rng.randrange(1, 20), rng.choice(nodes), rng.choice(nodes))
    if rng.random() < 0.5:
        spelled = request_of(rng.choice(CLIENTS), rng.randrange(1, 1 << 40), rng.randrange(OBJECTS), rng.choice([None, bytes(8)]))
    if rng.random() < 0.3:
        return spelled[: rng.randrange(len(spelled))]
    if rng.random() < 0.3:
        return request_of(1, 1, 1, None) + rng.randbytes(rng.randrange(1, 2500))
    at = rng.choice([0, 1, 2, 7])
    return spelled[:at] + bytes([rng.choice([0, 77, 255])]) + spelled[at + 1 :]


def flood(ports):
    """Sends random and damaged datagrams to these ports, until this process is ended. Half a second is noisy, and half a second quiet."""
    rng = random.Random(7)
    out = socket.socket(socket.AF_INET, socket.SOCK_DGRAM)
    count = 0
    while True:
        end = time.monotonic() + 0.5
        while time.monotonic() < end:
            for port in ports:
                spelled = damaged(rng) if rng.random() < 0.5 else rng.randbytes(rng.randrange(2500))
                out.sendto(spelled, ("127.0.0.1", int(port)))
            count += len(ports)
        print(count, flush=True)
        time.sleep(0.5)


def relay(pairs):
    """Passes on what comes to a port, to another port: some datagrams are lost, some come twice, and some late."""
    rng, ready, late = random.Random(8), selectors.DefaultSelector(), []
    out = socket.socket(socket.AF_INET, socket.SOCK_DGRAM)
    for pair in pairs:
        port, target = map(int, pair.split(":"))
        into = socket.socket(socket.AF_INET, socket.SOCK_DGRAM)
        into.bind(("127.0.0.1", port))
        ready.register(into, selectors.EVENT_READ, ("127.0.0.1", target))
    while True:
        for key, _ in ready.select(0.001 if late else 1):
            spelled = key.fileobj.recv(2048)
            for _ in range(rng.choices([0, 1, 2], [1, 98, 1])[0]):
                if rng.random() < 0.01:
                    heapq.heappush(late, (time.monotonic() + rng.uniform(0, 0.05), spelled, key.data))
                else:
                    out.sendto(spelled, key.data)
        while late and late[0][0] < time.monotonic():
            out.sendto(*heapq.heappop(late)[1:])


def helper(*words, **files):
    """This program as a process for something else."""
    return subprocess.Popen([sys.executable, __file__, *words], **files)


def start(program, kind, clients, own, others, folder):
    """Starts the nodes, the relay and the flood. Answers the nodes, and the others. Each node has a port, and one that others send to."""
    nodes = ["s1", "cfg", *(f"r{me}" for me in range(REPLICAS)), *(f"c{one.number}" for one in clients)]
    group, turns = f"{kind} {REPLICAS}", 10**12
    words = [f"switch 1 1 3 10 1048576 {turns} {group}", f"config {group} 10"]
    words += [f"replica {me} {group} 16384 {turns} 5" for me in range(REPLICAS)]
    processes = []
    for at, each in enumerate(words):
        ports = [*others[:at], own[at], *others[at + 1 :]]
        listed = [f"{node}=127.0.0.1:{port}" for node, port in zip(nodes, ports)]
        processes.append(subprocess.Popen([program, *each.split(), *listed], stdin=subprocess.PIPE, stdout=subprocess.DEVNULL))
    helpers = [helper("flood", *map(str, own), stdout=open(os.path.join(folder, "flood"), "w"))]
    if own != others:
        helpers.append(helper("relay", *(f"{other}:{port}" for other, port in zip(others, own))))
    return processes, helpers


def ask(clients, requests):
    """The clients ask until there were so many replies. Answers what was wrong with any."""
    ready, wrong, replies, looked, heard = selectors.DefaultSelector(), [], 0, 0.0, time.monotonic()
    for one in clients:
        ready.register(one.socket, selectors.EVENT_READ, one)
        one.begin()
    while replies < requests:
        for key, _ in ready.select(WAITING_TIME):
            came, fault = key.data.take()
            if fault is not None:
                wrong.append(f"client {key.data.number}, request {key.data.request}: a reply {fault}")
            if came:
                replies += 1
                key.data.begin()
                heard = time.monotonic()
        now = time.monotonic()
        if now - heard > PATIENCE:
            return wrong + [f"no reply came for {PATIENCE} seconds after {replies} replies"]
        if now - looked > WAITING_TIME / 4:
            looked = now
            for one in clients:
                one.send_again(now)
    return wrong


def main():
    if sys.argv[1:2] == ["flood"]:
        return flood(sys.argv[2:])
    if sys.argv[1:2] == ["relay"]:
        return relay(sys.argv[2:])
    requests = int(sys.argv[1]) if len(sys.argv) > 1 else 100_000
    program = sys.argv[2] if len(sys.argv) > 2 else PROGRAM
    kind = sys.argv[3] if len(sys.argv) > 3 else "chain"
    store = Store()
    clients = [Client(number, store, WRITES[kind] / max(requests, 100_000)) for number in CLIENTS]
    own = free_ports(2 + REPLICAS) + [one.socket.getsockname()[1] for one in clients]
    others = free_ports(len(own)) if sys.argv[4:] == ["lossy"] else own
    for one in clients:
        one.switch = ("127.0.0.1", others[0])
    with tempfile.TemporaryDirectory() as folder:
        processes, helpers = start(program, kind, clients, own, others, folder)
        time.sleep(0.3)
        begin = time.monotonic()
        try:
            wrong = ask(clients, requests)
            ended = [process.args[1] for process in processes if process.poll() is not None]
        finally:
            for process in processes + helpers:
                process.kill()
                process.wait()
        took = time.monotonic() - begin
        with open(os.path.join(folder, "flood")) as count:
            bad = ([0] + [int(line) for line in count])[-1]
    replies, writes, resent, strays = (sum(counts) for counts in zip(*((one.replies, one.writes, one.resent, one.strays) for one in clients)))
    print(f"{kind}: replies {replies}, {writes} of them to writes, in {took:.1f} s; requests sent again: {resent}")
    print(f"bad datagrams sent: {bad}; datagrams that came to clients and were no reply they waited for: {strays}")
    print(f"wrong replies: {len(wrong)}; nodes that ended: {len(ended)}")
    for line in wrong[:10] + ended:
        print(line)
    return 1 if wrong or ended else 0


if __name__ == "__main__":
    sys.exit(main())
