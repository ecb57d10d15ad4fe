"""Linux with itself: two stacks in network namespaces of their own, and between their two TUN devices a link that loses, repeats and holds back.

`record` makes connections over it, keeps what went out and came in at the client's end as a capture, and returns the streams that the programs
wrote. It needs root.
"""
import ctypes
import fcntl
import heapq
import os
import queue
import random
import select
import socket
import struct
import subprocess
import threading
import time

CLIENT, SERVER, PORT = "10.78.0.1", "10.78.0.2", 7000
CLONE_NEWNET = 0x40000000
HALF_OPEN_EACH, RESET_EACH = 8, 5  # of so many connections one


class Namespace:
    """A thread in a network namespace of its own, with a TUN device; what it is asked for happens there."""

    def __init__(self, address):
        self.asked, self.address = queue.Queue(), address
        threading.Thread(target=self.work, daemon=True).start()
        self.device = self.ask(self.set_up)

    def work(self):
        if ctypes.CDLL(None, use_errno=True).unshare(CLONE_NEWNET):
            raise OSError(ctypes.get_errno(), "no network namespace can be made here: is it root?")
        while True:
            what, answer = self.asked.get()
            try:
                answer.put((what(), None))
            except Exception as it:  # the one who asked gets it
                answer.put((None, it))

    def ask(self, what):
        answer = queue.Queue()
        self.asked.put((what, answer))
        result, failed = answer.get(timeout=30)
        if failed:
            raise failed
        return result

    def set_up(self):
        device = os.open("/dev/net/tun", os.O_RDWR | os.O_NONBLOCK)
        iff_tun, iff_no_pi, tunsetiff = 0x0001, 0x1000, 0x400454CA
        fcntl.ioctl(device, tunsetiff, struct.pack("16sH", b"tunnel", iff_tun | iff_no_pi))
        for words in (f"addr add {self.address}/24 dev tunnel", "link set tunnel up mtu 1500", "link set lo up"):
            subprocess.run(["ip", *words.split()], check=True)
        return device


class Link(threading.Thread):
    """Carries packets between two devices, and keeps what passes the first one."""

    def __init__(self, near, far, path, seed):
        super().__init__(daemon=True)
        self.near, self.far, self.chance = near, far, random.Random(seed)
        self.waiting, self.cut, self.number = [], set(), 0
        self.capture = open(path, "wb")
        self.capture.write(struct.pack("<IHHiIII", 0xA1B2C3D4, 2, 4, 0, 0, 65535, 101))
        self.ends = False

    def keep(self, packet):
        now = time.time_ns()
        self.capture.write(struct.pack("<IIII", now // 10**9, now % 10**9 // 1000, len(packet), len(packet)) + packet)

    def send(self, to, packet, later):
        self.number += 1
        heapq.heappush(self.waiting, (time.monotonic() + later, self.number, to, packet))

    def carry(self, source, packet):
        if source == self.near:
            self.keep(packet)
        if self.port_of(packet) in self.cut:
            return
        to, chance = self.far if source == self.near else self.near, self.chance.random()
        if chance < 0.2:
            return
        for _ in range(2 if chance < 0.3 else 1):
            self.send(to, packet, self.chance.choice((0, 0, 0.001, 0.005, 0.03)))

    @staticmethod
    def port_of(packet):
        """The client's port."""
        ports = struct.unpack(">HH", packet[20:24]) if len(packet) >= 24 and packet[9] == 6 else (0, 0)
        return ports[0] if ports[1] == PORT else ports[1]

    def deliver(self):
        while self.waiting and self.waiting[0][0] <= time.monotonic():
            _, _, to, packet = heapq.heappop(self.waiting)
            if to == self.near:
                self.keep(packet)
            os.write(to, packet)

    def run(self):
        while not self.ends:
            ready = select.select([self.near, self.far], [], [], 0.002)[0]
            for source in ready:
                self.carry(source, os.read(source, 65536))
            self.deliver()
        self.capture.close()


def stream_of(port, side):
    chance = random.Random(f"{port} {side}")
    return chance.randbytes(chance.choice((0, 1, 700, 5_000, 40_000)))


def serve(listener):
    """Each connection writes its stream, reads the client's to its end, and closes."""
    def talk(it, port):
        with it:
            converse(it, stream_of(port, "server"))
    while True:
        it, (_, port) = listener.accept()
        threading.Thread(target=talk, args=(it, port), daemon=True).start()


def converse(it, stream, most=20):
    """Writes this and reads to the end; what was read, or None where the connection broke."""
    it.settimeout(most)
    got = bytearray()
    try:
        writer = threading.Thread(target=lambda: write(it, stream), daemon=True)
        writer.start()
        while piece := it.recv(65536):
            got += piece
        writer.join(most)
    except OSError:
        return None
    return bytes(got)


def write(it, stream):
    try:
        it.sendall(stream)
        it.shutdown(socket.SHUT_WR)
    except OSError:
        pass


def opened(near, port):
    it = near.ask(lambda: socket.socket(socket.AF_INET, socket.SOCK_STREAM))
    it.setsockopt(socket.SOL_SOCKET, socket.SO_REUSEADDR, 1)
    it.bind((CLIENT, port))
    it.settimeout(30)
    it.connect((SERVER, PORT))
    return it


def reset(it):
    it.setsockopt(socket.SOL_SOCKET, socket.SO_LINGER, struct.pack("ii", 1, 0))
    it.close()


def connect(near, link, index, told):
    """One connection: a whole one, one that the client resets, or one that the client forgets while the link is cut, and opens anew."""
    port = 20_000 + index
    try:
        it = opened(near, port)
        if index % HALF_OPEN_EACH == 3:
            link.cut.add(port)
            reset(it)
            time.sleep(0.1)
            link.cut.discard(port)
            it = opened(near, port)
        elif index % RESET_EACH == 2:
            it.sendall(stream_of(port, "client")[:3_000])
            time.sleep(0.05)
            reset(it)
            told.append("reset")
            return
        got = converse(it, stream_of(port, "client"))
        it.close()
        told.append("whole" if got == stream_of(port, "server") else "broken")
    except OSError:
        told.append("broken")


def record(path, count, seed=1):
    """Makes so many connections, and returns of each pair of endpoints the stream between them."""
    near, far = Namespace(CLIENT), Namespace(SERVER)
    link = Link(near.device, far.device, path, seed)
    link.start()
    listener = far.ask(lambda: socket.create_server((SERVER, PORT), backlog=128))
    threading.Thread(target=serve, args=(listener,), daemon=True).start()
    told, tasks = [], []
    for index in range(count):
        tasks.append(threading.Thread(target=connect, args=(near, link, index, told), daemon=True))
        tasks[-1].start()
        time.sleep(0.05)
    for it in tasks:
        it.join(90)
    time.sleep(0.5)
    link.ends = True
    link.join()
    print("connections: " + ", ".join(f"{told.count(it)} {it}" for it in ("whole", "reset", "broken")))
    ends = {((CLIENT, 20_000 + i), (SERVER, PORT)): stream_of(20_000 + i, "client") for i in range(count)}
    return ends | {((SERVER, PORT), (CLIENT, 20_000 + i)): stream_of(20_000 + i, "server") for i in range(count)}
