#!/usr/bin/env python3
"""Multicast groups behind a switch that snoops, in namespaces of its own (unshare -n -m):

    groups.py TUN

A Linux bridge with snooping and a querier (RFC 4541) joins TUN (c/tun.c, built with the library, over a TAP device) and a Linux station. By IPv6 the
station finds the host; by both families a group that the host has joined reaches it and is known to the bridge, and no longer after its leave; queries
of each version are answered within their delay; and ten thousand queries a second bring few reports. What the host sent is read by tshark, if it is
there. Any WRONG ends it with status 1.
"""
import ipaddress, os, re, shutil, signal, socket, struct, subprocess, sys, tempfile, time

from path import within
from stations import namespace
from talk import checksum, say, sh

DEVICE, STATION, HOST = "zemplovir", "02:00:00:00:00:22", "02:00:00:00:00:01"
OURS, PEER, GROUP = {4: "10.77.0.2", 6: "fd77::2"}, {4: "10.77.0.22", 6: "fd77::22"}, {4: "239.1.2.3", 6: "ff15::1234"}
PREFIX, EVERYBODY = {4: "24", 6: "64"}, {4: "224.0.0.1", 6: "ff02::1"}
BRIDGE = """link add bridge type bridge mcast_snooping 1 mcast_querier 1 mcast_igmp_version 3 mcast_mld_version 2 forward_delay 0
 mcast_startup_query_interval 100 mcast_query_interval 400 mcast_query_response_interval 100 mcast_last_member_interval 50
 mcast_last_member_count 2 mcast_membership_interval 900 mcast_query_use_ifaddr 1"""
ETH_ALL = 3


def packed(address):
    return ipaddress.ip_address(address).packed


def frame(destination, payload):
    """An Ethernet frame to a group, from the station."""
    last = packed(destination)
    to = b"\1\0\x5e" + bytes([last[1] & 127, *last[2:]]) if len(last) == 4 else b"\x33\x33" + last[12:]
    return to + bytes.fromhex(STATION.replace(":", "")) + (b"\x08\0" if len(last) == 4 else b"\x86\xdd") + payload


def query4(group, version, tenths):
    """A query of IGMP (RFC 3376, 4.1; RFC 2236; RFC 1112)."""
    body = struct.pack(">BBH4s", 0x11, tenths if version > 1 else 0, 0, packed(group)) + (bytes([2, 125, 0, 0]) if version == 3 else b"")
    body = body[:2] + struct.pack(">H", checksum(body)) + body[4:]
    to = EVERYBODY[4] if group == "0.0.0.0" else group
    head = struct.pack(">BBHHHBBH4s4s4s", 0x46, 0xC0, 24 + len(body), 0, 0, 1, 2, 0, packed(PEER[4]), packed(to), bytes([0x94, 4, 0, 0]))
    return frame(to, head[:10] + struct.pack(">H", checksum(head)) + head[12:] + body)


def query6(group, version, millis, source):
    """A query of MLD (RFC 3810, 5.1; RFC 2710)."""
    to = EVERYBODY[6] if group == "::" else group
    body = struct.pack(">BBHHH16s", 130, 0, 0, millis, 0, packed(group)) + (bytes([2, 125, 0, 0]) if version == 2 else b"")
    pseudo = packed(source) + packed(to) + struct.pack(">II", len(body), 58)
    body = body[:2] + struct.pack(">H", checksum(pseudo + body)) + body[4:]
    head = struct.pack(">IHBB16s16s", 6 << 28, 8 + len(body), 0, 1, packed(source), packed(to)) + bytes([58, 0, 5, 2, 0, 0, 1, 0])
    return frame(to, head + body)


def kind_of(data):
    """Which report of groups a frame of the host has, and the groups; nothing for other frames."""
    if data[6:12] != bytes.fromhex(HOST.replace(":", "")):
        return None
    if data[12:14] == b"\x08\0" and data[23] == 2:
        body = data[14 + 4 * (data[14] & 15):]
        return {0x12: "v1", 0x16: "v2", 0x17: "leave", 0x22: "v3"}.get(body[0]), body
    if data[12:14] == b"\x86\xdd" and data[20] == 0 and data[54] == 58:
        return {131: "v1", 132: "done", 143: "v2"}.get(data[62]), data[62:]
    return None


class Station:
    """A Linux station in a namespace of its own, which also sends frames of its own and sees all that come."""

    def __init__(self):
        self.process = namespace()
        sh("ip", "link", "add", "s0", "type", "veth", "peer", "name", "lan", "address", STATION, "netns", str(self.process.pid))
        sh("ip", "link", "set", "s0", "master", "bridge", "up")
        for words in (f"addr add {PEER[4]}/24 dev lan", f"addr add {PEER[6]}/64 dev lan nodad", "link set lan up", "link set lo up",
                      "route add 224.0.0.0/4 dev lan"):
            self.run("ip", *words.split())
        with within(self.process.pid):
            self.frames = socket.socket(socket.AF_PACKET, socket.SOCK_RAW, socket.htons(ETH_ALL))
            self.frames.bind(("lan", ETH_ALL))
            self.udp = {4: socket.socket(socket.AF_INET, socket.SOCK_DGRAM), 6: socket.socket(socket.AF_INET6, socket.SOCK_DGRAM)}
            self.udp[6].setsockopt(socket.IPPROTO_IPV6, socket.IPV6_MULTICAST_IF, socket.if_nametoindex("lan"))
            self.udp[6].setsockopt(socket.IPPROTO_IPV6, socket.IPV6_MULTICAST_HOPS, 4)
            self.udp[4].setsockopt(socket.IPPROTO_IP, socket.IP_MULTICAST_TTL, 4)

    def run(self, *words):
        return sh("nsenter", "-t", str(self.process.pid), "-n", *words)

    def link_local(self):
        return re.search(r"fe80::[0-9a-f:]+", self.run("ip", "-6", "addr", "show", "dev", "lan").stdout)[0]

    def echoes(self, version):
        """How many of five datagrams to the group came back."""
        back = 0
        for number in range(5):
            self.udp[version].settimeout(0.4)
            self.udp[version].sendto(b"%d" % number, (GROUP[version], 7))
            try:
                back += self.udp[version].recv(100) == b"%d" % number
            except OSError:
                pass
        return back

    def reports(self, seconds, sent=b"", times=1, gap=0.0):
        """The host's reports in so many seconds, each with the time since the first frame that was sent."""
        self.frames.setblocking(False)
        while self.waiting():
            pass
        start, found, left = time.time(), [], times
        self.frames.settimeout(0.01)
        while time.time() < start + seconds:
            if left and sent and time.time() >= start + (times - left) * gap:
                self.frames.send(sent)
                left -= 1
                if gap and left:
                    continue
            try:
                data = self.frames.recv(2000)
            except OSError:
                continue
            if kind_of(data):
                found.append((time.time() - start, *kind_of(data)))
        return found

    def waiting(self):
        try:
            return self.frames.recv(2000)
        except OSError:
            return b""


def set_up():
    for words in ("link set lo up", BRIDGE, "link set bridge address 02:00:00:00:00:77", "addr add 10.77.0.77/24 dev bridge",
                  "addr add fd77::77/64 dev bridge nodad", "link set bridge up", f"tuntap add {DEVICE} mode tap vnet_hdr",
                  f"link set {DEVICE} master bridge up"):
        sh("ip", *words.split())
    return Station()


def known(version):
    """Whether the bridge knows the group behind the host's port."""
    return f"port {DEVICE} grp {GROUP[version]}" in sh("bridge", "mdb", "show").stdout


def heard(station, host, version):
    """The group is heard, and no longer after its leave."""
    time.sleep(6)
    well = True
    if version == 6:
        lines = station.run("ping", "-6", "-c", "5", "-i", "0.3", "-W", "1", OURS[6]).stdout
        well = say(f"the station finds the host by IPv6: {re.findall(r'.* received', lines)}", "5 received" in lines)
    well &= say(f"IPv{version}: the bridge knows {GROUP[version]} at the host's port", known(version))
    back = station.echoes(version)
    return well & say(f"IPv{version}: datagrams to the group are heard: {back} of 5", back == 5)


def left(station, host, version):
    host.send_signal(signal.SIGUSR1)
    time.sleep(3)
    well = say(f"IPv{version}: the bridge knows that it was left", not known(version))
    back = station.echoes(version)
    return well & say(f"IPv{version}: datagrams to the group are no longer heard: {back} of 5", back == 0)


def answered(station, version):
    """Queries of each version, of all groups and of one, are answered in time, in their version."""
    well = True
    for name, most, sent in queries(station, version):
        found = [(after, kind) for after, kind, body in station.reports(most + 0.5, sent) if packed(GROUP[version]) in body]
        well &= say(f"IPv{version}: {name} is answered within {most} s: {[(round(a, 2), k) for a, k in found]}",
                    any(after <= most + 0.1 and kind == name[:2] for after, kind in found))
    return well


def queries(station, version):
    if version == 6:
        source = station.link_local()
        return [("v2, of all groups,", 2, query6("::", 2, 2000, source)), ("v2, of the group,", 1, query6(GROUP[6], 2, 1000, source)),
                ("v1, of the group,", 1, query6(GROUP[6], 1, 1000, source))]
    return [("v3, of all groups,", 2, query4("0.0.0.0", 3, 20)), ("v3, of the group,", 1, query4(GROUP[4], 3, 10)),
            ("v2, of the group,", 1, query4(GROUP[4], 2, 10)), ("v1, of all groups,", 10, query4("0.0.0.0", 1, 0))]


def flooded(station, version):
    """Ten thousand queries a second of each version, with the shortest delay, bring no more reports than one a delay and group."""
    sent = query6("::", 2, 1, station.link_local()) if version == 6 else query4("0.0.0.0", 3, 1)
    found = station.reports(5, sent, 30_000, 0.0001)
    return say(f"IPv{version}: 30,000 queries bring {len(found)} reports in 5 s", len(found) <= (5000 if version == 6 else 60))


def of_version(tun, station, version, file):
    """A host joins, is heard and leaves; then another is queried (a querier of version 1 or 2 is one for minutes, and the bridge asks no more)."""
    tests = ((heard, left), (lambda station, host, version: flooded(station, version), lambda station, host, version: answered(station, version)))
    well = True
    for number, steps in enumerate(tests):
        host = subprocess.Popen([tun, DEVICE, "tap", OURS[version], PREFIX[version], "--join", GROUP[version], "--pcap", f"{file}.{number}"],
                                stderr=subprocess.PIPE)
        host.stderr.readline()
        try:
            for step in steps:
                well &= step(station, host, version)
            well &= say("the host is still there", host.poll() is None)
        finally:
            host.terminate()
            host.wait()
        well &= read_back(f"{file}.{number}")
    return well


def read_back(file):
    if not shutil.which("tshark"):
        return say("tshark isn't there", True)
    bad = sh("tshark", "-r", file, "-o", "ip.check_checksum:TRUE", "-Y", f"eth.src=={HOST} && (_ws.malformed || ip.checksum.status==0 || "
             "icmpv6.checksum.status==0 || igmp.checksum.status==0 || (igmp && ip.ttl!=1) || (icmpv6.type in {131,132,143} && ipv6.hlim!=1))").stdout
    return say(f"tshark finds nothing wrong in what the host sent: {bad}", not bad)


def main():
    folder = tempfile.mkdtemp()
    station = set_up()
    try:
        well = True
        for version in (6, 4):
            well &= of_version(sys.argv[1], station, version, f"{folder}/{version}.pcap")
    finally:
        station.process.kill()
        shutil.rmtree(folder)
    sys.exit(0 if well else 1)


main()
