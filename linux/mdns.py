#!/usr/bin/env python3
"""The responder and browser c/mdns.c beside avahi (Debian: avahi-daemon, avahi-utils), in namespaces of its own (unshare -n -m):

    mdns.py MDNS

avahi finds the service that MDNS serves, its address and its end; MDNS finds avahi's host and service, and doesn't take avahi's name. What went
over the bridge is read by tshark, if it is there. MDNS is c/mdns.c, built with the library. Any WRONG ends it with status 1.
"""
import os, shutil, signal, subprocess, sys, tempfile, time

from talk import say, sh

LINUX, OURS, DEVICE = "10.77.0.1", "10.77.0.2", "zemplovir"
CONFIG = """[server]
host-name=lin
use-ipv6=no
allow-interfaces=bridge
enable-dbus=yes
[publish]
publish-hinfo=no
publish-workstation=no
"""
BUS = """<busconfig><type>session</type><listen>unix:path={folder}/bus</listen><auth>EXTERNAL</auth>
<policy context="default"><allow user="*"/><allow own="*"/><allow send_type="method_call"/><allow send_type="signal"/>
<allow send_requested_reply="true" send_type="method_return"/><allow send_requested_reply="true" send_type="error"/>
<allow receive_type="method_call"/><allow receive_type="method_return"/><allow receive_type="error"/><allow receive_type="signal"/></policy></busconfig>
"""


def set_up(folder):
    """A bridge with the device and avahi; what is to be ended."""
    for words in ("link set lo up", "link add bridge type bridge forward_delay 0 mcast_snooping 0", f"addr add {LINUX}/24 dev bridge",
                  "link set bridge up", f"tuntap add {DEVICE} mode tap", f"link set {DEVICE} master bridge up"):
        sh("ip", *words.split())
    for name, text in (("avahi.conf", CONFIG), ("bus.conf", BUS.format(folder=folder))):
        with open(f"{folder}/{name}", "w") as it:
            it.write(text)
    os.environ["DBUS_SYSTEM_BUS_ADDRESS"] = f"unix:path={folder}/bus"
    sh("mount", "-t", "tmpfs", "none", "/run")
    bus = subprocess.Popen(["dbus-daemon", f"--config-file={folder}/bus.conf", "--nofork"])
    time.sleep(0.5)
    avahi = subprocess.Popen(["avahi-daemon", "-f", f"{folder}/avahi.conf", "--no-drop-root", "--no-rlimits", "--no-chroot"],
                             stderr=subprocess.DEVNULL)
    time.sleep(2)
    return [avahi, bus]


def ours(program, *words):
    return subprocess.Popen([program, DEVICE, OURS, "24", *words], stdout=subprocess.PIPE, stderr=subprocess.PIPE, text=True)


def ended(process, number=signal.SIGTERM):
    process.send_signal(number)
    return process.communicate(timeout=10)


def served(program):
    """avahi finds what MDNS serves, and that it went."""
    server = ours(program, "serve", "zem", "_http._tcp", "80")
    time.sleep(3)
    found = sh("timeout", "8", "avahi-browse", "-rpt", "_http._tcp").stdout
    lines = [line.split(";") for line in found.split("\n") if line.startswith("=")]
    well = say(f"avahi-browse finds the service, its address and its port: {lines}",
               [x[3:4] + x[6:9] for x in lines] == [["zem", "zem.local", OURS, "80"]])
    at = sh("avahi-resolve", "-4", "-n", "zem.local").stdout.split()
    well &= say(f"avahi-resolve has its address: {at}", at == ["zem.local", OURS])
    watch = subprocess.Popen(["avahi-browse", "-p", "_http._tcp"], stdout=subprocess.PIPE, text=True)
    time.sleep(1)
    ended(server)
    time.sleep(2.5)
    seen = [line[0] for line in ended(watch)[0].split("\n") if ";zem;" in line]
    return well & say(f"avahi-browse is told that it went: {seen}", seen == ["+", "-"]) & say("it ends with status 0", server.returncode == 0)


def found(program):
    """MDNS finds avahi's host and service, and leaves avahi its name."""
    service = subprocess.Popen(["avahi-publish", "-s", "of linux", "_echo._udp", "7"], stderr=subprocess.DEVNULL)
    time.sleep(2)
    finder = ours(program, "find", "lin")
    text = finder.communicate(timeout=10)[0]
    well = say(f"it finds avahi's host: {text.strip()}", f"lin.local is {LINUX}\n" in text and finder.returncode == 0)
    browser = ours(program, "browse", "_echo._udp")
    time.sleep(3)
    lines = ended(browser)[0].split("\n")
    well &= say(f"it finds avahi's service: {lines}", "service of linux._echo._udp.local" in lines and any("port 7 of lin.local" in x for x in lines))
    taker = ours(program, "serve", "lin", "_http._tcp", "80")
    told = taker.communicate(timeout=10)[1].strip()
    well &= say(f"it leaves avahi its name: {told}", taker.returncode == 1 and "another host" in told)
    nobody = ours(program, "find", "nobody")
    nobody.communicate(timeout=20)
    ended(service)
    return well & say("nobody's name isn't found", nobody.returncode == 1)


def read_back(file):
    """tshark reads what went over the bridge."""
    if not shutil.which("tshark"):
        return say("tshark isn't there", True)
    bad = sh("tshark", "-r", file, "-o", "udp.check_checksum:TRUE", "-o", "ip.check_checksum:TRUE", "-Y",
             f"ip.src=={OURS} && (_ws.malformed || udp.checksum.status==0 || ip.checksum.status==0 || (mdns && ip.ttl!=255))").stdout
    some = sh("tshark", "-r", file, "-Y", f"ip.src=={OURS} && mdns").stdout
    return say(f"tshark finds nothing malformed in {len(some.splitlines())} messages: {bad}", not bad and some.count("\n") > 8)


def main():
    folder = tempfile.mkdtemp()
    processes = set_up(folder)
    watch = subprocess.Popen(["tshark", "-q", "-i", "bridge", "-w", f"{folder}/mdns.pcap"], stderr=subprocess.DEVNULL) if shutil.which("tshark") else None
    time.sleep(2)
    try:
        well = served(sys.argv[1]) & found(sys.argv[1])
        if watch:
            ended(watch, signal.SIGINT)
        well &= read_back(f"{folder}/mdns.pcap")
    finally:
        for it in processes:
            it.terminate()
        shutil.rmtree(folder)
    sys.exit(0 if well else 1)


main()
