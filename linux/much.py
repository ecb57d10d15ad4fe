#!/usr/bin/env python3
"""Much through the echo of the program `host`, in a network namespace of its own (unshare -n):

    much.py PUMP HOST [MEGABYTES [tap]]

so many megabytes (100) through the stream echo, and back, with their sums compared; then a tenth of them while the device's MTU is raised to
9,000 and lowered to 1,280 in mid-connection. PUMP is linux/pump.c, built. `tap` makes it a link of Ethernet frames.
"""
import hashlib, random, socket, sys, threading, time

import hostile, talk
from talk import OURS, STATION, say, sh


def echoed(megabytes, seconds=1800):
    """The sum of what was sent, the sum of what came back, and how long it took."""
    sent, got = hashlib.sha256(), hashlib.sha256()
    pieces = [random.randbytes(1_000_000) for _ in range(8)]
    began = time.monotonic()
    with socket.create_connection((OURS, 7), timeout=seconds) as it:

        def send():
            for number in range(megabytes):
                sent.update(pieces[number % 8])
                it.sendall(pieces[number % 8])
            it.shutdown(socket.SHUT_WR)

        sender = threading.Thread(target=send)
        sender.start()
        while piece := it.recv(65536):
            got.update(piece)
        sender.join()
    return sent.hexdigest(), got.hexdigest(), time.monotonic() - began


def much(megabytes):
    sent, got, took = echoed(megabytes)
    return say(f"{megabytes} MB through the stream echo and back in {took:.1f} s, {megabytes / took:.1f} MB/s", sent == got)


def over_other_mtus(megabytes):
    """While they go, the device's MTU is raised, and then lowered."""

    def change():
        for mtu in (9000, 1280) * 3:
            time.sleep(0.3)
            sh("ip", "link", "set", "zemplovir", "mtu", str(mtu))

    changes = threading.Thread(target=change)
    changes.start()
    sent, got, took = echoed(megabytes)
    changes.join()
    return say(f"{megabytes} MB while the MTU goes to 9,000 and to 1,280 in {took:.1f} s", sent == got)


def main():
    pump, program, *rest = sys.argv[1:]
    megabytes = next((int(it) for it in rest if it.isdigit()), 100)
    started = hostile.start(pump, program, *(("-e", STATION) if "tap" in rest else ()))
    well = [hostile.tried(much, megabytes), hostile.tried(over_other_mtus, max(1, megabytes // 10))]
    talk.stop(started)
    return 0 if all(well) else 1


if __name__ == "__main__":
    sys.exit(main())
