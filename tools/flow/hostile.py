"""Scripts that nobody would write, by a seed."""
import random

PAYLOADS = [b"</svg><script>alert(1)</script>", b"\"'><svg onload=x>", b"]]>&amp;<!--", b"\0\x01\xff\xfe", b"abc", "\u202e\ufffe".encode()]
NAMES = ["</title><script>alert(1)</script>", "\"><img src=x onerror=y>", "a\0b\x1bc", "\u202eright to left", "&lt;&#0;", "\udcff\udc80", "]]>"]
ECHO = "4500001c000040004001b78dc0a80102c0a801010800e5ca12340001"


def data(random_):
    return (random_.choice(PAYLOADS) * random_.choice([1, 1, 1, 40])).hex()


def event(random_, moment):
    """A line that is often a good one."""
    host, other = random_.sample("AB", 2)
    frame, socket = random_.randrange(8), random_.choice([0, 0, 0, 1, 2])
    return random_.choice([
        f"poll {host} {moment} {random_.choice([0, 1, 2, 8, 64])}", f"poll {host} {moment} 64", f"poll {other} {moment} 64",
        f"deliver {host} {frame} {random_.choice(['-', '-', data(random_)])}", f"deliver {host} {frame} -", f"deliver {other} {frame} -",
        f"deliver {host} {random_.randrange(40)} -", f"send {host} 0 {data(random_)}", f"recv {host} 0 {random_.choice([1, 64, 4096])}",
        f"damage {host} {frame} {random_.choice([0, 2, 12, 20])} {random_.randrange(65536):04x} -", f"close {host} 0", f"abort {host} 0",
        f"noise {host} {random_.choice([ECHO, '00', data(random_), bytes(random_.randrange(256) for _ in range(40)).hex()])}",
        f"cut {host} {frame} {random_.choice([8, 16, 24])}", f"sendto {host} 1 192.168.1.{random_.choice([1, 2, 9])}:53 {data(random_)}",
        f"recvfrom {host} 1 {random_.choice([4, 4096])}", f"state {host} 0", f"pollat {host} {moment}", f"room {host} {random_.choice([0, 1, 2, 5])}",
        f"sendto {host} 1 [fd00::{random_.choice([1, 2])}]:53 {data(random_)}", f"state {host} {socket}", f"bind {host} 1 {random_.choice([53, 0])}",
    ])


def script(random_):
    """A script of two hosts with a connection, in which much goes wrong."""
    lines = [f"world {random_.choice(['ip', 'eth'])} {random_.choice([600, 1500, 1514])}"]
    for host in "AB":
        lines += [f"socket {host} tcp {random_.choice([1, 64, 4096])} {random_.choice([8, 4096])}", f"socket {host} udp 4 4096 4 4096"]
    lines += ["start", "listen B 0 80", f"connect A 0 {random_.choice(['192.168.1.2', '[fd00::2]'])}:80 49500", "bind A 1 48896", "bind B 1 53"]
    moment = 0
    for _ in range(random_.randrange(120)):
        moment += random_.choice([0, 0, 0, 1, 10_000, 1_000_000, 3_000_000])
        if random_.random() < 0.3:
            lines += [f"poll A {moment} 64", *(f"deliver A {k} -" for k in random_.sample(range(6), 2)), f"poll B {moment} 64"]
        else:
            lines.append(event(random_, moment))
    return "\n".join(lines[: random_.choice([len(lines), len(lines), random_.randrange(len(lines) + 1)])]) + random_.choice(["\n", ""])


def without_early_ends(text, play):
    """The script without the lines that would end it, as far as a few tries find them."""
    for _ in range(8):
        ended = play(text)
        if ended is None:
            break
        lines = text.split("\n")
        bad = lines[ended - 1]
        at = ended - 1
        # What names a frame that isn't sent yet is left out up to the next poll.
        while at < len(lines) and not lines[at].startswith("poll") and lines[at].split(" ")[0] in ("deliver", "damage", "cut"):
            at += 1
        lines[ended - 1 : max(at, ended)] = []
        text = "\n".join(line for k, line in enumerate(lines) if k < ended or line != bad)
    return text


def garbage(random_, kept):
    """Bytes that are no script, or one that was damaged."""
    kind = random_.randrange(5)
    if kind == 0:
        return bytes(random_.randrange(256) for _ in range(random_.randrange(400)))
    text = random_.choice(kept)
    if kind == 1:
        return text[: random_.randrange(len(text))]
    if kind == 2:
        at = random_.randrange(len(text))
        return text[:at] + bytes([random_.randrange(256)]) + text[at + 1 :]
    if kind == 3:
        lines = text.split(b"\n")
        random_.shuffle(lines)
        return b"\n".join(lines)
    names = "".join(f"== {random_.choice(NAMES)}{k}\n{random_.choice(kept).decode()}\n" for k in range(2))
    return ("# hostile names\n" + names).encode(errors="surrogateescape")


def scripts(seed, count, kept, play):
    """So many inputs, as bytes."""
    random_ = random.Random(seed)
    for k in range(count):
        if k % 4 == 3:
            yield garbage(random_, kept)
        else:
            yield without_early_ends(script(random_), play).encode()
