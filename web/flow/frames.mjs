// What a frame says, in the words of Wireshark: ports, flags, relative sequence numbers, options. As tools/flow/frames.py.

export const FIN = 1, SYN = 2, RST = 4, PSH = 8, ACK = 16;
const FLAGS = ['FIN', 'SYN', 'RST', 'PSH', 'ACK', 'URG', 'ECE', 'CWR'];
const ICMPV4 = {0: 'echo reply', 3: 'unreachable', 5: 'redirect', 8: 'echo request', 11: 'time exceeded', 12: 'parameter problem'};
const UNREACHABLE = {0: 'net', 1: 'host', 2: 'protocol', 3: 'port', 4: 'fragmentation needed'};
const ICMPV6 = {1: 'unreachable', 2: 'packet too big', 3: 'time exceeded', 4: 'parameter problem', 128: 'echo request', 129: 'echo reply',
                130: 'listener query', 131: 'listener report', 133: 'router solicitation', 134: 'router advertisement',
                135: 'neighbor solicitation', 136: 'neighbor advertisement', 137: 'redirect', 143: 'listener report v2'};
const EXTENSIONS = [0, 43, 60];

// What is thrown where a frame ends too early, or has no sense.
class Cut extends Error {}

export function bytesOfHex(hex) {
    if (hex.length % 2 || /[^0-9a-fA-F]/.test(hex)) throw new Cut('no pairs of hex digits');
    const found = new Uint8Array(hex.length / 2);
    for (let k = 0; k < found.length; k++) found[k] = parseInt(hex.slice(2 * k, 2 * k + 2), 16);
    return found;
}

export function hexOf(bytes, between = '') {
    return Array.from(bytes, (byte) => byte.toString(16).padStart(2, '0')).join(between);
}

function u8(data, at) {
    if (at >= data.length) throw new Cut('too short');
    return data[at];
}

function u16(data, at) {
    return u8(data, at) * 256 + u8(data, at + 1);
}

function u32(data, at) {
    return u16(data, at) * 65536 + u16(data, at + 2);
}

// An address of IPv6 as RFC 5952 has it.
function ipv6Text(data) {
    const groups = Array.from({length: 8}, (_, k) => u16(data, 2 * k));
    let first = -1, most = 1;
    for (let k = 0; k < 8; k++) {
        let length = 0;
        while (k + length < 8 && groups[k + length] === 0) length++;
        if (length > most) [first, most] = [k, length];
    }
    const words = groups.map((group) => group.toString(16));
    return first < 0 ? words.join(':') : `${words.slice(0, first).join(':')}::${words.slice(first + most).join(':')}`;
}

function address(data, at, size) {
    if (data.length < at + size) throw new Cut('too short');
    const part = data.subarray(at, at + size);
    return size === 4 ? part.join('.') : ipv6Text(part);
}

// Both ends of a packet as a key of maps.
export function keyOf(ends) {
    return ends.map((end) => `${end.address} ${end.port}`).join(' ');
}

export function turned(ends) {
    return [ends[1], ends[0]];
}

// What a frame says: in words; of TCP the segment; both ends; of a resolution ("asks", "answers") and the address; of an error the packet in it.
function seen(text, more = {}) {
    return {text, tcp: null, ends: null, resolves: null, quoted: null, fragment: null, ...more};
}

// The IP packet of a frame, or null.
export function packetOf(frame, medium) {
    if (medium !== 'eth') return frame;
    const kind = frame.length >= 14 ? u16(frame, 12) : 0;
    return kind === 0x800 || kind === 0x86dd ? frame.subarray(14) : null;
}

// Reads frames in the order in which they were sent, and so knows each side's SYN.
export class Decoder {
    constructor(medium) {
        this.medium = medium;
        this.first = new Map();
        this.scale = new Map();
    }

    // What a frame of a host says. `learn` is false for bytes that no host sent.
    see(frame, learn = true) {
        try {
            return this.frame(frame, learn);
        } catch (error) {
            if (error instanceof Cut) return seen('no whole packet');
            throw error;
        }
    }

    frame(frame, learn) {
        if (this.medium === 'eth') {
            const kind = u16(frame, 12);
            if (kind === 0x806) return arp(frame.subarray(14));
            if (kind !== 0x800 && kind !== 0x86dd) return seen(`Ethernet, EtherType ${kind.toString(16).padStart(4, '0')}, ${frame.length - 14} bytes`);
        }
        const packet = packetOf(frame, this.medium);
        return u8(packet, 0) >> 4 === 4 ? this.ipv4(packet, learn) : this.ipv6(packet, learn);
    }

    ipv4(packet, learn) {
        const length = (u8(packet, 0) & 15) * 4, total = u16(packet, 2), field = u16(packet, 6);
        const source = address(packet, 12, 4), to = address(packet, 16, 4);
        if (length < 20 || total < length || total > packet.length) throw new Cut('lengths');
        if (field & 0x3fff) {
            const at = (field & 0x1fff) * 8, more = Boolean(field & 0x2000), id = u16(packet, 4);
            return seen(`fragment id=${id} off=${at} Len=${total - length} ${more ? 'more' : 'last'}`, {fragment: [id, at, total - length, more]});
        }
        return this.payload(packet[9], source, to, packet.subarray(length, total), '', learn);
    }

    ipv6(packet, learn) {
        if (u8(packet, 0) >> 4 !== 6) throw new Cut('version');
        const source = address(packet, 8, 16), to = address(packet, 24, 16);
        let kind = packet[6], payload = packet.subarray(40, 40 + u16(packet, 4));
        while (EXTENSIONS.includes(kind)) [kind, payload] = [u8(payload, 0), payload.subarray(8 + u8(payload, 1) * 8)];
        if (kind === 44) {
            const field = u16(payload, 2), at = field & 0xfff8, more = Boolean(field & 1), id = u32(payload, 4);
            return seen(`fragment id=${id} off=${at} Len=${payload.length - 8} ${more ? 'more' : 'last'}`, {fragment: [id, at, payload.length - 8, more]});
        }
        return this.payload(kind, source, to, payload, '/IPv6', learn);
    }

    payload(kind, source, to, data, over, learn) {
        if (kind === 6) return this.segment(data, source, to, learn, `TCP${over}`);
        if (kind === 17) {
            const ports = [u16(data, 0), u16(data, 2)];
            const ends = [{address: source, port: ports[0]}, {address: to, port: ports[1]}];
            return seen(`UDP${over} ${ports[0]} > ${ports[1]} Len=${data.length - 8}`, {ends});
        }
        if (kind === 1) return icmpv4(data);
        if (kind === 58) return icmpv6(data);
        return seen(`IP protocol ${kind}, ${data.length} bytes, from ${source} to ${to}`);
    }

    segment(data, source, to, learn, name) {
        const flags = u8(data, 13), header = (data[12] >> 4) * 4;
        if (header < 20 || header > data.length) throw new Cut('header');
        const ends = [{address: source, port: u16(data, 0)}, {address: to, port: u16(data, 2)}];
        const it = {seq: u32(data, 4), ack: u32(data, 8), flags, window: u16(data, 14), length: data.length - header, options: [], sacks: []};
        const [options, shift] = tcpOptions(data.subarray(20, header));
        const there = keyOf(ends), back = keyOf(turned(ends));
        if (flags & SYN && learn) {
            this.first.set(there, it.seq);
            this.scale.set(there, shift);
        }
        it.seqRel = this.relative(there, it.seq);
        it.ackRel = this.relative(back, it.ack);
        // The relative number after the last that it takes: SYN and FIN take one each.
        it.end = it.seqRel + it.length + (flags & SYN ? 1 : 0) + (flags & FIN ? 1 : 0);
        if (!(flags & SYN) && (this.scale.get(there) ?? null) !== null && (this.scale.get(back) ?? null) !== null) {
            it.window <<= Math.min(14, this.scale.get(there));
        }
        for (const [kind, value] of options) {
            if (kind === 'SACK') {
                it.sacks = value.map(([left, right]) => [this.relative(back, left), this.relative(back, right)]);
                it.options.push(...it.sacks.map(([left, right]) => `SLE=${left} SRE=${right}`));
            } else {
                it.options.push(value);
            }
        }
        return seen(`${name} ${ends[0].port} > ${ends[1].port} ${wordsOf(it)}`, {tcp: it, ends});
    }

    relative(key, number) {
        return this.first.has(key) ? (number - this.first.get(key)) >>> 0 : number;
    }
}

function wordsOf(it) {
    const flags = FLAGS.filter((_, bit) => it.flags >> bit & 1).join(', ');
    const ack = it.flags & ACK ? ` Ack=${it.ackRel}` : '';
    return `[${flags}] Seq=${it.seqRel}${ack} Win=${it.window} Len=${it.length}${it.options.map((option) => ` ${option}`).join('')}`;
}

// The options, each a pair of its name and text or numbers, and the shift of the window scale option.
function tcpOptions(data) {
    const found = [];
    let shift = null, at = 0;
    while (at < data.length && data[at]) {
        const kind = data[at];
        if (kind === 1) {
            at += 1;
            continue;
        }
        const length = at + 1 < data.length ? data[at + 1] : 0;
        const value = data.subarray(at + 2, Math.max(at + 2, at + length));
        if (length < 2 || value.length !== length - 2) return [[...found, ['?', 'an option that is cut short']], shift];
        if (kind === 3 && length === 3) shift = value[0];
        found.push(tcpOption(kind, value));
        at += length;
    }
    return [found, shift];
}

function tcpOption(kind, value) {
    const size = value.length;
    if (kind === 2 && size === 2) return ['MSS', `MSS=${u16(value, 0)}`];
    if (kind === 3 && size === 1) return ['WS', `WS=${1 << Math.min(14, value[0])}`];
    if (kind === 4 && size === 0) return ['SACK_PERM', 'SACK_PERM'];
    if (kind === 8 && size === 8) return ['TS', `TSval=${u32(value, 0)} TSecr=${u32(value, 4)}`];
    if (kind === 5 && size % 8 === 0) return ['SACK', Array.from({length: size / 8}, (_, k) => [u32(value, 8 * k), u32(value, 8 * k + 4)])];
    return ['?', `option ${kind}, ${size} bytes`];
}

function arp(data) {
    const kind = u16(data, 6), asker = address(data, 14, 4), target = address(data, 24, 4);
    if (kind === 1) return seen(`ARP who has ${target}? tell ${asker}`, {resolves: ['asks', target]});
    if (kind === 2) return seen(`ARP ${asker} is at ${hexOf(data.subarray(8, 14), '-')}`, {resolves: ['answers', asker]});
    return seen(`ARP operation ${kind}`);
}

function icmpv4(data) {
    const kind = u8(data, 0), code = u8(data, 1), name = ICMPV4[kind] ?? `type ${kind}`;
    if (kind === 3) return seen(`ICMP unreachable, ${UNREACHABLE[code] ?? `code ${code}`}`, {quoted: data.subarray(8)});
    if ([5, 11, 12].includes(kind)) return seen(`ICMP ${name}, code ${code}`, {quoted: data.subarray(8)});
    if (kind === 0 || kind === 8) return seen(`ICMP ${name} id=${u16(data, 4)} seq=${u16(data, 6)} Len=${data.length - 8}`);
    return seen(`ICMP ${name}, ${data.length} bytes`);
}

function icmpv6(data) {
    const kind = u8(data, 0), code = u8(data, 1), name = ICMPV6[kind] ?? `type ${kind}`;
    if (kind < 128) return seen(`ICMPv6 ${name}, code ${code}`, {quoted: data.subarray(8)});
    if (kind === 128 || kind === 129) return seen(`ICMPv6 ${name} id=${u16(data, 4)} seq=${u16(data, 6)} Len=${data.length - 8}`);
    if (kind === 135 || kind === 136) {
        const target = address(data, 8, 16);
        return seen(`ICMPv6 ${name} ${target}`, {resolves: [kind === 135 ? 'asks' : 'answers', target]});
    }
    return seen(`ICMPv6 ${name}, ${data.length} bytes`);
}
