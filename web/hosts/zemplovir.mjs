// A host for JavaScript: the library's calls (c/zemplovir.h) in a WebAssembly module with a 64-bit memory.
//
//     const library = await Library.of(bytes);
//     const host = new Host(library, {hardware: [2, 0, 0, 0, 0, 1]}, now);
//     host.addAddress('10.9.0.1', 24);
//     const listener = host.listen(7), socket = host.connect('10.9.0.2', 7, 49152);
//
// Frames go in by `frameIn` and come out by `frameOut`; `poll` lets the host work, and `pollAt` says when it wants to be polled next. Instants are
// microseconds. Addresses are texts of IPv4, or of IPv6 with all its colons' parts or one `::`.

// A module of nothing but a 64-bit memory: valid where such memories are there.
const PROBE = Uint8Array.of(0, 0x61, 0x73, 0x6d, 1, 0, 0, 0, 5, 3, 1, 4, 0);

const EMPTY = 10, FINISHED = 12, INVALID_STATE = 7;
const NAMES = ['done', 'no host', 'a host already', 'out of memory', 'bad argument', 'no socket', 'a socket of another kind', 'invalid state', 'unaddressable',
    'no room', 'nothing waits', 'datagram longer than the buffer', 'the stream is read to its end', 'buffer too short', 'too long', 'table full', 'not found',
    'another medium', 'not the address of one host', 'MTU out of range', 'moment out of range', 'no listener', 'a listener has the socket', 'no client',
    'no answer yet', 'name too long', 'invalid name', 'no address was found', 'no server answered'];
export const STATES = ['CLOSED', 'LISTEN', 'SYN-SENT', 'SYN-RECEIVED', 'ESTABLISHED', 'FIN-WAIT-1', 'FIN-WAIT-2', 'CLOSE-WAIT', 'CLOSING', 'LAST-ACK', 'TIME-WAIT'];
const NEVER = 2n ** 63n - 1n;
// Where the parts of C's structs lie.
const ADDRESS = 17, ENDPOINT = 20, PORT = 18, SETTINGS = 80;
// The longest frame, and the longest datagram.
const LONGEST = 65549;
const ROOM = 65536;

// Why there can be no host here, or null.
export function whyNot() {
    if (typeof WebAssembly !== 'object') return 'This browser has no WebAssembly.';
    if (!WebAssembly.validate(PROBE)) {
        return 'This browser has no 64-bit WebAssembly memories (Memory64), which the stack needs. Chrome has them from 133 on and Firefox from 134 on.';
    }
    return null;
}

// A call was refused: `code` is the number that C gets.
export class Refused extends Error {
    constructor(call, code) {
        super(`${call}: ${NAMES[code] ?? code}`);
        this.code = code;
    }
}

function partsOf(text) {
    return text === '' ? [] : text.split(':').map((part) => {
        if (!/^[0-9a-f]{1,4}$/i.test(part)) throw new TypeError(`no address: ${text}`);
        return parseInt(part, 16);
    });
}

// The bytes of an address: 4 or 16.
export function bytesOf(text) {
    if (/^\d+\.\d+\.\d+\.\d+$/.test(text)) {
        const bytes = text.split('.').map(Number);
        if (bytes.some((byte) => byte > 255)) throw new TypeError(`no address: ${text}`);
        return Uint8Array.from(bytes);
    }
    const sides = text.split('::');
    const [front, back] = [partsOf(sides[0]), partsOf(sides[1] ?? '')];
    const parts = sides.length === 2 ? [...front, ...Array(Math.max(0, 8 - front.length - back.length)).fill(0), ...back] : front;
    if (sides.length > 2 || parts.length !== 8) throw new TypeError(`no address: ${text}`);
    return Uint8Array.from(parts.flatMap((part) => [part >> 8, part & 255]));
}

// The text of an address, or null for none.
export function textOf(family, bytes) {
    if (family === 4) return Array.from(bytes.subarray(0, 4)).join('.');
    if (family !== 6) return null;
    return Array.from({length: 8}, (_, k) => (bytes[2 * k] * 256 + bytes[2 * k + 1]).toString(16)).join(':');
}

// The module, with one memory for all of its hosts.
export class Library {
    static async of(bytes) {
        const {instance} = await WebAssembly.instantiate(bytes, {});
        return new Library(instance.exports);
    }

    constructor(exports) {
        this.exports = exports;
        // What calls write their answers to: a number of eight bytes, two endpoints, and bytes.
        this.number = this.room(8);
        this.first = this.room(ENDPOINT);
        this.second = this.room(ENDPOINT);
        this.bytes = this.room(ROOM * 2);
    }

    room(size) {
        const at = this.exports.malloc(BigInt(size));
        if (at === 0n) throw new Error('out of memory');
        this.view(at, size).fill(0);
        return at;
    }

    // The bytes at a place. The memory may have grown, so no view is kept.
    view(at, size) {
        return new Uint8Array(this.exports.memory.buffer, Number(at), size);
    }

    data(at, size) {
        return new DataView(this.exports.memory.buffer, Number(at), size);
    }

    // Calls, and throws where it is refused with a code that isn't among those that the caller expects.
    call(name, expected, ...words) {
        const code = this.exports[name](...words);
        if (code !== 0 && !expected.includes(code)) throw new Refused(name, code);
        return code;
    }

    // The number that the last call answered.
    answer() {
        return this.data(this.number, 8).getBigUint64(0, true);
    }

    // Bytes where a call reads them: more than lie ready get a place of their own.
    lend(bytes, use) {
        if (bytes.length <= ROOM) {
            this.view(this.bytes, bytes.length).set(bytes);
            return use(this.bytes);
        }
        const at = this.room(bytes.length);
        try {
            this.view(at, bytes.length).set(bytes);
            return use(at);
        } finally {
            this.exports.free(at);
        }
    }

    // A copy of bytes that a call wrote.
    copy(at, size) {
        return this.view(at, size).slice();
    }

    putAddress(at, text) {
        const it = this.view(at, ADDRESS).fill(0);
        if (text === null) return at;
        const bytes = bytesOf(text);
        it[0] = bytes.length === 4 ? 4 : 6;
        it.set(bytes, 1);
        return at;
    }

    putEndpoint(at, {address, port}) {
        this.putAddress(at, address);
        this.data(at, ENDPOINT).setUint16(PORT, port, true);
        return at;
    }

    addressAt(at) {
        const it = this.view(at, ADDRESS);
        return textOf(it[0], it.subarray(1));
    }

    endpointAt(at) {
        return {address: this.addressAt(at), port: this.data(at, ENDPOINT).getUint16(PORT, true)};
    }
}

function randomBytes(count) {
    return crypto.getRandomValues(new Uint8Array(count));
}

// A host on a link of Ethernet frames, or of IP packets.
export class Host {
    // hardware: six bytes, on Ethernet alone; mtu: bytes of the longest frame; frames: how many may wait each way. The seed and the key of first
    // sequence numbers are the browser's random words.
    constructor(library, {medium = 'ethernet', hardware = [2, 0, 0, 0, 0, 1], mtu = 1514, frames = 256, seed = null} = {}, now = 0) {
        this.library = library;
        this.handle = library.room(8);
        const at = library.bytes, bytes = library.view(at, SETTINGS).fill(0), data = library.data(at, SETTINGS);
        bytes[0] = medium === 'ethernet' ? 1 : 2;
        if (medium === 'ethernet') bytes.set(hardware, 1);
        data.setBigUint64(8, BigInt(mtu), true);
        data.setBigUint64(16, seed ?? new DataView(randomBytes(8).buffer).getBigUint64(0), true);
        data.setBigUint64(24, BigInt(frames), true);
        bytes[32] = seed === null ? 1 : 0;
        bytes.set(randomBytes(16), 33);
        this.call('zv_host_new', [], at, BigInt(now));
    }

    call(name, expected, ...words) {
        return this.library.call(name, expected, this.handle, ...words);
    }

    // Gives its memory back.
    free() {
        this.call('zv_host_free', []);
        this.library.exports.free(this.handle);
    }

    addAddress(address, prefix) {
        this.call('zv_address_add', [], this.library.putAddress(this.library.first, address), prefix);
    }

    addRoute(network, prefix, router) {
        const {first, second} = this.library;
        this.call('zv_route_add', [], this.library.putAddress(first, network), prefix, this.library.putAddress(second, router));
    }

    // A frame comes, and waits for a poll.
    frameIn(frame) {
        this.library.lend(frame, (at) => this.call('zv_frame_in', [], at, BigInt(frame.length)));
    }

    // The next frame that is to go, or null.
    frameOut() {
        const {bytes, number} = this.library;
        if (this.call('zv_frame_out', [EMPTY], bytes, BigInt(LONGEST), number) === EMPTY) return null;
        return this.library.copy(bytes, Number(this.library.answer()));
    }

    // A frame as a line of text.
    traceLine(now, sent, frame) {
        return this.library.lend(frame, (at) => {
            const text = this.library.bytes + BigInt(ROOM);
            this.call('zv_trace_line', [], BigInt(now), sent ? 1 : 0, at, BigInt(frame.length), text, 400n, this.library.number);
            return new TextDecoder().decode(this.library.copy(text, Number(this.library.answer())));
        });
    }

    // Takes in what came, and sends what is to be sent. Whether a socket may have changed.
    poll(now, budget = 64) {
        this.call('zv_poll', [], BigInt(now), budget, this.library.number);
        return this.library.view(this.library.number, 1)[0] === 1;
    }

    // When it wants to be polled, or null for never.
    pollAt(now) {
        this.call('zv_poll_at', [], BigInt(now), this.library.number);
        const at = this.library.data(this.library.number, 8).getBigInt64(0, true);
        return at === NEVER ? null : Number(at);
    }

    // How many frames came, came and were refused, and went.
    counters() {
        const at = this.library.bytes;
        this.call('zv_counters', [], at);
        const data = this.library.data(at, 32);
        return {in: Number(data.getBigUint64(0, true)), dropped: Number(data.getBigUint64(8, true)), out: Number(data.getBigUint64(16, true))};
    }

    place() {
        return this.library.answer();
    }

    // A UDP socket at a port.
    udp(port, {packets = 16, bytes = 65536} = {}) {
        this.call('zv_udp_new', [], BigInt(packets), BigInt(bytes), this.library.number);
        const socket = new Udp(this, this.place());
        this.call('zv_udp_bind', [], socket.at, this.library.putAddress(this.library.first, null), port);
        return socket;
    }

    // A TCP socket, closed.
    tcp({received = 65536, queued = 65536} = {}) {
        this.call('zv_tcp_new', [], BigInt(received), BigInt(queued), this.library.number);
        return new Tcp(this, this.place());
    }

    // A connection to a port, from a port of its own: one from 49152 on, another each time.
    connect(address, port, from, room) {
        const socket = this.tcp(room), {first, second} = this.library;
        const [remote, local] = [this.library.putEndpoint(first, {address, port}), this.library.putAddress(second, null)];
        this.call('zv_tcp_connect', [], socket.at, remote, local, from);
        return socket;
    }

    // A listener at a port, with so many sockets for connections.
    listen(port, backlog = 4, room) {
        this.call('zv_listener_new', [], this.library.putAddress(this.library.first, null), port, this.library.number);
        const listener = new Listener(this, this.place());
        for (let k = 0; k < backlog; k++) this.call('zv_listener_add', [], listener.at, this.tcp(room).at);
        return listener;
    }
}

export class Udp {
    constructor(host, at) {
        this.host = host;
        this.at = at;
    }

    // Queues a datagram, which a poll sends.
    send(bytes, to) {
        const {library} = this.host;
        library.lend(bytes, (at) => {
            const [remote, local] = [library.putEndpoint(library.first, to), library.putAddress(library.second, null)];
            this.host.call('zv_udp_send', [], this.at, at, BigInt(bytes.length), remote, local);
        });
    }

    // The next datagram, where it came from, and the own address that it was sent to; or null.
    recv() {
        const {library} = this.host;
        const code = this.host.call('zv_udp_recv', [EMPTY], this.at, library.bytes, BigInt(ROOM), library.number, library.first, library.second);
        if (code === EMPTY) return null;
        return {bytes: library.copy(library.bytes, Number(library.answer())), from: library.endpointAt(library.first), to: library.addressAt(library.second)};
    }

    // The socket is no more.
    close() {
        this.host.call('zv_udp_close', [], this.at);
        this.host.call('zv_socket_remove', [], this.at);
    }
}

export class Listener {
    constructor(host, at) {
        this.host = host;
        this.at = at;
    }

    // The connection that has waited for longest, or null.
    accept() {
        const {library} = this.host;
        if (this.host.call('zv_listener_accept', [EMPTY], this.at, library.number) === EMPTY) return null;
        return new Tcp(this.host, library.answer());
    }

    // Takes a connection back that was closed or aborted, for another one once it has ended.
    giveBack(socket) {
        this.host.call('zv_listener_give_back', [], this.at, socket.at);
    }
}

export class Tcp {
    constructor(host, at) {
        this.host = host;
        this.at = at;
    }

    // Queues as many of the bytes as there is room for. How many they are.
    send(bytes) {
        const {library} = this.host;
        return library.lend(bytes, (at) => {
            this.host.call('zv_tcp_send', [], this.at, at, BigInt(bytes.length), library.number);
            return Number(library.answer());
        });
    }

    // The bytes that wait, none where nothing does; null at the end of the stream, or where the connection isn't open or has ended.
    recv() {
        const {library} = this.host;
        const code = this.host.call('zv_tcp_recv', [FINISHED, INVALID_STATE], this.at, library.bytes, BigInt(ROOM), library.number);
        return code === 0 ? library.copy(library.bytes, Number(library.answer())) : null;
    }

    get state() {
        this.host.call('zv_tcp_state', [], this.at, this.host.library.number);
        return STATES[this.host.library.view(this.host.library.number, 1)[0]];
    }

    // The remote's endpoint, or null.
    get peer() {
        const {library} = this.host;
        const code = this.host.call('zv_tcp_peer', [INVALID_STATE], this.at, library.first, library.second);
        return code === 0 ? library.endpointAt(library.second) : null;
    }

    // How many bytes wait to be read, and how many are queued.
    queues() {
        const {library} = this.host;
        this.host.call('zv_tcp_queues', [], this.at, library.first, library.number);
        return {received: Number(library.data(library.first, 8).getBigUint64(0, true)), queued: Number(library.answer())};
    }

    // How long the remote may be silent while something waits for it.
    setTimeout(micros) {
        this.host.call('zv_tcp_set_timeout', [], this.at, BigInt(micros));
    }

    // What is queued still goes, and then the end of the stream.
    close() {
        this.host.call('zv_tcp_close', [], this.at);
    }

    abort() {
        this.host.call('zv_tcp_abort', [], this.at);
    }

    // Gives the memory back of a connection that has ended.
    remove() {
        this.host.call('zv_socket_remove', [], this.at);
    }
}
