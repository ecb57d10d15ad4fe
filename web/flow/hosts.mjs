// What each host is doing: its sockets' states, its connections' numbers, and why it waits. As tools/flow/hosts.py. States and moments are the
// simulator's answers; the reason of a wait is the one whose moment is the one answered, or else the one that the frames leave.
import {keyOf, turned} from './frames.mjs';
import {bytesText, number} from './play.mjs';
import {Connection, NEIGHBOR, When, timers} from './tcp.mjs';

// A neighbor that doesn't answer so many requests is given up, and what is for it is dropped.
export const MOST_REQUESTS = 3;

// The address of an endpoint in a script, as frames name it.
function addressOf(endpoint) {
    const words = endpoint.slice(0, Math.max(endpoint.lastIndexOf(':'), 0));
    return /^\d+(\.\d+){3}$/.test(words) ? words.split('.').map(Number).join('.') : words.replace(/^[[\]]+|[[\]]+$/g, '');
}

// The receive buffers of the TCP sockets, by host and socket.
export function buffersOf(run) {
    const found = {A: new Map(), B: new Map()}, count = {A: 0, B: 0};
    for (const words of run.header.map((line) => line.split(' '))) {
        if (words[0] !== 'socket' || words.length < 4 || !(words[1] in count)) continue;
        if (words[2] === 'tcp') found[words[1]].set(count[words[1]], number(words[3]));
        count[words[1]] += 1;
    }
    return found;
}

// A host as the run goes on. `buffers` has the receive buffers of its TCP sockets.
export class Host {
    constructor(name, buffers) {
        Object.assign(this, {name, buffers, readers: new Set(), aborted: new Set(), connections: new Map(), states: new Map(), local: new Map(), queued: new Map(), read: new Map(), finished: new Set(),
                             asked: new Map(), requests: new Map(), remote: new Map(), datagrams: [], router: null, silent: new Map(), wake: null, waiting: null, longest: null, told: null, shown: new Map()});
    }

    connection(ends) {
        const key = keyOf(ends);
        if (!this.connections.has(key)) this.connections.set(key, new Connection(ends));
        return this.connections.get(key);
    }

    onSent(frame) {
        const seen = frame.seen;
        if (seen.tcp) {
            if (seen.tcp.flags & 2 && !(seen.tcp.flags & 16) && frame.repeats === null) this.connections.delete(keyOf(seen.ends));
            this.connection(seen.ends).onSent(frame);
        }
        else if (seen.ends && this.datagrams.includes(seen.ends[1].address)) this.datagrams.splice(this.datagrams.indexOf(seen.ends[1].address), 1);
        if (seen.resolves?.[0] === 'asks') {
            const address = seen.resolves[1];
            this.asked.set(address, frame.moment);
            this.requests.set(address, (this.requests.get(address) ?? 0) % MOST_REQUESTS + 1);
        }
    }

    onTaken(handing, moment) {
        const seen = handing.seen;
        if (handing.kind === 'damage' || handing.isUnsure) return;
        if (seen.tcp && handing.kind !== 'noise') this.connection(turned(seen.ends)).onTaken(handing, moment);
        if (seen.resolves?.[0] === 'answers') for (const map of [this.asked, this.requests]) map.delete(seen.resolves[1]);
    }

    // Keeps ports, bytes accepted and bytes read of a call.
    onCall(words, said) {
        const socket = words.length > 2 ? number(words[2]) : null;
        const add = (map, count) => map.set(socket, (map.get(socket) ?? 0) + count);
        if (words[0] === 'recv') this.readers.add(socket);
        if (words[0] === 'abort' && said === 'ok') this.aborted.add(socket);
        if (words[0] === 'connect' && said === 'ok') {
            this.local.set(socket, number(words[4]));
            this.remote.set(socket, addressOf(words[3]));
        } else if (words[0] === 'sendto' && said === 'ok') this.datagrams.push(addressOf(words[3]));
        else if (words[0] === 'route' && said === 'ok') this.router = words[2];
        else if (['listen', 'bind'].includes(words[0]) && said === 'ok') this.local.set(socket, number(words[3].split(':').at(-1)));
        else if (words[0] === 'send' && said.startsWith('ok ')) add(this.queued, Number(said.split(' ')[1]));
        else if (words[0] === 'recv' && said.startsWith('data ')) add(this.read, said.split(' ')[1].replaceAll('-', '').length / 2);
        else if (words[0] === 'recv' && said === 'error Finished') this.finished.add(socket);
    }

    socketOf(port) {
        for (const [socket, local] of this.local) if (local === port) return socket;
        return null;
    }

    queuedOf(connection) {
        return this.queued.get(this.socketOf(connection.ends[0].port)) ?? 0;
    }

    // The state of the one socket at a local port, or null.
    stateOf(port) {
        const found = [...this.local].filter(([, local]) => local === port).map(([socket]) => this.states.get(socket) ?? null);
        return found.length === 1 ? found[0] : null;
    }

    // How many bytes wait in the socket to be read.
    unread(connection) {
        return Math.max(connection.accepted() - (this.read.get(this.socketOf(connection.ends[0].port)) ?? 0), 0);
    }

    // Of its receive buffer the size, how much is free, and from how much on more is announced; or null.
    space(connection) {
        const size = this.buffers.get(this.socketOf(connection.ends[0].port)) ?? null;
        return size === null ? null : [size, size - this.unread(connection), Math.min(Math.floor((size + 1) / 2), connection.ownMss)];
    }

    // Why it announces no space: what is free of its buffer, and from where on that is announced.
    whyNoSpace(connection) {
        const [size, free, least] = this.space(connection) ?? [0, 0, 0];
        if (free === size || free >= least && least > 0) return '';
        if (free <= 0) return `${this.name}'s socket is full, with ${bytesText(size - free)} to be read`;
        return `${free} of ${size} bytes are free in ${this.name}'s socket, which announces space from ${least} on, or when all is read`;
    }

    // The neighbors that didn't answer, and aren't asked any more.
    givenUp(now) {
        return [...this.requests].filter(([address, count]) => count === MOST_REQUESTS && now >= this.asked.get(address) + NEIGHBOR).map(([it]) => it);
    }

    // Those that are told of for the first time since they were asked.
    newlyGivenUp(now) {
        const found = this.givenUp(now).filter((address) => this.silent.get(address)?.[0] !== this.asked.get(address));
        for (const address of found) this.silent.set(address, [this.asked.get(address), [...this.silent.get(address)?.[1] ?? [], now]]);
        this.datagrams = this.datagrams.filter((address) => !found.includes(address));
        return found;
    }

    // Which neighbors the host may wait for: each asked one, or where nothing is for that one, one that it may ask next.
    resolving(now) {
        const silent = this.givenUp(now), waiting = this.datagrams.filter((address) => !silent.includes(address));
        return [...this.asked].map(([address, at]) => {
            const isNext = waiting.length && ![...waiting, ...this.remote.values(), this.router].includes(address);
            return isNext ? [at + NEIGHBOR, `resolves ${waiting[0]}`, `requests go a second apart, and ${address} was asked last`]
                : [at + NEIGHBOR, `resolves ${address}`, 'no answer yet'];
        });
    }

    // Of a SYN that never was on the link, when it goes again: as with `timers`.
    unsent(now) {
        const ports = [...this.connections.values()].map((it) => it.ends[0].port), silent = this.givenUp(now), found = [];
        for (const [socket, remote] of this.remote) {
            const hop = silent.includes(remote) ? remote : this.router;
            if (this.states.get(socket) === 'SYN-SENT' && !ports.includes(this.local.get(socket)) && silent.includes(hop)) {
                found.push([null, 'retransmission timer', `the SYN was dropped, as ${hop} did not answer ${MOST_REQUESTS} requests`]);
            }
        }
        return found;
    }

    // Whether what it is told now ends a wait, the longest so far.
    endsLongest(wake, now) {
        if (!this.waiting || this.waiting[1] === wake) return false;
        return now - this.waiting[0] > (this.longest ? this.longest[1] - this.longest[0] : 0n);
    }

    // Keeps the wait for a moment: where it began, the moment, and where it was last told of.
    onWake(wake, now) {
        if (this.waiting && this.waiting[1] !== wake) this.waiting = null;
        if (wake !== null && wake > now) this.waiting = [this.waiting?.[0] ?? now, wake, now];
    }

    // What it has to send at once, as far as calls and frames say.
    toSend() {
        const found = [];
        for (const connection of this.connections.values()) {
            const unsent = this.queuedOf(connection) + 1 - connection.nxt, inFlight = connection.nxt - connection.una;
            const mayGo = inFlight === 0 || unsent >= connection.peerMss;
            if (unsent > 0 && mayGo && (connection.allowed ?? 0) > inFlight) found.push(bytesText(unsent));
            if (connection.inOrder > connection.ackSent) found.push(`Ack=${connection.inOrder}`);
            const [, free, least] = this.space(connection) ?? [0, 0, 1];
            if (connection.edge && connection.inOrder + free >= connection.edge + least) found.push(`a window update to ${free}`);
        }
        return [...found, ...this.datagrams.map((address) => `a datagram to ${address}`)].join(', ');
    }

    // Why the host wants to be polled then, as a name and more words. `peer` is the other host.
    reason(wake, now, peerFrames, peer, row) {
        const found = [...this.resolving(now), ...this.unsent(now)];
        for (const connection of this.connections.values()) {
            const state = this.states.get(this.socketOf(connection.ends[0].port));
            found.push(...timers(connection, state, this.queuedOf(connection), peerFrames, peer, new When(row, now)));
        }
        const exact = found.find(([at]) => at === wake);
        if (exact) return exact.slice(1);
        if (wake <= now) return ['it has something to send', this.toSend()];
        return found.find(([at]) => at === null)?.slice(1) ?? ['a timer', 'that no frame tells of'];
    }
}
