// What a host knows of its TCP connections, as far as the frames that it sent and took and the answers to its calls say it. As tools/flow/tcp.py.
import {ACK, FIN, SYN, keyOf, turned} from './frames.mjs';

export const DELAYED_ACK = 10_000n, TIME_WAIT = 10_000_000n, NEIGHBOR = 1_000_000n;
// The longest segment where a SYN says none (RFC 9293, 3.7.1), and what the options of a segment take at most.
const NO_MSS = 536, OPTIONS = 40;

// One side of a connection, in relative numbers; `ends` has its own end first, `edge` is the right edge that it announced, `fin` the end of the
// peer's stream.
export class Connection {
    constructor(ends) {
        Object.assign(this, {ends, una: 0, nxt: 0, allowed: null, ackSent: 0, inOrder: 0, beyond: new Map(), heard: null, owedSince: null,
                             unacknowledged: [], sacked: [], edge: 0, fin: null, ownMss: NO_MSS, peerMss: NO_MSS});
    }

    onSent(frame) {
        const segment = frame.seen.tcp;
        this.nxt = Math.max(this.nxt, segment.end);
        if (segment.end > segment.seqRel) this.unacknowledged.push(frame);
        if (segment.flags & SYN) this.ownMss = mssOf(segment);
        if (segment.flags & ACK) {
            this.ackSent = segment.ackRel;
            this.edge = Math.max(this.edge, segment.ackRel + segment.window);
            this.owedSince = this.inOrder > this.ackSent ? this.heard : null;
        }
    }

    onTaken(handing, moment) {
        const segment = handing.seen.tcp;
        this.heard = moment;
        if (segment.flags & SYN) this.peerMss = mssOf(segment);
        if (segment.flags & FIN) this.fin = segment.end;
        if (segment.flags & ACK && segment.ackRel <= this.nxt) {
            this.una = Math.max(this.una, segment.ackRel);
            this.allowed = segment.window;
            this.sacked = [...this.sacked, ...segment.sacks].filter(([, right]) => right > this.una);
            this.unacknowledged = this.unacknowledged.filter((frame) => frame.seen.tcp.end > this.una);
        }
        if (segment.end > segment.seqRel) {
            this.beyond.set(`${segment.seqRel} ${segment.end}`, [segment.seqRel, segment.end]);
            const ranges = [...this.beyond].sort(([, a], [, b]) => a[0] - b[0] || a[1] - b[1]);
            for (const [, [left, right]] of ranges) this.inOrder = left <= this.inOrder ? Math.max(this.inOrder, right) : this.inOrder;
            this.beyond = new Map(ranges.filter(([, [, right]]) => right > this.inOrder));
        }
        if (this.inOrder > this.ackSent) this.owedSince ??= moment;
    }

    // How many bytes of the peer's stream came in order, inside of what was announced.
    accepted() {
        const count = Math.min(this.inOrder, this.edge);
        return Math.max(count - 1 - (this.fin !== null && count >= this.fin ? 1 : 0), 0);
    }

    // The numbers as a text. `queued` are all bytes that the user wrote.
    numbers(queued) {
        let words = `snd ${this.una}:${this.nxt}`;
        if (queued && queued + 1 > this.nxt) words += ` of ${queued + 1}`;
        if (this.allowed !== null) words += `, peer's window ${this.allowed}`;
        if (this.heard !== null) words += ` | rcv ${this.inOrder}` + (this.beyond.size ? `, ${this.beyond.size} out of order` : '');
        return words;
    }
}

// The MSS that a SYN announces.
function mssOf(segment) {
    const found = segment.options.find((option) => option.startsWith('MSS='));
    return found ? Number(found.slice(4)) : NO_MSS;
}

// Frames by their numbers: three or more that follow one another are a range.
export function listed(numbers) {
    const ranges = [];
    for (const number of numbers) {
        if (ranges.length && number === ranges.at(-1)[1] + 1) ranges.at(-1)[1] = number;
        else ranges.push([number, number]);
    }
    return ranges.map(([first, last]) => last - first > 1 ? `#${first} to #${last}` : last > first ? `#${first}, #${last}` : `#${first}`).join(', ');
}

// The end of a row, and the moment then.
export class When {
    constructor(row, moment) {
        Object.assign(this, {row, moment});
    }

    // What had become of a frame, of which the SACK ranges that came may tell.
    fate(frame, sacked = []) {
        const fate = frame.fateAt(this.row, this.moment), segment = frame.seen.tcp;
        const isSacked = sacked.some(([left, right]) => left <= segment.seqRel && segment.end <= right);
        return fate === 'received' && isSacked ? 'received and SACKed' : fate;
    }

    // What became of frames, those of one fate together: pairs of their names and the fate.
    fates(frames, sacked = []) {
        const found = new Map();
        for (const frame of frames) {
            const fate = this.fate(frame, sacked);
            found.set(fate, [...found.get(fate) ?? [], frame.number]);
        }
        return [...found].map(([fate, numbers]) => [listed(numbers), fate]);
    }

    // The same as a text.
    told(frames) {
        return this.fates(frames).map(([names, fate]) => `${names} (${fate})`).join(', ');
    }
}

// What a segment has, in words.
function nameOf(left, right, {seen: {tcp: {flags, length}}}) {
    return flags & SYN ? 'SYN' : flags & FIN && !length ? 'FIN' : `Seq ${left}:${right}`;
}

// Whether a segment behind a range is told of with it: both are text, went once, and the same became of them.
function isFurther([left, right, frames], frame, fate) {
    const wentOnce = new Set(frames.map((it) => it.seen.tcp.seqRel)).size === frames.length;
    const isText = nameOf(left, right, frames[0]) !== 'SYN' && nameOf(right, right, frame) !== 'FIN';
    return isText && wentOnce && fate(frames[0]) === fate(frame);
}

// Segments by what they have: triples of the numbers and the frames. Neighbours that went once, and of which the same became, are one.
function rangesOf(frames, fate) {
    const found = [];
    const numbers = ({seen: {tcp}, number}) => [tcp.seqRel, tcp.end, number];
    const sorted = [...frames].sort((one, other) => {
        const [a, b] = [numbers(one), numbers(other)], k = a.findIndex((it, at) => it !== b[at]);
        return k < 0 ? 0 : a[k] - b[k];
    });
    for (const frame of sorted) {
        const {seqRel: left, end: right} = frame.seen.tcp, last = found.at(-1);
        if (last && last[0] === left && last[1] === right) {
            last[2].push(frame);
        } else if (last && last[1] === left && isFurther(last, frame, fate)) {
            last[1] = right;
            last[2].push(frame);
        } else {
            found.push([left, right, [frame]]);
        }
    }
    return found;
}

// Segments of the peer that hadn't arrived, among its last 64, of which `isSought` is true.
function untaken(connection, peerFrames, when, isSought) {
    const ends = keyOf(turned(connection.ends));
    return peerFrames.filter((frame) => frame.row <= when.row).slice(-64).filter(({seen, taken}) => seen.tcp && keyOf(seen.ends) === ends &&
        seen.tcp.flags & ACK && isSought(seen.tcp) && !taken.some((handing) => handing.taken <= when.row));
}

// What isn't acknowledged and what became of it, and of the acknowledgements of it.
function whyUnacknowledged(connection, peerFrames, when) {
    const told = rangesOf(connection.unacknowledged, (frame) => when.fate(frame, connection.sacked)).map(([left, right, frames]) =>
        `${nameOf(left, right, frames[0])} (${when.fates(frames, connection.sacked).map((pair) => pair.join(' ')).join(', ')})`);
    const acks = untaken(connection, peerFrames, when, (segment) => segment.ackRel > connection.una);
    return `no ACK yet of ${told.join('; ')}${acks.length ? `; ${acks[0].host} sent it in ${when.told(acks)}` : ''}`;
}

// Which bytes wait with those that aren't acknowledged, and whether the window or Nagle's rule keeps them.
function whyUnsent(connection, state, unsent) {
    const inFlight = connection.nxt - connection.una, allowed = connection.allowed ?? 0;
    if (unsent <= 0 || inFlight <= 0) return '';
    if (inFlight + Math.min(unsent, connection.peerMss) > allowed) return `; ${unsent} more unsent: the peer's window is ${allowed}`;
    const isShort = unsent <= connection.peerMss - OPTIONS && ['ESTABLISHED', 'CLOSE-WAIT'].includes(state);
    return `; ${unsent} more unsent${isShort ? ": less than a segment, which waits for that ACK (Nagle's rule)" : ''}`;
}

// Why nothing goes into a window of 0.
function whyClosed(connection, unsent, peerFrames, peer, when) {
    const words = `the peer's window is 0, ${Math.max(unsent, 0)} unsent`, reached = Math.max(connection.una, connection.nxt);
    const updates = untaken(connection, peerFrames, when, (segment) => segment.ackRel + segment.window > reached);
    if (updates.length) return `${words}; ${updates[0].host} announced space in ${when.told(updates)}`;
    const there = peer.connections.get(keyOf(turned(connection.ends))), why = there ? peer.whyNoSpace(there) : '';
    return words + (why ? `; ${why}` : '');
}

// Why a connection may want to be polled: triples of a moment, null where it isn't known, a name and more words.
export function timers(connection, state, queued, peerFrames, peer, when) {
    const found = [];
    if (state === 'TIME-WAIT' && connection.heard !== null) found.push([connection.heard + TIME_WAIT, 'TIME-WAIT ends', '']);
    if (connection.owedSince !== null && connection.inOrder > connection.ackSent) {
        found.push([connection.owedSince + DELAYED_ACK, 'delayed ACK', `Ack=${connection.inOrder} is owed`]);
    }
    const unsent = queued + 1 - connection.nxt;
    if (connection.allowed === 0 && (unsent > 0 || connection.nxt > connection.una)) {
        found.push([null, 'zero-window probe', whyClosed(connection, unsent, peerFrames, peer, when)]);
    } else if (connection.nxt > connection.una && state !== 'TIME-WAIT' && state !== 'CLOSED') {
        found.push([null, 'retransmission timer', whyUnacknowledged(connection, peerFrames, when) + whyUnsent(connection, state, unsent)]);
    }
    return found;
}
