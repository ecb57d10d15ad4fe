// What became of each frame: which lines handed it over, and which poll took it. As tools/flow/history.py, for scripts of `lan`.
import {SYN, Decoder, bytesOfHex, keyOf, packetOf} from './frames.mjs';
import {OTHER, micros, number, seconds} from './play.mjs';

// A frame that a host sent, or a fragment that the link made of one (`parent`).
class Frame {
    constructor(host, number_, data, row, moment, seen, parent) {
        Object.assign(this, {host, number: number_, data, row, moment, seen, parent, cutAt: null, handings: [], repeats: null});
    }

    get name() {
        return `#${this.number}`;
    }

    get isLost() {
        return !this.handings.length && this.cutAt === null;
    }

    get taken() {
        return this.handings.filter((handing) => handing.taken !== null);
    }

    get fate() {
        if (this.isLost) return 'lost';
        if (this.cutAt !== null && !this.handings.length) return 'fragmented';
        return this.taken.length ? 'received' : `waits at ${OTHER[this.host]}'s device`;
    }

    // What had become of it when this row was over; of one under way then, when it is received.
    fateAt(row, moment) {
        const first = this.taken.reduce((one, other) => one && one.taken <= other.taken ? one : other, null);
        if (first === null || first.taken <= row) return this.fate;
        return `under way${first.moment > moment ? ` until ${seconds(first.moment)}` : ''}`;
    }
}

// Bytes that the link hands to a host: a frame's (`deliver`, `damage`), or bytes from nowhere (`noise`).
class Handing {
    constructor(kind, to, row, data, frame = null, seen = null, note = '') {
        Object.assign(this, {kind, to, row, data, frame, seen, note, isAgain: false, isLate: false, taken: null, moment: null, maybe: null});
        this.isAgain = frame !== null && frame.handings.length > 0;
    }

    get isUnsure() {
        return this.maybe !== null;
    }
}

function sameBytes(one, other) {
    return one.length === other.length && one.every((byte, k) => byte === other[k]);
}

// The frames and handings of a run, by the rows of its steps.
export class History {
    constructor(run) {
        this.run = run;
        this.steps = run.steps;
        this.decoder = new Decoder(run.medium);
        this.frames = {A: [], B: []};
        this.handings = [];
        this.waiting = {A: [], B: []};
        this.room = {A: null, B: null};
        this.latest = {A: -1, B: -1};
        this.moments = [];
        this.tops = new Map();
        const now = {A: 0n, B: 0n};
        run.steps.forEach((step, row) => {
            const words = step.words;
            if (['poll', 'pollat'].includes(words[0]) && words.length > 2) now[words[1]] = micros(words[2]) ?? 0n;
            this.moments.push(now[words[1] ?? ''] ?? (now.A > now.B ? now.A : now.B));
            this.takeStep(row, step, words);
        });
        this.momentsOf = now;
    }

    takeStep(row, step, words) {
        const room = this.room[words[1]] ?? null;
        for (const {host, number: count, data} of step.sent) this.send(row, host, count, data, words);
        if (words[0] === 'room' && step.said === 'ok') this.room[words[1]] = number(words[2]);
        else if (['deliver', 'damage'].includes(words[0]) && step.said === 'ok') this.handFrame(row, words);
        else if (words[0] === 'noise' && step.said === 'ok') this.hand(new Handing('noise', words[1], row, bytesOfHex(words[2].replaceAll('-', ''))));
        else if (words[0] === 'poll' && words[1] in OTHER) this.poll(row, words[1], number(words[3]), room);
    }

    send(row, host, count, data, words) {
        let parent = null;
        if (words[0] === 'cut') {
            parent = this.frames[words[1]][number(words[2])];
            parent.cutAt ??= row;
        } else if (this.room[host] !== null) {
            this.room[host] = Math.max(0, this.room[host] - 1);
        }
        const frame = new Frame(host, count, data, row, this.moments[row], this.decoder.see(data), parent);
        this.markRepeat(frame);
        this.quote(frame);
        this.frames[host].push(frame);
    }

    // Marks a segment whose numbers were sent before by this host.
    markRepeat(frame) {
        const segment = frame.seen.tcp;
        if (segment === null || segment.end === segment.seqRel) return;
        const ends = keyOf(frame.seen.ends), key = `${frame.host} ${ends}`, top = this.tops.get(key) ?? 0;
        this.tops.set(key, segment.flags & SYN ? segment.end : Math.max(top, segment.end));
        if (segment.seqRel >= top) return;
        frame.repeats = this.frames[frame.host].findLast((old) => {
            const before = old.seen.tcp;
            return before && keyOf(old.seen.ends) === ends && before.seqRel < segment.end && segment.seqRel < before.end;
        }) ?? null;
    }

    // Says which frame an error is about, by its number where the other host sent it.
    quote(frame) {
        const quoted = frame.seen.quoted;
        if (!quoted || quoted.length < 28) return;
        const found = this.frames[OTHER[frame.host]].findLast((old) => {
            const packet = packetOf(old.data, this.run.medium);
            return packet?.length && packet[0] === quoted[0] && sameBytes(packet.subarray(12, 28), quoted.subarray(12, 28)) &&
                sameBytes(packet.subarray(4, 6), quoted.subarray(4, 6));
        });
        if (found) frame.seen.text += `, for ${found.host} ${found.name}`;
    }

    handFrame(row, words) {
        const host = words[1], frame = this.frames[host][number(words[2])], notes = [];
        if (words[0] === 'damage') {
            const at = number(words[3]);
            notes.push(`damaged, TCP bytes ${at}-${at + 1}: ${words[4].toLowerCase()}`);
        }
        const padding = bytesOfHex(words.at(-1).replaceAll('-', ''));
        if (padding.length) notes.push(`+ ${padding.length} bytes of padding`);
        const data = padding.length ? Uint8Array.from([...frame.data, ...padding]) : frame.data;
        const handing = new Handing(words[0], OTHER[host], row, data, frame, frame.seen, notes.join(', '));
        handing.isLate = !handing.isAgain && frame.number < this.latest[host] && frame.parent === null;
        this.latest[host] = Math.max(this.latest[host], frame.number);
        frame.handings.push(handing);
        this.hand(handing);
    }

    hand(handing) {
        handing.seen ??= this.decoder.see(handing.data, false);
        this.handings.push(handing);
        this.waiting[handing.to].push(handing);
    }

    // The frames that a poll takes, in order; of those that it may have taken, where the device's room ran out, that it may.
    poll(row, host, budget, room) {
        const waiting = this.waiting[host], unsure = waiting.filter((handing) => handing.isUnsure).length;
        let sure = Math.min(budget, waiting.length);
        const most = Math.min(budget + unsure, waiting.length);
        if (room === 0) return;
        if (room !== null && this.room[host] === 0) sure = 0;
        for (const handing of waiting.slice(0, sure)) [handing.taken, handing.moment] = [row, this.moments[row]];
        for (const handing of waiting.slice(sure, most)) handing.maybe ??= row;
        waiting.splice(0, sure);
    }

    allFrames() {
        return [...this.frames.A, ...this.frames.B];
    }

    takenBy(row) {
        return this.handings.filter((handing) => handing.taken === row);
    }
}
