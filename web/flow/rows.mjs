// A row for each event: what stands beside each host's lane, and which frames leave there. As tools/flow/rows.py.
import {bytesOfHex, hexOf} from './frames.mjs';
import {Host, MOST_REQUESTS, buffersOf} from './hosts.mjs';
import {CALLS, OTHER, POLLS, bytesText, seconds} from './play.mjs';
import {cut} from './svg.mjs';
import {listed} from './tcp.mjs';

// A line beside a lane has so many characters at most.
export const BESIDE = 56;
// What a poll's answer says. A poll that took or sent something may have changed a socket: of it that isn't said.
const ANSWERS = {changed: 'a socket may have changed', none: 'no socket changed'};

// A reason in at most so many lines of a lane.
export function wrapped(words, lines = 3) {
    const found = [];
    for (const word of words.split(' ')) {
        if (found.length && found.at(-1).length + 1 + word.length <= 54) found.push(`${found.pop()} ${word}`);
        else found.push(word);
    }
    return found.length >= lines ? [...found.slice(0, lines - 1), cut(found.slice(lines - 1).join(' '), 56)] : found;
}

// Texts, each once, and how often where that is more than once.
export function times(words) {
    const found = new Map();
    for (const word of words) found.set(word, (found.get(word) ?? 0) + 1);
    return [...found].map(([word, count]) => count === 1 ? word : `${word} (${count} times)`);
}

// What a poll took: frames are named, damaged ones and noise behind them.
function takes(taken) {
    const isWhole = (handing) => handing.frame && handing.kind !== 'damage';
    const whole = listed(taken.filter(isWhole).map((handing) => handing.frame.number));
    const others = times(taken.filter((it) => !isWhole(it)).map(({frame, kind}) => frame ? `${frame.name} damaged` : kind));
    return [...whole ? [whole] : [], ...others].join(', ');
}

// A poll: what it took and sent, and what its answer says.
function pollText(row, took) {
    const said = row.step.said, name = `${row.step.words[0]}${row.moment !== row.now ? ` at ${seconds(row.moment)}` : ''}`, done = [];
    const unsure = row.taken.some((handing) => handing.isUnsure) ? ' or an earlier poll did' : '';
    if (took) done.push(`takes ${took}${unsure}`);
    if (row.sent.length) done.push(`sends ${listed(row.sent.map((frame) => frame.number))}`);
    return `${name} ${done.join(', ')}`.trimEnd() + (done.length && said === 'changed' ? '' : `: ${ANSWERS[said] ?? said}`);
}

// Bytes read: as text where they are printable, else in hex; 16 at most, and how many there are.
function dataText(word) {
    const data = bytesOfHex(word.replaceAll('-', '')), head = data.subarray(0, 16);
    if (!data.length) return '0 bytes';
    const shown = head.every((byte) => byte >= 32 && byte < 127) ? `"${String.fromCharCode(...head)}"` : hexOf(head);
    return `${bytesText(data.length)} ${shown}${data.length > 16 ? '…' : ''}`;
}

// A call and its answer, in short.
function callText(words, said) {
    let rest = words.slice(3);
    if (['send', 'sendraw'].includes(words[0]) && rest.length) rest = [dataText(rest[0])];
    else if (['sendto', 'sendicmp'].includes(words[0]) && rest.length > 1) rest = [rest[0], dataText(rest[1])];
    else if (words[0] === 'connect' && rest.length > 1) rest = [rest[0], 'from', rest[1]];
    const parts = said.split(' ');
    let told = said;
    if (said.startsWith('data ')) told = dataText(parts[1]);
    else if (said.startsWith('from ') && parts.length === 3) told = `from ${parts[1]} ${dataText(parts[2])}`;
    return [words[0], ...rest].join(' ') + (told === 'ok' ? '' : ` → ${told}`);
}

function isRefused(said) {
    return said.startsWith('error') || said.startsWith('refused');
}

function grouped(things, key) {
    const found = new Map();
    for (const thing of things) found.set(key(thing), [...found.get(key(thing)) ?? [], thing]);
    return found;
}

// The rows of a history, in order, and the hosts at the end. What stands beside a lane is a class, the words, and more words or null.
export class Rows {
    constructor(history) {
        this.history = history;
        const buffers = buffersOf(history.run);
        this.hosts = {A: new Host('A', buffers.A), B: new Host('B', buffers.B)};
        this.many = {};
        for (const name of 'AB') {
            this.many[name] = new Set(history.steps.flatMap((step) => step.states.filter((it) => it.host === name).map((it) => it.socket))).size > 1;
        }
        this.byRow = grouped(history.allFrames(), (frame) => frame.row);
        this.takenAt = grouped(history.handings, (handing) => handing.taken);
        this.handedAt = grouped(history.handings, (handing) => handing.row);
        this.now = 0n;
        this.rows = history.steps.map((step, at) => this.row(at, step));
    }

    row(at, step) {
        const words = step.words, moment = this.history.moments[at];
        if (moment > this.now) this.now = moment;
        const row = {at, step, moment, now: this.now, beside: {A: [], B: []}, middle: [], sent: this.byRow.get(at) ?? [],
                     taken: this.takenAt.get(at) ?? [], opensWait: {}};
        const name = words[1] in OTHER ? words[1] : null;
        for (const [owner, wake] of Object.entries(step.wakes)) this.endWait(owner, wake, moment, at);
        for (const handing of row.taken) this.hosts[handing.to].onTaken(handing, moment);
        if (words[0] !== 'cut') for (const frame of row.sent) this.hosts[frame.host].onSent(frame);
        if (name !== null) {
            this.hosts[name].onCall(words, step.said);
            this.describe(row, name, words);
        }
        this.link(row, words);
        for (const {host, socket, state} of step.states) this.state(row, host, socket, state);
        this.numbers(row);
        for (const [owner, wake] of Object.entries(step.wakes)) this.wake(row, owner, wake);
        return row;
    }

    // The words of a poll or a call beside its host's lane.
    describe(row, name, words) {
        const said = row.step.said, beside = row.beside[name], refused = isRefused(said);
        if (POLLS.includes(words[0])) {
            const text = pollText(row, takes(row.taken));
            beside.push(['poll', text, `${row.step.line} → ${said}${text.length <= BESIDE ? '' : `: ${text}`}`]);
            for (const address of this.hosts[name].newlyGivenUp(row.moment)) {
                beside.push(['refused', `${MOST_REQUESTS} requests, no answer: gives up on ${address}`, `gives up on ${address}, and drops what waited for it`]);
            }
            if (this.history.room[name] === 0 && words[0] === 'poll') beside.push(['refused', 'its device has no room', null]);
        } else if (CALLS.includes(words[0]) || refused && !['deliver', 'damage', 'cut', 'noise', 'state', 'pollat'].includes(words[0])) {
            const socket = this.many[name] && words[2] && /^\d+$/.test(words[2]) ? `socket ${words[2]}: ` : '';
            beside.push([refused ? 'refused' : 'call', socket + callText(words, said), row.step.line]);
        } else if (words[0] === 'state') {
            beside.push(['call', `state → ${said.replace(/^state /, '')}`, row.step.line]);
        } else if (words[0] === 'room') {
            beside.push(['dim', `${[words[0], ...words.slice(2)].join(' ')} → ${said}`, row.step.line]);
        }
    }

    // What the link does at a line: nothing is said of a plain delivery in order.
    link(row, words) {
        for (const handing of this.handedAt.get(row.at) ?? []) {
            const name = handing.frame ? handing.frame.name : `${handing.kind}, ${bytesText(handing.data.length)}: ${handing.seen.text}`;
            const notes = [...handing.isAgain ? ['again'] : [], ...handing.isLate ? ['late'] : [], ...handing.note ? [handing.note] : []];
            if (handing.frame === null || notes.length) row.middle.push([handing, `${name} ${notes.join(', ')}`.trimEnd()]);
        }
        if (words[0] === 'cut' && row.sent.length) row.middle.push([row.sent[0].parent, `${row.sent[0].parent.name} fragmented`]);
    }

    state(row, owner, socket, state) {
        const host = this.hosts[owner], before = host.states.get(socket) ?? null;
        host.states.set(socket, state);
        if (before !== state && !(before === null && state === 'CLOSED')) {
            const label = this.many[owner] ? `socket ${socket}: ` : '';
            row.beside[owner].push(['state', label + (before ? `${before} → ${state}` : state), null]);
        }
    }

    // Each connection's numbers, where they changed.
    numbers(row) {
        for (const name of new Set([...row.sent.map((frame) => frame.host), ...row.taken.map((handing) => handing.to)])) {
            const host = this.hosts[name];
            for (const [key, connection] of host.connections) {
                const words = connection.numbers(host.queuedOf(connection));
                if (host.shown.get(key) === words) continue;
                host.shown.set(key, words);
                const label = host.connections.size > 1 ? `${connection.ends[0].port}: ` : '';
                row.beside[name].push(['dim', label + words, null]);
            }
        }
    }

    // Why a host waits when the script has ended, in words.
    atEnd(name) {
        const host = this.hosts[name];
        if (host.wake === null || !this.rows.length) return 'waits for a frame or a call';
        const now = this.history.momentsOf[name];
        const [reason, more] = this.reason(name, host.wake, now, this.rows.length);
        const when = host.wake <= now ? 'now' : `at ${seconds(host.wake)}`;
        return `wants a poll ${when}: ${reason}${more ? `: ${more}` : ''}`;
    }

    // Why a host wants to be polled then.
    reason(owner, wake, now, row) {
        const other = OTHER[owner];
        return this.hosts[owner].reason(wake, now, this.history.frames[other], this.hosts[other], row);
    }

    // Keeps the longest wait of a host, where it ends, and why it was, by what was known just before.
    endWait(owner, wake, moment, row) {
        const host = this.hosts[owner];
        if (!host.endsLongest(wake, moment)) return;
        const [began, until, told] = host.waiting, [name, more] = this.reason(owner, until, told, row - 1);
        host.longest = [began, moment, more ? `${name}: ${more}` : name];
    }

    // When the host wants to be polled, where that changed or the script asked, and why.
    wake(row, owner, wake) {
        const host = this.hosts[owner], asked = row.step.words[0] === 'pollat';
        host.wake = wake;
        const [name, more] = wake === null ? [null, null] : this.reason(owner, wake, row.moment, row.at);
        host.onWake(wake, row.moment);
        const told = wake === null ? null : `${wake} ${name}`, changed = host.told !== told;
        host.told = told;
        const still = changed ? '' : 'still ';
        if (wake === null) {
            if (changed || asked) row.beside[owner].push(['dim', `${still}waits for a frame or a call`, null]);
            row.opensWait[owner] = null;
        } else if (wake <= row.moment && !asked) {
            row.opensWait[owner] = null;
        } else if (changed || asked) {
            const when = wake <= row.moment ? 'now' : `at ${seconds(wake)}`;
            row.beside[owner].push(['timer', `${still}wants a poll ${when}: ${name}`, more ? `${name}: ${more}` : name]);
            if (more && changed && wake > row.moment) row.beside[owner].push(...wrapped(more).map((words) => ['why', words, more]));
            row.opensWait[owner] = wake;
        }
    }
}
