// The counts, and what a reader looks for first. As tools/flow/words.py.
import {FIN, RST, keyOf, turned} from './frames.mjs';
import {connections} from './graph.mjs';
import {MOST_REQUESTS} from './hosts.mjs';
import {OTHER, seconds} from './play.mjs';
import {times} from './rows.mjs';
import {listed} from './tcp.mjs';

// What a refusal of the simulation means.
const REFUSALS = {
    NoSocket: 'the host has no such socket',
    WrongKind: "the socket's kind has no such call",
    NoFrame: 'the host has not sent that frame',
    NotTcp: 'the frame is no whole TCP segment',
    Place: 'the place is odd, or outside of the segment',
    SameSum: 'the checksum could not tell the new bytes from the old ones',
    NamesTcpOrUdp: "noise can't say that it carries TCP or UDP",
    OpenedTwice: 'the socket was opened before',
    PortTaken: 'another socket of the host has this port',
    Moment: "time doesn't go back",
    NotIpv4: 'the frame is no IPv4 packet',
    CutPlace: 'the place is no multiple of 8 inside of the packet',
};
// So many frames are told of each with its text, more by their numbers alone.
const FEW = 8;
// A wait of so many microseconds is told of.
const WORTH_TELLING = 200_000n;

export function counts(history) {
    const frames = history.allFrames(), handings = history.handings, many = (things, test) => things.filter(test).length;
    const found = [`${many(frames, (it) => it.parent === null)} frames sent`, `${many(handings, (it) => it.frame && it.taken !== null)} taken`,
                   `${many(frames, (it) => it.isLost)} lost`];
    const more = {fragments: many(frames, (it) => it.parent), waiting: many(handings, (it) => it.taken === null),
                  'delivered again': many(handings, (it) => it.isAgain), late: many(handings, (it) => it.isLate),
                  damaged: many(handings, (it) => it.kind === 'damage'), retransmissions: many(frames, (it) => it.repeats !== null),
                  noise: many(handings, (it) => it.kind === 'noise')};
    for (const [name, count] of Object.entries(more)) if (count) found.push(`${count} ${name}`);
    return found.join(', ');
}

// Of each direction of a connection, how much of what was written was read, and what waits to be.
function* streams(history, rows) {
    for (const ends of connections(history)) {
        for (const [writer, reader, k] of [['A', 'B', 0], ['B', 'A', 1]]) {
            const from = rows.hosts[writer], to = rows.hosts[reader], receiver = to.socketOf(ends[1 - k].port);
            const written = from.queued.get(from.socketOf(ends[k].port)) ?? 0, read = to.read.get(receiver) ?? 0;
            const there = to.connections.get(keyOf([ends[1 - k], ends[k]]));
            const unread = there ? Math.min(to.unread(there), Math.max(written - read, 0)) : 0;
            const end = to.finished.has(receiver) ? ', end read' : '', isClosed = to.stateOf(ends[1 - k].port) === 'CLOSED';
            const waits = !unread ? '' : isClosed ? `, ${unread} more arrived` : `, ${unread} wait in ${reader}'s socket`;
            const nobody = unread && !to.readers.has(receiver) ? ': nobody called recv' : '';
            yield `${writer} ${ends[k].port} to ${reader} ${ends[1 - k].port}: ${read} of ${written} bytes read${end}${waits}${nobody}`;
        }
    }
}

// Who reset a connection, when and why, as far as calls and frames say.
function resetText(history, rows, frame) {
    const host = rows.hosts[frame.host], ends = keyOf(turned(frame.seen.ends));
    const answered = listed(history.takenBy(frame.row).filter((it) => it.frame?.seen.ends && keyOf(it.frame.seen.ends) === ends).map((it) => it.frame.number));
    const isAborted = host.aborted.has(host.socketOf(frame.seen.ends[0].port));
    const why = isAborted ? ', after its abort' : answered ? `, in answer to ${OTHER[frame.host]} ${answered}` : '';
    return `${frame.host} reset it in ${frame.name} at ${seconds(frame.moment)}${why} (${frame.fate})`;
}

// How each connection stands at the end: both sides' states, who reset it, and in which frame each side's stream ended.
function* endings(history, rows) {
    for (const ends of connections(history)) {
        const sentBy = (host) => history.frames[host].filter((it) => it.parent === null && it.seen.tcp &&
            keyOf(it.seen.ends) === keyOf(host === 'A' ? ends : turned(ends)));
        const states = ['A', 'B'].map((host, k) => [host, rows.hosts[host].stateOf(ends[k].port)]).filter(([, state]) => state);
        const resets = ['A', 'B'].flatMap(sentBy).filter((it) => it.seen.tcp.flags & RST).map((it) => resetText(history, rows, it));
        const fins = ['A', 'B'].map((host) => sentBy(host).find((it) => it.seen.tcp.flags & FIN)).filter((it) => it)
            .map((first) => `${first.host} sent its FIN in ${first.name} (${first.fate})`);
        const said = [...states.length ? [states.map((it) => it.join(' ')).join(', ')] : [], ...resets, ...fins].join('; ');
        if (said) yield `A ${ends[0].port} to B ${ends[1].port}: ${said}`;
    }
}

// Frames by their numbers alone, whole.
function byHost(frames) {
    const of = (host) => listed(frames.filter((it) => it.host === host).map((it) => it.number));
    return ['A', 'B'].filter(of).map((host) => `${host} ${of(host)}`).join('; ');
}

// Frames with a text where they are few, else by their numbers.
function toldOf(frames, text) {
    return frames.length <= FEW ? frames.map(text).join('; ') : byHost(frames);
}

// What the link lost, repeated, damaged and made up: pairs of a name and words.
function onLink(history) {
    const frames = history.allFrames(), of = (test, text) => times(history.handings.filter(test).map(text)).join('; ');
    return [['Lost', toldOf(frames.filter((it) => it.isLost), (it) => `${it.host} ${it.name} ${it.seen.text}`)],
            ['Retransmissions', toldOf(frames.filter((it) => it.repeats), (it) => `${it.host} ${it.name} of ${it.repeats.name}, ${it.fate}`)],
            ['Delivered again or late', of((it) => it.isAgain || it.isLate, (it) => `${it.frame.host} ${it.frame.name} ${it.isLate ? 'late' : 'again'}`)],
            ['Damaged', of((it) => it.kind === 'damage', (it) => `${it.frame.host} ${it.frame.name} ${it.note.replace(/^damaged, /, '')}`)],
            ['Noise', of((it) => it.kind === 'noise', (it) => `to ${it.to}: ${it.seen.text}`)]].filter(([, words]) => words);
}

// Pairs of a name and words.
export function remarks(history, rows) {
    const said = onLink(history);
    for (const [name, {silent}] of Object.entries(rows.hosts)) {
        const many = silent.size > 1, told = [...silent].map(([address, [, at]]) => `${address} at ${at.map(seconds).join(' and ')}`).join(', ');
        if (silent.size) {
            said.push([many ? 'Neighbors that never answered' : 'A neighbor that never answered',
                       `${name} gave up on ${told}, after ${MOST_REQUESTS} requests${many ? ' each' : ''}, all a second apart, and dropped what waited for ${many ? 'them' : 'it'}`]);
        }
    }
    for (const [name, {longest}] of Object.entries(rows.hosts)) {
        const told = longest && longest[1] - longest[0] >= WORTH_TELLING ? `${seconds(longest[0])} to ${seconds(longest[1])}: ${longest[2]}` : `none of ${seconds(WORTH_TELLING)} or more`;
        said.push([`Longest wait of ${name}`, told]);
    }
    for (const words of endings(history, rows)) said.push(['At the end', words]);
    for (const host of 'AB') said.push([`At the end ${host}`, rows.atEnd(host)]);
    for (const words of streams(history, rows)) said.push(['Stream', words]);
    return said;
}

// How a script ended that ended early, and what its refusal means.
export function ending({ended}) {
    const name = /: refused (\w+)$/.exec(ended)?.[1] ?? '';
    return `The script ended early: ${ended}${Object.hasOwn(REFUSALS, name) ? ` (${REFUSALS[name]})` : ''}`;
}

// Lines that were refused, with the name.
export function errors(history) {
    return history.steps.filter((step) => step.said.startsWith('error') || step.said.startsWith('refused')).slice(0, 200);
}
