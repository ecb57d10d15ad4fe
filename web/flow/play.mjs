// Plays a script, and asks the simulator behind each poll and each call what the host's TCP sockets are and when the host wants to be polled, by
// lines `state` and `pollat` that a script could have itself: they change nothing. As tools/flow/play.py does for scripts of `lan`.
import {bytesOfHex} from './frames.mjs';

export const OTHER = {A: 'B', B: 'A'};
export const POLLS = ['poll', 'egress', 'ingress', 'maintain'];
const TIMED = [...POLLS, 'pollat', 'delay', 'announce'];
export const CALLS = ['listen', 'connect', 'send', 'recv', 'close', 'abort', 'bind', 'ident', 'sendto', 'sendicmp', 'sendraw', 'sendany', 'recvfrom',
                      'addrs', 'hw', 'route', 'set', 'errors'];

// The value of a word of digits, or null.
export function number(word) {
    return /^0*[0-9]{1,19}$/.test(word) ? Number(word) : null;
}

// A moment in microseconds, which may be above 2^53.
export function micros(word) {
    return /^0*[0-9]{1,19}$/.test(word) ? BigInt(word) : null;
}

export function seconds(micros) {
    return `${micros / 1_000_000n}.${String(micros % 1_000_000n).padStart(6, '0')} s`;
}

export function bytesText(count) {
    return `${count} byte${count === 1 ? '' : 's'}`;
}

export function isComment(line) {
    return line === '' || line.startsWith('#');
}

function questions(words, sockets, last) {
    const host = words[1] ?? '';
    if (!(host in last) || !POLLS.includes(words[0]) && !CALLS.includes(words[0])) return [];
    const states = sockets[host].length <= 16 ? sockets[host].map((socket) => `state ${host} ${socket}`) : [];
    return [...states, `pollat ${host} ${last[host]}`];
}

// The script with the questions: each line with its place in the script, null of a question.
function withQuestions(lines) {
    const count = {A: 0, B: 0}, sockets = {A: [], B: []}, last = {A: 0n, B: 0n}, asked = [];
    let running = false;
    lines.forEach((line, k) => {
        asked.push({line, place: k + 1});
        const words = line.split(' ');
        if (words[0] === 'socket' && words.length > 2 && words[1] in count && !running) {
            if (words[2] === 'tcp') sockets[words[1]].push(count[words[1]]);
            count[words[1]] += 1;
        }
        if (TIMED.includes(words[0]) && words.length > 2 && words[1] in last && micros(words[2]) !== null) last[words[1]] = micros(words[2]);
        if (running) asked.push(...questions(words, sockets, last).map((question) => ({line: question, place: null})));
        running ||= line === 'start';
    });
    return asked;
}

// Each line with its answer and the frames that were sent then.
function* answered(lines, output) {
    let at = 0;
    for (const line of lines) {
        if (at >= output.length || output[at].startsWith('line ') || output[at].startsWith('status ')) return;
        const said = output[at++], sent = [];
        while (at < output.length && output[at].startsWith('sent ')) {
            const [, host, count, hex] = output[at++].split(' ');
            sent.push({host, number: Number(count), data: bytesOfHex(hex.replaceAll('-', ''))});
        }
        yield {line, said, sent};
    }
}

// Keeps the answer to a question with the line that it was asked behind.
function note(step, line, said) {
    const words = line.split(' ');
    if (words[0] === 'state' && said.startsWith('state ')) step.states.push({host: words[1], socket: Number(words[2]), state: said.slice(6)});
    if (words[0] === 'pollat' && /^(never|at \d+)$/.test(said)) step.wakes[words[1]] = said === 'never' ? null : BigInt(said.slice(3));
}

// What a script came to. `play` answers for a text what the simulator writes, and the status. Of each step: its line, the answer, the frames sent
// then, and what was asked behind it: the states of TCP sockets, and the next poll by host, null for never.
export async function playScript(play, name, lines) {
    const asked = withQuestions(lines);
    const {answers, status} = await play(asked.map(({line}) => `${line}\n`).join(''));
    const output = answers.split('\n').filter((line) => line);
    const at = lines.includes('start') ? lines.indexOf('start') : lines.length;
    const header = lines.slice(0, at).filter((line) => !isComment(line));
    const first = (lines.find((line) => !isComment(line)) ?? '').split(' ');
    const run = {name, medium: first[0] === 'world' ? first[1] ?? null : null, header, steps: [], ended: null, status};
    const from = asked.findIndex(({line}) => line === 'start');
    const behind = from < 0 ? [] : asked.slice(from).filter(({line}) => !isComment(line));
    let k = 0;
    for (const {line, said, sent} of answered(behind.map((it) => it.line), output)) {
        const place = behind[k++].place;
        if (place !== null) run.steps.push({number: place, line, words: line.split(' '), said, sent, states: [], wakes: {}});
        if (run.steps.length) note(run.steps.at(-1), line, said);
    }
    const ended = /^line (\d+): ([^]*)/.exec(output.at(-1) ?? '');
    if (ended && Number(ended[1]) <= asked.length) {
        const {line, place} = asked[Number(ended[1]) - 1];
        run.ended = `line ${place}, \`${line.slice(0, 80)}\`: ${ended[2]}`;
    } else if (!lines.includes('start') && !ended) {
        run.ended = 'the script never says `start`';
    }
    return run;
}
