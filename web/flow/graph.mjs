// Sequence numbers over time, as tcptrace draws them: two pictures a connection, one for each direction. As tools/flow/graph.py.
import {ACK, RST, SYN, keyOf, turned} from './frames.mjs';
import {OTHER} from './play.mjs';
import {element, escaped, line, text} from './svg.mjs';

const WIDE = 680, HIGH = 230, LEFT = 76, FOOT = 26, HEAD = 26, STEP = 12, HALF = 2 ** 31;
// A character of a label, how high it is, and the squares in which places are counted.
const CHAR = 7, LINE = 11, SQUARE = 4;
// At most so many round numbers stand at an axis.
const MOMENTS = 8n, NUMBERS = 5n;

function offset(sequence, base) {
    return ((sequence - base) % 2 ** 32 + 2 ** 32) % 2 ** 32;
}

// The connections, as A's end and B's, in the order in which they appear.
export function connections(history) {
    const found = new Map();
    for (const frame of history.allFrames().sort((a, b) => a.row - b.row || (a.host < b.host ? -1 : Number(a.host > b.host)))) {
        if (!frame.seen.tcp) continue;
        const ends = frame.host === 'A' ? frame.seen.ends : turned(frame.seen.ends);
        if (!found.has(keyOf(ends))) found.set(keyOf(ends), ends);
    }
    return [...found.values()];
}

// The axes for segments sent by one side, and acknowledgements that came to it. Across: each segment sent or taken a step further, and time in
// proportion in what is left. `moments` are pairs of a place and a moment, both rising.
function axes(history, sent, came) {
    const things = [...came.map((it) => ({row: it.taken, kind: 0, it})), ...sent.map((it) => ({row: it.row, kind: 1, it}))];
    things.sort((a, b) => a.row - b.row || a.kind - b.kind);
    const step = Math.min(STEP, Math.floor(Math.floor((WIDE - LEFT - 40) * 3 / 5) / things.length));
    const moments = things.map(({row}) => history.moments[row]);
    const least = moments.reduce((a, b) => a < b ? a : b), most = moments.reduce((a, b) => a > b ? a : b), span = most - least;
    const left = BigInt(WIDE - LEFT - 40 - step * things.length), across = new Map(), places = [];
    let x = LEFT + 6, now = null;
    things.forEach(({it}, k) => {
        const at = moments[k] > (now ?? 0n) ? moments[k] : now ?? 0n;
        x += step + (now !== null && span ? Number(left * (at - now) / span) : 0);
        across.set(it, x);
        places.push([x, at]);
        now = at;
    });
    const first = sent[0].seen.tcp, base = first.flags & SYN || first.seqRel < 2 ** 20 ? 0 : first.seqRel;
    const high = Math.max(1, ...sent.map((it) => offset(it.seen.tcp.end, base)).filter((it) => it < HALF));
    const reached = came.map((it) => it.seen.tcp).filter((it) => it.ackRel - base >= 0 && it.ackRel - base < HALF);
    const edge = Math.max(high, ...reached.map((it) => it.ackRel + it.window - base));
    const top = Math.min(edge, Math.floor(high * 3 / 2) + 1);
    const y = (sequence) => {
        const at = offset(sequence, base);
        return HIGH - FOOT - Math.floor((at >= HALF ? 0 : Math.min(at, top)) * (HIGH - FOOT - HEAD) / top);
    };
    return {base, top, moments: places, x: (thing) => across.get(thing), y};
}

// The picture of what one side sent.
function graph(history, ends, host) {
    const there = host === 'A' ? ends : turned(ends), key = keyOf(there), back = keyOf(turned(there));
    const sent = history.frames[host].filter((it) => it.seen.tcp && keyOf(it.seen.ends) === key && it.parent === null);
    const came = history.handings.filter((it) => it.to === host && it.taken !== null && it.kind === 'deliver' && it.seen.tcp &&
        keyOf(it.seen.ends) === back && it.seen.tcp.flags & ACK).sort((a, b) => a.taken - b.taken);
    if (!sent.length) return '';
    const at = axes(history, sent, came), labels = new Labels();
    const title = `${host} ${there[0].port} to ${OTHER[host]} ${there[1].port}: sequence numbers over time`;
    const lines = steps(at, came, labels);
    for (const frame of sent) labels.keepFree([[at.x(frame), at.y(frame.seen.tcp.end)], [at.x(frame), at.y(frame.seen.tcp.seqRel)]]);
    const parts = [element('rect', '', {x: 0, y: 0, width: WIDE, height: HIGH, class: 'paper'}), text(8, 15, title, 'call'), ...scale(at),
                   ...[...sent].sort((one, other) => importance(one) - importance(other)).flatMap((frame) => bars(at, frame, labels)), ...lines];
    return element('svg', parts.join(''), {width: WIDE, height: HIGH, viewBox: `0 0 ${WIDE} ${HIGH}`, xmlns: 'http://www.w3.org/2000/svg',
                                           style: 'display:inline-block'});
}

// The least of 1, 2 and 5 times a power of ten of which a span has at most so many.
function roundStep(span, most) {
    let ten = 1n;
    while (span / (5n * ten) > most) ten *= 10n;
    return [ten, 2n * ten, 5n * ten].find((step) => span / step <= most);
}

// The round numbers between two, at most so many.
function* between(first, last, most) {
    const step = roundStep(last - first, most);
    for (let number = (first + step - 1n) / step * step; number <= last; number += step) yield number;
}

// A round moment, without zeros behind it.
function momentText(micros) {
    return `${micros / 1_000_000n}.${String(micros % 1_000_000n).padStart(6, '0')}`.replace(/\.?0+$/, '') + ' s';
}

// Where a moment is across: between those that have a place, in proportion.
function placeOf(moments, moment) {
    const k = moments.findIndex(([, at]) => at >= moment), [x, at] = moments[k], [x0, before] = moments[Math.max(k - 1, 0)];
    return at === moment ? x : x0 + Number(BigInt(x - x0) * (moment - before) / (at - before));
}

// The axes, with round numbers at both.
function scale(at) {
    const parts = [line(LEFT, HEAD, LEFT, HIGH - FOOT, 'lane'), line(LEFT, HIGH - FOOT, WIDE - 10, HIGH - FOOT, 'lane')];
    for (const number of between(BigInt(at.base), BigInt(at.base + at.top), NUMBERS)) {
        const y = at.y(Number(number));
        parts.push(line(LEFT - 4, y, LEFT, y, 'lane'), text(LEFT - 8, y + 4, `Seq ${number}`, 'axis', 'end'));
    }
    let free = LEFT - 30;
    for (const moment of between(at.moments[0][1], at.moments.at(-1)[1], MOMENTS)) {
        const x = placeOf(at.moments, moment), words = momentText(moment), half = Math.floor(words.length * CHAR / 2);
        if (free <= x - half && x + half <= WIDE) {
            parts.push(line(x, HEAD, x, HIGH - FOOT, 'grid'), text(x, HIGH - 10, words, 'axis', 'middle'));
            free = x + half + CHAR;
        }
    }
    return parts;
}

// Places of texts that don't meet one another, a bar or a line. What is taken are squares of so many pixels.
class Labels {
    constructor() {
        this.taken = new Set();
    }

    squares(left, top, right, bottom) {
        const found = [], at = (pixel) => Math.floor(pixel / SQUARE);
        for (let x = at(left); x <= at(right); x++) for (let y = at(top); y <= at(bottom); y++) found.push(x * 1000 + y);
        return found;
    }

    take(found) {
        for (const it of found) this.taken.add(it);
    }

    // Takes the squares of lines across and down.
    keepFree(points) {
        points.slice(1).forEach(([x2, y2], k) => {
            const [x1, y1] = points[k];
            this.take(this.squares(Math.min(x1, x2), Math.min(y1, y2), Math.max(x1, x2), Math.max(y1, y2)));
        });
    }

    // A text beside a bar at x: right or left of it, as high or up to two lines off; nothing where there is no place.
    place(x, y, words) {
        const width = words.length * CHAR;
        for (const [left, base] of [0, -1, 1, -2, 2].flatMap((off) => [x + 4, x - 4 - width].map((left) => [left, y + LINE * off]))) {
            const found = this.squares(left, base - LINE + 2, left + width, base + 1);
            if (LEFT < left && left + width <= WIDE && HEAD <= base && base <= HIGH - FOOT && !found.some((it) => this.taken.has(it))) {
                this.take(found);
                return text(left, base, words, 'axis');
            }
        }
        return '';
    }
}

// What is labelled first: resets and what was lost, then retransmissions.
function importance(frame) {
    return frame.seen.tcp.flags & RST || frame.isLost ? 0 : frame.repeats ? 1 : 2;
}

// A segment's numbers: red and dashed where it was lost, amber where it was a retransmission; a cross for a reset.
function bars(at, frame, labels) {
    const segment = frame.seen.tcp, x = at.x(frame), lost = frame.isLost ? ' lost' : '';
    const class_ = `bar${frame.repeats ? ' again' : ''}${lost}`;
    const title = `${frame.name} ${frame.seen.text}: ${frame.fate}${frame.repeats ? `, retransmission of ${frame.repeats.name}` : ''}`;
    const low = at.y(segment.seqRel), high = Math.min(at.y(segment.end), low - 4);
    if (segment.flags & RST) {
        const d = `M${x - 4} ${low - 4}L${x + 4} ${low + 4}M${x - 4} ${low + 4}L${x + 4} ${low - 4}`;
        return [element('path', element('title', escaped(title)), {d, class: 'reset'}), labels.place(x + 2, low + 4, `${frame.name} RST${lost}`)];
    }
    if (segment.end === segment.seqRel) return [];
    return [line(x, low, x, high, class_, title), labels.place(x, high + 8, frame.name + lost)];
}

// The acknowledgements that came, what they allow, and what they say was received out of order.
function steps(at, came, labels) {
    const acked = [], allowed = [], parts = [];
    let best = null, edge = null;
    for (const handing of came) {
        const segment = handing.seen.tcp, x = at.x(handing);
        if (offset(segment.ackRel, at.base) >= HALF) continue;
        if (best !== null) {
            acked.push([x, at.y(best)]);
            allowed.push([x, at.y(edge)]);
        }
        best = Math.max(best ?? 0, segment.ackRel);
        edge = Math.max(edge ?? 0, segment.ackRel + segment.window);
        acked.push([x, at.y(best)]);
        allowed.push([x, at.y(edge)]);
        for (const [left, right] of segment.sacks) {
            labels.keepFree([[x + 3, at.y(right)], [x + 3, at.y(left)]]);
            parts.push(line(x + 3, at.y(left), x + 3, at.y(right), 'sack', `SACK ${left}:${right}`));
        }
    }
    for (const [points, last, class_] of [[acked, best, 'acked'], [allowed, edge, 'allowed']]) {
        if (best === null) continue;
        points.push([WIDE - 10, at.y(last)]);
        labels.keepFree(points);
        parts.push(element('polyline', '', {points: points.map((point) => point.join(',')).join(' '), class: class_}));
    }
    return parts;
}

// All of them, by connection.
export function graphs(history) {
    return connections(history).flatMap((ends) => [graph(history, ends, 'A'), graph(history, ends, 'B')]);
}
