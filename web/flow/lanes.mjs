// The picture of two lanes: events downwards, frames as arrows from the poll that sent them to the poll that took them. As tools/flow/lanes.py.
import {hexOf} from './frames.mjs';
import {seconds} from './play.mjs';
import {BESIDE, wrapped} from './rows.mjs';
import {cut, element, escaped, line, text} from './svg.mjs';

const LANE = {A: 400, B: 1000};
const MIDDLE = 700, TALL = 16, PART = 4000;
export const WIDTH = 1400;

// What is drawn, each thing with the heights between which it lies: lines first, then texts.
class Picture {
    constructor() {
        this.under = [];
        this.over = [];
    }

    add(top, bottom, xml, layer = this.under) {
        if (xml) layer.push([top, bottom, xml]);
    }

    words(x, y, words, class_, anchor = 'start', title = null) {
        this.add(y - TALL, y + 4, text(x, y, words, class_, anchor, title), this.over);
    }

    between(top, bottom) {
        return [...this.under, ...this.over].filter(([y0, y1]) => y1 >= top && y0 <= bottom).map(([, , xml]) => xml).join('');
    }
}

// The layout of the rows.
export class Lanes {
    constructor(rows, history) {
        Object.assign(this, {rows: rows.rows, history, picture: new Picture(), top: new Map(), lineOf: new Map(), marks: [], order: new Map()});
        this.ends = {A: wrapped(`end: ${rows.atEnd('A')}`, 6), B: wrapped(`end: ${rows.atEnd('B')}`, 6)};
        const many = new Map();
        for (const handing of history.handings) {
            many.set(handing.taken, (many.get(handing.taken) ?? -1) + 1);
            this.order.set(handing, many.get(handing.taken));
        }
        this.bottom = this.place();
        this.draw();
    }

    // Gives each row its height, and each frame that leaves there its line.
    place() {
        let y = 50, now = null;
        for (const row of this.rows) {
            if (row.now !== now) {
                now = row.now;
                this.marks.push([y, now]);
                y += TALL + 2;
            }
            this.top.set(row.at, y);
            const before = row.step.words[0] === 'cut' ? row.middle.length : Number(row.taken.length > 0 && row.sent.length > 0);
            row.sent.forEach((frame, k) => this.lineOf.set(frame, y + TALL * (before + k)));
            y += TALL * Math.max(row.beside.A.length, row.beside.B.length, before + row.sent.length, row.middle.length) + 6;
        }
        this.foot = y + 6;
        return this.foot + TALL * Math.max(this.ends.A.length, this.ends.B.length) + 10;
    }

    draw() {
        this.picture.words(MIDDLE, 24, 'each host numbers its frames from 0', 'dim', 'middle');
        for (const name of 'AB') {
            this.picture.words(LANE[name], 24, name, 'host', 'middle');
            this.picture.add(34, this.bottom, line(LANE[name], 34, LANE[name], this.bottom, 'lane'));
        }
        for (const [y, now] of this.marks) {
            this.picture.add(y, y + TALL, line(8, y + 15, WIDTH - 8, y + 15, 'rule'));
            this.picture.words(8, y + 12, seconds(now), 'time');
        }
        for (const row of this.rows) {
            this.beside(row);
            this.middle(row);
        }
        this.byAt = new Map(this.rows.map((row) => [row.at, row]));
        for (const frame of this.history.allFrames()) if (this.lineOf.has(frame)) this.frame(frame);
        for (const handing of this.history.handings) if (handing.frame === null || handing.isAgain) this.fromMiddle(handing);
        this.waits();
        for (const name of 'AB') {
            const side = name === 'A' ? -1 : 1;
            this.ends[name].forEach((words, k) => {
                this.picture.words(LANE[name] + side * 12, this.foot + TALL * k + 12, words, 'end', side < 0 ? 'end' : 'start');
            });
        }
    }

    beside(row) {
        for (const name of 'AB') {
            const side = name === 'A' ? -1 : 1;
            row.beside[name].forEach(([class_, words, title], k) => {
                const y = this.top.get(row.at) + TALL * k;
                if (k === 0) {
                    this.picture.add(y, y + TALL, element('circle', '', {cx: LANE[name], cy: y + 8, r: 3, class: `dot ${class_}`}), this.picture.over);
                }
                const shown = cut(words, BESIDE), told = title && title !== words || shown === words ? title : words;
                this.picture.words(LANE[name] + side * 12, y + 12, shown, class_, side < 0 ? 'end' : 'start', told);
            });
        }
    }

    middle(row) {
        row.middle.forEach(([thing, words], k) => {
            const y = this.top.get(row.at) + TALL * k + 12, to = thing.to;
            const class_ = `note ${thing.kind === 'damage' ? 'damaged' : to && thing.frame === null ? 'noise' : 'again'}`;
            if (to && (thing.isAgain || thing.frame === null)) {
                const side = to === 'B' ? -1 : 1;
                this.picture.words(MIDDLE + side * 8, y, cut(words, 42), class_, side < 0 ? 'end' : 'start', words);
            } else {
                this.picture.words(MIDDLE, y, cut(words, 80), class_, 'middle', words);
            }
        });
    }

    // Where a frame's arrows begin.
    start(frame) {
        return [frame.parent ? MIDDLE : LANE[frame.host], this.lineOf.get(frame) + 14];
    }

    // Where an arrow ends: at the poll that took it; else at the device, where it waits.
    end(handing) {
        const at = handing.taken ?? handing.maybe, inwards = handing.to === 'A' ? 1 : -1;
        if (at !== null) return [LANE[handing.to] + inwards * 4, this.top.get(at) + 5 + 2 * Math.min(this.order.get(handing), 4)];
        return [LANE[handing.to] + inwards * 26, this.top.get(handing.row) + 10];
    }

    arrow([x1, y1], [x2, y2], class_, title, head = 'head') {
        this.picture.add(Math.min(y1, y2), Math.max(y1, y2), line(x1, y1, x2, y2, `arrow ${class_}`, title));
        const turn = (Math.atan2(y2 - y1, x2 - x1) * 180 / Math.PI).toFixed(1);
        const d = head === 'cross' ? 'M-6 -6L6 6M-6 6L6 -6' : 'M0 0L-9 -4L-9 4z';
        const shape = element('path', '', {d, transform: `translate(${x2} ${y2}) rotate(${turn})`, class: `${head} ${class_}`});
        this.picture.add(y2 - 8, y2 + 8, shape);
    }

    // The words at a frame's line, nearer to its sender.
    label(frame, notes) {
        const [x, y] = this.start(frame);
        const side = (frame.host === 'A' ? 1 : -1) * (frame.parent ? -1 : 1);
        const told = notes.map(([, words]) => ` ${words}`).join('');
        const shown = cut(`${frame.name} ${frame.seen.text}`, (frame.parent ? 40 : 86) - told.length);
        const parts = escaped(shown) + notes.map(([class_, words]) => element('tspan', escaped(words), {dx: 8, class: class_})).join('');
        const hex = hexOf(frame.data.subarray(0, 256));
        const title = element('title', escaped(`${frame.host} ${frame.name} ${frame.seen.text}, ${frame.data.length} bytes: ${hex}`));
        const attributes = {x: x + side * 10, y: y - 3, class: 'label', 'text-anchor': side > 0 ? 'start' : 'end'};
        this.picture.add(y - TALL, y, element('text', parts + title, attributes), this.picture.over);
    }

    // A frame's words, its first handing or its loss.
    frame(frame) {
        const begin = this.start(frame), notes = [];
        if (frame.repeats !== null) notes.push(['again', `retransmission of ${frame.repeats.name}`]);
        const title = `${frame.host} ${frame.name}: ${frame.fate}`, far = LANE[frame.host === 'A' ? 'B' : 'A'];
        if (frame.isLost) {
            notes.push(['lost', 'LOST']);
            this.arrow(begin, [begin[0] + Math.round((far - begin[0]) * 0.72), begin[1] + 10], 'lost', title, 'cross');
        } else if (frame.cutAt !== null && this.top.has(frame.cutAt)) {
            this.arrow(begin, [MIDDLE, Math.max(this.top.get(frame.cutAt) + 12, begin[1] + 2)], 'cut', `${title}, into fragments`);
        }
        for (const handing of frame.handings.slice(0, 1)) {
            let class_ = handing.kind === 'damage' ? 'damaged' : handing.isLate ? 'late' : 'sent';
            if (handing.taken === null) {
                notes.push(['dim', handing.isUnsure ? 'may be taken' : 'waits']);
                class_ += ' waits';
            }
            this.arrow(begin, this.end(handing), class_, title);
        }
        this.label(frame, notes);
    }

    // A frame that the link hands over again, or noise.
    fromMiddle(handing) {
        const k = this.byAt.get(handing.row).middle.findIndex(([thing]) => thing === handing);
        if (k < 0) return;
        const y = this.top.get(handing.row) + TALL * k + 8;
        const class_ = handing.kind === 'noise' ? 'noise' : handing.kind === 'damage' ? 'damaged' : 'again';
        const title = `${handing.seen.text}: ${hexOf(handing.data.subarray(0, 256))}`;
        this.arrow([MIDDLE, y], this.end(handing), class_ + (handing.taken !== null ? '' : ' waits'), title);
    }

    // A thin line beside the lane from where a host wants to be polled to the poll, or to the end where nobody polls it.
    waits() {
        const open = new Map();
        for (const row of this.rows) {
            for (const [name, wake] of Object.entries(row.opensWait)) {
                if (open.has(name)) this.wait(name, ...open.get(name), this.top.get(row.at) + 8, 'wait');
                open.delete(name);
                if (wake !== null && wake > row.moment) open.set(name, [this.top.get(row.at) + 8, wake]);
            }
        }
        for (const [name, [y, wake]] of open) this.wait(name, y, wake, this.foot, 'wait unanswered');
    }

    wait(name, y, wake, until, class_) {
        const x = LANE[name] + (name === 'A' ? -6 : 6);
        if (until > y) this.picture.add(y, until, line(x, y, x, until, class_, `${name} waits for ${seconds(wake)}`));
    }

    // Pictures of at most so many rows, one below the other.
    parts() {
        const edges = [0];
        for (let k = PART; k < this.rows.length; k += PART) edges.push(this.top.get(this.rows[k].at));
        edges.push(this.bottom);
        return edges.slice(1).map((bottom, k) => svg(edges[k], bottom, this.picture.between(edges[k], bottom)));
    }
}

function svg(top, bottom, content) {
    const paper = element('rect', '', {x: 0, y: top, width: WIDTH, height: bottom - top, class: 'paper'});
    return element('svg', paper + content, {width: WIDTH, height: bottom - top, viewBox: `0 ${top} ${WIDTH} ${bottom - top}`,
                                            xmlns: 'http://www.w3.org/2000/svg'});
}
