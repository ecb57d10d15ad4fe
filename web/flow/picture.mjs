// What is drawn of a script, as XHTML. As tools/flow/page.py.
import {hexOf} from './frames.mjs';
import {graphs} from './graph.mjs';
import {History} from './history.mjs';
import {Lanes, WIDTH} from './lanes.mjs';
import {Rows} from './rows.mjs';
import {cut, element, escaped, line, text} from './svg.mjs';
import {counts, ending, errors, remarks} from './words.mjs';

const LEGEND = [['arrow sent', 'a frame, from the poll that sent it to the one that took it'], ['arrow lost', 'LOST: no line delivered it'],
                ['arrow again', 'delivered again, or late (out of order)'], ['arrow damaged', 'damaged on the link, so that its checksum is wrong'],
                ['arrow cut', 'to where it was fragmented'], ['arrow noise', 'noise: bytes that no host sent'],
                ['arrow sent waits', 'pale: delivered, but not taken by a poll yet'], ['wait', 'from where a host wants a poll to the poll'],
                ['wait unanswered', "nobody polled it before the script's end"], ['bar', 'numbers: a segment'],
                ['bar again', 'numbers: a retransmission'], ['bar lost', 'numbers: lost'], ['reset', 'numbers: a reset (RST)'],
                ['acked', 'numbers: acknowledged'], ['allowed', 'numbers: allowed by the window'], ['sack', 'numbers: received out of order (SACK)']];
// The legend has three columns of so many lines.
const LINES = 6;
const CROSS = {'arrow lost': ['M-6 -6L6 6M-6 6L6 -6', 46, 'cross'], reset: ['M-4 -4L4 4M-4 4L4 -4', 23, 'reset']};
// No remark has more characters.
const LONGEST = 20_000;

export function legend() {
    const high = 4 + 20 * LINES, parts = [element('rect', '', {x: 0, y: 0, width: WIDTH, height: high, class: 'paper'})];
    LEGEND.forEach(([class_, words], k) => {
        const x = 10 + Math.floor(k / LINES) * 480, y = 14 + k % LINES * 20;
        if (class_ !== 'reset') parts.push(line(x, y - 4, x + 46, y - 4, class_));
        parts.push(text(x + 58, y, words, 'dim'));
        if (class_ in CROSS) {
            const [d, at, drawn] = CROSS[class_];
            parts.push(element('path', '', {d, transform: `translate(${x + at} ${y - 4})`, class: drawn}));
        }
    });
    return element('svg', parts.join(''), {width: WIDTH, height: high, viewBox: `0 0 ${WIDTH} ${high}`, xmlns: 'http://www.w3.org/2000/svg'});
}

// All frames with text and bytes.
function table(history) {
    const rows = history.allFrames().map((frame) => {
        const cells = [`${frame.host} ${frame.name}`, frame.seen.text, frame.fate].map((cell) => element('td', escaped(cell)));
        return element('tr', cells.join('') + element('td', element('code', escaped(hexOf(frame.data)) || '-', {class: 'bytes'})));
    });
    const head = element('tr', ['frame', 'says', 'became', 'bytes'].map((name) => element('th', name)).join(''));
    return element('details', element('summary', `All frames (${rows.length})`) + element('table', element('tbody', head + rows.join(''))));
}

function ended(run) {
    return run.ended ? element('p', escaped(ending(run)), {class: 'bad'}) : '';
}

// What is drawn of a run.
export function section(run) {
    if (!run.steps.length) return element('p', escaped('Nothing ran.')) + ended(run);
    const history = new History(run), rows = new Rows(history), lanes = new Lanes(rows, history);
    const said = remarks(history, rows).map(([name, words]) => element('li', element('b', escaped(`${name}: `)) + escaped(cut(words, LONGEST))));
    said.push(...errors(history).map((step) => element('li', element('b', 'Refused: ') +
        escaped(`line ${step.number}, \`${cut(step.line, 100)}\`: ${step.said}`), {class: 'bad'})));
    return [element('p', element('code', escaped(run.header.join('; ')))), element('p', element('b', escaped(counts(history)))), ended(run),
            element('ul', said.join('')), element('div', graphs(history).join('') || '&#8203;'), element('div', lanes.parts().join('')),
            table(history)].join('');
}
