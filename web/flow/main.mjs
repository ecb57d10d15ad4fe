// The page: a script is typed or chosen, played, and drawn.
import {endOf, scriptsOf} from './cases.mjs';
import {legend, section} from './picture.mjs';
import {playScript} from './play.mjs';
import {Simulator, Unplayed, whyNot} from './simulator.mjs';
import {element, escaped} from './svg.mjs';

const SHOWN_ANSWERS = 2_000_000;

function byId(id) {
    return document.getElementById(id);
}

function say(words, isBad = false) {
    byId('said').textContent = words;
    byId('said').className = isBad ? 'bad' : '';
}

function bytesOf(base64) {
    return Uint8Array.from(atob(base64), (char) => char.charCodeAt(0));
}

// Selects a line of the text, and scrolls there.
function select(place) {
    const area = byId('script'), lines = area.value.split('\n');
    const from = lines.slice(0, place - 1).reduce((sum, line) => sum + line.length + 1, 0);
    area.focus();
    area.setSelectionRange(from, from + (lines[place - 1] ?? '').length);
    area.scrollTop = Math.max(0, (place - 4) * parseFloat(getComputedStyle(area).lineHeight));
}

// Shows XHTML under the style sheet of pictures, which reaches no other part of the page.
function draw(xhtml) {
    const text = element('html', element('body', xhtml), {xmlns: 'http://www.w3.org/1999/xhtml'});
    const read = new DOMParser().parseFromString(text, 'application/xhtml+xml');
    const root = byId('picture').shadowRoot ?? byId('picture').attachShadow({mode: 'open'});
    const sheet = document.createElement('style');
    sheet.textContent = byId('sheet').textContent;
    root.replaceChildren(sheet, ...Array.from(read.body.childNodes, (node) => document.importNode(node, true)));
}

// What a script writes, and what is drawn of it.
async function played(simulator, script) {
    const text = script.lines.map((line) => `${line}\n`).join('');
    const {answers, status} = await simulator.play(text);
    const run = await playScript((asked) => simulator.play(asked), script.name, script.lines);
    const end = status === 1 ? endOf(answers) : null;
    if (end && run.ended) run.ended = `line ${script.places[end.line - 1]}, \`${script.lines[end.line - 1].slice(0, 80)}\`: ${end.said}`;
    return {answers, status, run, end};
}

// Why a script came to no whole end, in words, and the line of the text; or null.
function fault(script, end) {
    if (end) {
        const place = script.places[end.line - 1];
        return {place, words: `Line ${place}, “${script.lines[end.line - 1].slice(0, 80)}”: ${end.said}.`};
    }
    if (!script.lines.length) return {place: null, words: 'The script is empty.'};
    return script.lines.includes('start') ? null : {place: null, words: 'The script never says “start”, so nothing ran.'};
}

async function playAll(simulator) {
    const scripts = scriptsOf(byId('script').value), answers = [], drawn = [legend()], faults = [];
    for (const script of scripts) {
        if (script.name !== null) drawn.push(element('h2', escaped(script.name) || '&#8203;'));
        if (script.kind !== 'script') {
            const place = script.places[0], of = script.kind === 'sockets' ? 'two TCP sockets' : 'clients';
            faults.push({place, words: `Line ${place}: a case of ${of}, which ./lan alone plays.`});
            continue;
        }
        const came = await played(simulator, script);
        answers.push(script.name === null ? came.answers : `== ${script.name}\n${came.answers}status ${came.status}\n`);
        drawn.push(section(came.run));
        const found = fault(script, came.end);
        if (found) faults.push(found);
    }
    const all = answers.join('');
    byId('answers').textContent = all.length > SHOWN_ANSWERS ? `${all.slice(0, SHOWN_ANSWERS)}\n(and ${all.length - SHOWN_ANSWERS} bytes more)` : all;
    draw(drawn.join(''));
    return faults[0] ?? null;
}

async function onPlay(simulator) {
    const button = byId('play'), began = performance.now();
    button.disabled = true;
    say('playing …');
    await new Promise((done) => setTimeout(done));
    try {
        const found = await playAll(simulator), took = ((performance.now() - began) / 1000).toFixed(2);
        say(found ? found.words : `played in ${took} s`, found !== null);
        if (found?.place) select(found.place);
    } catch (error) {
        if (!(error instanceof Unplayed)) throw error;
        say(error.message, true);
    } finally {
        button.disabled = false;
    }
}

async function begin() {
    const tours = JSON.parse(byId('tours').textContent), chosen = byId('tour');
    for (const name of Object.keys(tours)) chosen.add(new Option(name.replaceAll('_', ' '), name));
    const take = (name) => {
        byId('script').value = tours[name];
    };
    chosen.addEventListener('change', () => take(chosen.value));
    const named = decodeURIComponent(location.hash.slice(1));
    chosen.value = named in tours ? named : Object.keys(tours)[0];
    take(chosen.value);
    const why = whyNot();
    if (why) {
        say(why, true);
        return;
    }
    const simulator = await Simulator.of(bytesOf(byId('module').textContent.trim()));
    byId('play').disabled = false;
    byId('play').addEventListener('click', () => onPlay(simulator));
    byId('script').addEventListener('input', () => {
        chosen.selectedIndex = -1;
    });
    byId('script').addEventListener('keydown', (event) => {
        if (event.key === 'Enter' && (event.ctrlKey || event.metaKey)) byId('play').click();
    });
    say('ready');
    if (named in tours) await onPlay(simulator);
}

begin();
