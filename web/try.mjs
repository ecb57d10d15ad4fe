// Holds the page's parts against what is expected, in node, without a browser:
//
//     node --experimental-wasm-memory64 web/try.mjs MODULE < CASES
//
// CASES is a list in JSON of {name, script, answers, drawn}: what the program ./lan writes of the script, and what ./flow draws of it, each null
// where nothing is expected. tools/try-page makes it.
import {readFileSync} from 'node:fs';
import {scriptsOf} from './flow/cases.mjs';
import {legend, section} from './flow/picture.mjs';
import {playScript} from './flow/play.mjs';
import {Simulator, whyNot} from './flow/simulator.mjs';

// Where two texts part, with a little around it.
function difference(one, other) {
    let at = 0;
    while (at < one.length && one[at] === other[at]) at++;
    return `at ${at}: ${JSON.stringify(one.slice(Math.max(0, at - 60), at + 60))}, expected ${JSON.stringify(other.slice(Math.max(0, at - 60), at + 60))}`;
}

async function check(simulator, {script, answers, drawn}) {
    const found = [], [it] = scriptsOf(script);
    if (answers !== null) {
        const came = await simulator.play(script);
        if (came.answers !== answers) found.push(`answers differ ${difference(came.answers, answers)}`);
    }
    if (drawn !== null) {
        const run = await playScript((text) => simulator.play(text), null, script.replace(/\n$/, '').split('\n'));
        const made = legend() + section(run);
        if (made !== drawn) found.push(`the picture differs ${difference(made, drawn)}`);
    }
    if (it.kind !== 'script') found.push('it is no script of two hosts');
    return found;
}

const why = whyNot();
if (why) {
    console.log(why);
    process.exit(3);
}
const simulator = await Simulator.of(readFileSync(process.argv[2]));
const cases = JSON.parse(readFileSync(0, 'utf8'));
let bad = 0;
for (const it of cases) {
    const found = await check(simulator, it);
    for (const words of found) console.log(`${it.name}: ${words}`);
    bad += found.length > 0;
}
console.log(`${cases.length} scripts in node, ${bad} wrong`);
process.exit(bad > 0 ? 1 : 0);
