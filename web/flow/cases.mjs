// A text as scripts: one, or several behind lines `== NAME`.
import {isComment} from './play.mjs';

// Of each script its name (null of one alone), its lines, and the line of the text at which each of them stands. Empty lines and those that begin
// with `#` are left out. `kind` says what a case is of: `script`, `sockets` or `clients`; this page plays scripts alone.
export function scriptsOf(text) {
    const found = [{name: null, lines: [], places: []}];
    text.split('\n').forEach((line, k) => {
        if (line.startsWith('== ')) found.push({name: line.slice(3), lines: [], places: []});
        else if (!isComment(line)) {
            found.at(-1).lines.push(line);
            found.at(-1).places.push(k + 1);
        }
    });
    const scripts = found.length > 1 ? found.slice(1) : found;
    return scripts.map((script) => ({...script, kind: kindOf(script.lines[0] ?? '')}));
}

function kindOf(first) {
    if (/^(sockets|>)/.test(first)) return 'sockets';
    return /^(dhcp|dns|client|resolver)/.test(first) ? 'clients' : 'script';
}

// Which line of a script ended it, from 1, and what the program says; or null.
export function endOf(answers) {
    const found = /(?:^|\n)line (\d+): ([^\n]*)\n?$/.exec(answers);
    return found && {line: Number(found[1]), said: found[2]};
}
