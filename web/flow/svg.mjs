// Writes XML, as tools/flow/svg.py does. Whatever text comes, the result is well-formed.

const NAMED = {'&': '&amp;', '<': '&lt;', '>': '&gt;', '"': '&quot;', "'": '&#39;'};
const UNSHOWN = /[\p{Cc}\p{Cf}\p{Cs}\p{Co}\p{Cn}\p{Zl}\p{Zp}]/u;

// A character as text of a page. One that can't be printed is shown by its number.
function shown(char) {
    const code = char.codePointAt(0);
    if (code >= 0xdc80 && code <= 0xdcff) return `\\x${(code - 0xdc00).toString(16).padStart(2, '0')}`;
    if (UNSHOWN.test(char)) return code < 256 ? `\\x${code.toString(16).padStart(2, '0')}` : `\\u${code.toString(16).padStart(4, '0')}`;
    return NAMED[char] ?? char;
}

// Texts of nothing but these characters, as most are, stay as they are.
const PLAIN = /^[ !#-%(-;=?-~]*$/;

export function escaped(text) {
    const words = String(text);
    return PLAIN.test(words) ? words : Array.from(words, shown).join('');
}

// An element. `content` is XML already; the values of attributes are texts, and one that is null is left out.
export function element(tag, content = '', attributes = {}) {
    let words = '';
    for (const [name, value] of Object.entries(attributes)) {
        if (value !== null && value !== undefined) words += ` ${name}="${escaped(value)}"`;
    }
    return content ? `<${tag}${words}>${content}</${tag}>` : `<${tag}${words}/>`;
}

export function text(x, y, words, class_, anchor = 'start', title = null) {
    const content = escaped(words) + (title ? element('title', escaped(title)) : '');
    return content ? element('text', content, {x, y, class: class_, 'text-anchor': anchor}) : '';
}

export function line(x1, y1, x2, y2, class_, title = null) {
    return element('line', title ? element('title', escaped(title)) : '', {x1, y1, x2, y2, class: class_});
}

// A text of at most so many characters.
export function cut(words, length) {
    const chars = Array.from(words);
    return chars.length <= length ? words : chars.slice(0, length - 1).join('') + '…';
}
