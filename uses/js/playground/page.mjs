// The playground: the text on the left is read at each change, and what was read stands on the right.
import { EcmaError, canonical, comments, errors, imports, loadSync, tokenArray } from '../ecma/ecma.mjs';

/** Longer texts are not coloured, and lists show this many rows around the cursor. */
const MOST_PAINTED = 100_000;
const MOST_ROWS = 1_000;
/** Longer texts are not put into the address. */
const MOST_SHARED = 20_000;

const part = (id) => document.getElementById(id);
const text = part('text'), settings = part('settings'), panel = part('panel'), said = part('said');

/** What was read of the text last. */
let read = { tokens: [], comments: [], errors: [], imports: [[], [], true, false], canonical: null };
let spans = [], current = -1, shown = 'tokens';

function loadModule() {
    const modules = JSON.parse(part('modules').textContent);
    const bytes = (name) => Uint8Array.from(atob(modules[name]), (letter) => letter.charCodeAt(0));
    try {
        loadSync(bytes('ecma.wasm'));
    } catch {
        // An engine without SIMD.
        loadSync(bytes('ecma-plain.wasm'));
    }
}

function optionsChosen() {
    return Object.fromEntries([...settings.elements].map((box) => [box.name, box.checked]));
}

function readText() {
    const options = optionsChosen(), source = text.value;
    try {
        read = {
            tokens: tokenArray(source, options), comments: comments(source, options), errors: errors(source, options),
            imports: imports(source, options), canonical: canonical(source, options),
        };
    } catch (error) {
        if (!(error instanceof EcmaError)) throw error;
        read = { tokens: [], comments: [], errors: [{ start: 0, end: 0, message: error.message }], imports: [[], [], true, false], canonical: null };
    }
}

function element(name, className, content) {
    const made = document.createElement(name);
    if (className) made.className = className;
    if (content !== undefined) made.textContent = content;
    return made;
}

/** Tokens and comments, in the order of the text. */
function pieces() {
    const found = read.comments.map((it) => ({ start: it.start, end: it.end, type: 'comment' })).sort((a, b) => a.start - b.start);
    const all = [];
    let at = 0;
    for (const token of read.tokens) {
        while (at < found.length && found[at].start < token.start) all.push(found[at++]);
        all.push(token);
    }
    return all.concat(found.slice(at));
}

function paint() {
    const source = text.value, painted = document.createDocumentFragment();
    spans = [];
    let at = 0;
    if (source.length <= MOST_PAINTED) {
        for (const piece of pieces()) {
            painted.append(source.slice(at, piece.start));
            const span = element('span', piece.type, source.slice(piece.start, piece.end));
            if (piece.type !== 'comment') spans.push(span);
            painted.append(span);
            at = piece.end;
        }
    }
    painted.append(source.slice(at));
    part('painted').replaceChildren(painted);
    underline(source);
}

function underline(source) {
    const drawn = document.createDocumentFragment();
    let at = 0;
    for (const { start, end } of read.errors) {
        // An error without length is drawn below the place behind it, and of errors that overlap what is new. There is nothing to
        // draw below at the end of a line or of the text: a blank takes its place.
        const from = Math.max(at, start), to = Math.max(end, start + 1);
        if (to <= from) continue;
        const covered = source.slice(from, to);
        drawn.append(source.slice(at, from), element('u', '', covered === '' || covered === '\n' ? ` ${covered}` : covered));
        at = to;
    }
    drawn.append(source.slice(at));
    part('underlined').replaceChildren(drawn);
}

function lineAndColumn(place) {
    const before = text.value.slice(0, place).split('\n');
    return `${before.length}:${before.at(-1).length + 1}`;
}

/** The message of the error at the cursor, or of the first. */
function sayErrors() {
    const place = text.selectionStart, found = read.errors;
    const here = found.find((it) => it.start <= place && place <= Math.max(it.end, it.start + 1)) ?? found[0];
    said.classList.toggle('wrong', here !== undefined);
    if (!here) said.textContent = `${read.tokens.length} tokens, no errors`;
    else said.textContent = `${found.length === 1 ? '1 error' : `${found.length} errors`}. ${lineAndColumn(here.start)}: ${here.message}`;
}

const shortened = (content) => (content.length > 200 ? `${content.slice(0, 200)}…` : content);
const sliceOf = (it) => shortened(text.value.slice(it.start, it.end));

function shownValue(token) {
    if (token.type === 'punctuator' || !token.respelled) return '';
    const value = token.value;
    return typeof value === 'string' ? shortened(JSON.stringify(value)) : String(value);
}

/** What a list shows: its columns, and of each row where it stands in the text. */
const LISTS = {
    tokens: () => ({
        head: ['Place', 'Type', 'Text', 'Value, where it differs', 'New line'],
        rows: read.tokens, cells: (it) => [`${it.start}–${it.end}`, it.type, sliceOf(it), shownValue(it), it.lineBreakBefore ? 'yes' : ''],
    }),
    comments: () => ({
        head: ['Place', 'Type', 'Text', 'Belongs to the token'],
        rows: read.comments,
        cells: (it) => [`${it.start}–${it.end}`, it.type, sliceOf(it), `${it.trailing ? 'that ends' : 'that begins'} at ${it.attachedTo}`],
    }),
    errors: () => ({
        head: ['Place', 'Line', 'Message'],
        rows: read.errors, cells: (it) => [`${it.start}–${it.end}`, lineAndColumn(it.start), it.message],
    }),
    imports: () => ({
        head: ['Place', 'How', 'Name', 'Local name'],
        rows: [...read.imports[0].map(importRow), ...read.imports[1].map(exportRow)].sort((a, b) => a.start - b.start),
        cells: (it) => [`${it.start}–${it.end}`, it.how, it.name, it.local],
    }),
};

function importRow({ n, s, e, d }) {
    const how = d === -2 ? 'import.meta' : d === -1 ? 'import' : 'import()';
    return { start: s, end: e, how, name: n ?? (d === -2 ? '' : text.value.slice(s, e)), local: '' };
}

function exportRow({ n, ln, s, e }) {
    return { start: s, end: e, how: 'export', name: n, local: ln ?? '' };
}

const CODE_COLUMNS = ['Text', 'Name', 'Local name', 'Value, where it differs'];
const WIDE_COLUMNS = ['New line', 'Value, where it differs', 'Belongs to the token'];

function listOf({ head, rows, cells }) {
    const table = element('table'), top = element('tr'), body = element('tbody');
    const classes = head.map((it) => [CODE_COLUMNS.includes(it) && 'code', WIDE_COLUMNS.includes(it) && 'wide', it === 'Place' && 'place'].filter(Boolean).join(' '));
    head.forEach((it, i) => top.append(Object.assign(element('th', classes[i].replace('code', ''), it), { scope: 'col' })));
    const first = Math.max(0, Math.min(current - MOST_ROWS / 2, rows.length - MOST_ROWS));
    rows.slice(first, first + MOST_ROWS).forEach((it, i) => {
        const row = element('tr');
        Object.assign(row.dataset, { start: it.start, end: it.end, number: first + i });
        cells(it).forEach((content, column) => row.append(element('td', classes[column], content)));
        body.append(row);
    });
    const header = element('thead');
    header.append(top);
    table.append(header, body);
    return [rows.length > MOST_ROWS ? element('p', '', `${MOST_ROWS} of ${rows.length} rows, around the cursor`) : '', table];
}

function showCanonical() {
    if (read.canonical === null) return [element('p', '', 'The text has errors, so it has no canonical text.')];
    return [element('pre', '', read.canonical.slice(0, MOST_PAINTED))];
}

const NOTHING = { tokens: 'There are no tokens.', comments: 'There are no comments.', errors: 'There are no errors.', imports: 'Nothing is imported or exported.' };

function show() {
    const list = LISTS[shown]?.();
    if (!list) panel.replaceChildren(...showCanonical());
    else panel.replaceChildren(...(list.rows.length ? listOf(list) : [element('p', '', NOTHING[shown])]));
    markRow();
}

const TABS = { tokens: 'Tokens', comments: 'Comments', errors: 'Errors', imports: 'Imports', canonical: 'Canonical text' };

function makeTabs() {
    for (const [name, title] of Object.entries(TABS)) {
        const tab = element('button', '', `${title} `);
        tab.append(element('span', 'number-of'));
        Object.assign(tab, { type: 'button', id: `tab-${name}`, onclick: () => choose(name) });
        tab.setAttribute('role', 'tab');
        tab.setAttribute('aria-controls', 'panel');
        part('tabs').append(tab);
    }
    part('tabs').addEventListener('keydown', (event) => {
        const step = { ArrowRight: 1, ArrowLeft: -1 }[event.key], names = Object.keys(TABS);
        if (!step) return;
        choose(names[(names.indexOf(shown) + step + names.length) % names.length]);
        part(`tab-${shown}`).focus();
    });
}

function choose(name) {
    shown = name;
    updateTabs();
    show();
}

function updateTabs() {
    const numbers = { tokens: read.tokens.length, comments: read.comments.length, errors: read.errors.length, imports: read.imports[0].length + read.imports[1].length };
    for (const name of Object.keys(TABS)) {
        const tab = part(`tab-${name}`);
        tab.setAttribute('aria-selected', String(name === shown));
        tab.tabIndex = name === shown ? 0 : -1;
        tab.lastChild.textContent = numbers[name] ?? '';
    }
    panel.setAttribute('aria-labelledby', `tab-${shown}`);
}

/** The number of the token at a place: the one that begins there, or else has it within or at its end. */
function tokenAt(place) {
    let low = 0, high = read.tokens.length;
    while (low < high) {
        const middle = (low + high) >> 1;
        if (read.tokens[middle].start <= place) low = middle + 1;
        else high = middle;
    }
    return low > 0 && place <= read.tokens[low - 1].end ? low - 1 : -1;
}

function markCursor() {
    const next = tokenAt(text.selectionStart);
    spans[current]?.classList.remove('current');
    current = next;
    spans[current]?.classList.add('current');
    const rows = panel.querySelectorAll('tbody tr');
    const isOutside = shown === 'tokens' && current >= 0 && rows.length && (current < +rows[0].dataset.number || current > +rows[rows.length - 1].dataset.number);
    if (isOutside) show();
    else markRow();
    sayErrors();
}

function markRow() {
    for (const row of panel.querySelectorAll('tr.current')) row.classList.remove('current');
    if (shown !== 'tokens' || current < 0) return;
    const row = panel.querySelector(`tr[data-number="${current}"]`);
    row?.classList.add('current');
    row?.scrollIntoView({ block: 'nearest' });
}

/** Selects a part of the text, and scrolls to it. */
function select(start, end) {
    text.setSelectionRange(start, end);
    markCursor();
    const span = spans[current];
    if (!span) return;
    const { offsetTop, offsetLeft } = span;
    if (offsetTop < text.scrollTop || offsetTop > text.scrollTop + text.clientHeight - 40) text.scrollTop = offsetTop - text.clientHeight / 2;
    if (offsetLeft < text.scrollLeft || offsetLeft > text.scrollLeft + text.clientWidth - 40) text.scrollLeft = offsetLeft - 40;
}

panel.addEventListener('click', (event) => {
    const row = event.target.closest('tr[data-start]');
    if (row && getSelection().isCollapsed) select(+row.dataset.start, +row.dataset.end);
});

panel.addEventListener('keydown', (event) => {
    const step = { ArrowDown: 1, ArrowUp: -1 }[event.key];
    if (!step || shown !== 'tokens' || !read.tokens.length) return;
    event.preventDefault();
    const token = read.tokens[Math.max(0, Math.min(read.tokens.length - 1, current + step))];
    select(token.start, token.end);
});

/** The address shares text and settings. */
function share() {
    const chosen = Object.entries(optionsChosen()).filter(([, isOn]) => isOn).map(([name]) => name).join(' ');
    const fragment = text.value.length > MOST_SHARED ? '' : `#${new URLSearchParams({ text: text.value, ...(chosen && { options: chosen }) })}`;
    history.replaceState(null, '', fragment || location.href.split('#')[0]);
}

function takeShared() {
    const given = new URLSearchParams(location.hash.slice(1));
    const chosen = (given.get('options') ?? '').split(' ');
    for (const box of settings.elements) box.checked = chosen.includes(box.name);
    text.value = given.get('text') ?? text.defaultValue;
}

function update() {
    readText();
    current = -1;
    paint();
    updateTabs();
    show();
    markCursor();
}

function changed() {
    update();
    share();
}

text.addEventListener('input', changed);
settings.addEventListener('input', changed);
settings.addEventListener('submit', (event) => event.preventDefault());
document.addEventListener('selectionchange', () => document.activeElement === text && markCursor());
addEventListener('hashchange', () => {
    takeShared();
    update();
});
text.addEventListener('scroll', () => {
    for (const layer of [part('painted'), part('underlined')]) layer.style.transform = `translate(${-text.scrollLeft}px, ${-text.scrollTop}px)`;
});

loadModule();
makeTabs();
takeShared();
update();
document.body.dataset.ready = 'yes';
