'use strict';
const data = JSON.parse(document.getElementById('data').textContent);
const ROW = 20, LETTER = 7.3, GAP = 96, BETWEEN = 18, RED = '#c62828';
const SMALL = 100, MOST_ROWS = 24, MOST_LINES = 80, MOST_LISTED = 200;
const get = id => document.getElementById(id);
const NS = 'http://www.w3.org/2000/svg';
const entries = data.entries.map(([specifier, folder, name, label, state, flags, depth], number) => ({
  number, specifier, folder, name, label, state, depth, isRoot: !!(flags & 1), isFaulty: !!(flags & 2), out: [], in: [], faults: [], cycle: null,
  size: state.startsWith('module ') ? Number(state.split(' ')[2]) : 0 }));
const edges = data.edges.map(([a, b, kind, text]) => ({ a: entries[a], b: entries[b], kind: data.kinds[kind], text }));
for (const edge of edges) { edge.a.out.push(edge); edge.b.in.push(edge); }
for (const [number, kind, text, fault, range] of data.faults) entries[number].faults.push({ kind: data.kinds[kind], text, fault, range });
const cycles = data.cycles.map(numbers => numbers.map(number => entries[number]));
cycles.forEach((part, number) => part.forEach(entry => { entry.cycle = number; }));
const base = kind => kind.replace(/-type$/, '');
const colourOf = (kind, isRed) => isRed ? RED : data.colours[base(kind)] || '#555555';
const shorter = (text, most = 34) => text.length <= most ? text : text.slice(0, most / 2 - 1) + '…' + text.slice(-most / 2);
const number = count => count.toLocaleString('en');
const counted = (count, one, many) => `${number(count)} ${count === 1 ? one : many}`;
const bytes = size => size < 10_000 ? `${number(size)} B` : size < 10_000_000 ? `${number(Math.round(size / 1000))} kB` : `${number(Math.round(size / 1e6))} MB`;
const shown = entry => entry.specifier.startsWith('file:///') ? entry.specifier.slice(8) : entry.specifier;

// ---- folders

class Folder {
  constructor(path, above) { Object.assign(this, { path, above, below: new Map(), own: [], count: 0, size: 0, faults: 0, cycles: new Set(), roots: 0, depth: Infinity }); }
  *all() { yield* this.own; for (const below of this.below.values()) yield* below.all(); }
  take(entry) {
    this.count++; this.size += entry.size; this.roots += entry.isRoot; this.depth = Math.min(this.depth, entry.depth);
    this.faults += entry.isFaulty + entry.faults.length;
    if (entry.cycle !== null) this.cycles.add(entry.cycle);
  }
}
const whole = new Folder('', null), folders = new Map([['', whole]]);
function pathsOf(folder) {
  const found = /^([A-Za-z][A-Za-z0-9+.-]*:\/\/[^/]*\/|\/)(.*)/s.exec(folder);
  if (!found) return [folder];
  const paths = [found[1]];
  for (const name of found[2].split('/', 100)) if (name) paths.push(paths[paths.length - 1] + name + '/');
  return paths;
}
for (const entry of entries) {
  let at = whole;
  whole.take(entry);
  for (const path of pathsOf(entry.folder)) {
    if (!at.below.has(path)) { const made = new Folder(path, at); at.below.set(path, made); folders.set(path, made); }
    at = at.below.get(path);
    at.take(entry);
  }
  at.own.push(entry);
  entry.at = at;
}
/* A folder, or the first one below it that has more than one thing in it. */
function within(folder) {
  while (!folder.own.length && folder.below.size === 1) folder = [...folder.below.values()][0];
  return folder;
}

// ---- what is looked at: an address holds all of it

const usual = () => ({ view: 'folder', at: '', depth: 1, hide: new Set(), under: '' });
let now = usual(), more = new Map(), picked = null;
function address(state) {
  const parts = [];
  if (state.view !== 'folder' || state.at) parts.push(`${state.view}=${encodeURIComponent(state.at).replace(/%2F/g, '/').replace(/%3A/g, ':')}`);
  if (state.depth !== 1 && state.view === 'module') parts.push(`depth=${state.depth}`);
  if (state.hide.size) parts.push(`hide=${[...state.hide].join(',')}`);
  if (state.under) parts.push(`under=${encodeURIComponent(state.under)}`);
  return parts.join('&');
}
function entryNamed(name) { return entries.find(it => it.specifier === name || it.specifier === 'file:///' + name) || null; }
function stateOf(hash) {
  const state = usual();
  if (hash && !/^(folder|module|way|cycle|hide|under|depth)=/.test(hash)) return entryNamed(decodeURIComponent(hash)) ? { ...state, view: 'module', at: decodeURIComponent(hash) } : state;
  for (const part of hash ? hash.split('&') : []) {
    const cut = part.indexOf('='), key = part.slice(0, cut), value = decodeURIComponent(part.slice(cut + 1));
    if (key === 'depth') state.depth = Math.min(3, Math.max(1, Number(value) || 1));
    else if (key === 'hide') state.hide = new Set(value.split(',').filter(kind => data.kinds.includes(kind)));
    else if (key === 'under') state.under = value;
    else if (key === 'folder' ? folders.has(value) : key === 'cycle' ? cycles[value] : entryNamed(value)) { state.view = key; state.at = value; }
  }
  return state;
}
function go(change) {
  const state = { ...now, ...change };
  if (address(state) !== address(now) || !drawn) { location.hash = address(state); if (!drawn) come(); } else draw();
}
function come() { now = stateOf(location.hash.slice(1)); more = new Map(); draw(); }
const passes = edge => !now.hide.has(edge.kind);
const isUnder = entry => !now.under || shown(entry).includes(now.under);

// ---- what is drawn: columns of boxes, each with rows

const weight = entry => (entry.isRoot ? 4000 : 0) + (entry.isFaulty || entry.faults.length ? 2000 : 0) + (entry.cycle !== null ? 1000 : 0) + entry.in.length;
const byWeight = list => [...list].sort((a, b) => weight(b) - weight(a) || (a.specifier < b.specifier ? -1 : 1));
function rowOf(entry, isFull) {
  const marks = (entry.isRoot ? '▶ ' : '') + (entry.cycle !== null ? '↻ ' : '');
  const label = isFull ? (entry.isFaulty ? entry.label : '') : `${entry.label} ${entry.in.length}→${entry.out.length}`;
  return { name: marks + shorter(isFull ? shown(entry).split('/').slice(-2).join('/') : entry.name), label, entry };
}
/* A box with rows of these entries, the weightiest first where they are many. */
function boxOf(title, list, most, isFull, go) {
  const key = title, limit = Math.max(most, more.get(key) || 0), sorted = list.length > limit ? byWeight(list) : list;
  const rows = [];
  for (const entry of sorted.slice(0, limit)) {
    rows.push(rowOf(entry, isFull));
    for (const it of entry.faults.slice(0, 8)) rows.push({ name: shorter(JSON.stringify(it.text)), label: it.fault.split(' ')[0], entry, fault: it });
  }
  const rest = sorted.slice(limit);
  if (rest.length) rows.push({ name: `${number(rest.length)} more`, label: '', rest, act: () => { more.set(key, limit * 4); draw(); } });
  return measured({ title, rows, go });
}
function clusterOf(folder, most) {
  const said = [bytes(folder.size), folder.roots ? counted(folder.roots, 'root', 'roots') : '', folder.cycles.size ? '↻ ' + folder.cycles.size : '', folder.faults ? counted(folder.faults, 'fault', 'faults') : ''];
  const key = byWeight(folder.all()).slice(0, most), rest = new Set(folder.all());
  const rows = key.map(entry => { rest.delete(entry); return rowOf(entry, false); });
  if (rest.size || !rows.length) rows.unshift({ name: counted(folder.count, 'entry', 'entries'), label: said.filter(Boolean).join(', '), rest: [...rest], folder, act: () => go({ view: 'folder', at: folder.path }) });
  return measured({ title: folder.path, rows, depth: folder.depth, go: () => go({ view: 'folder', at: folder.path }) });
}
function measured(box) {
  const letters = Math.max(10, ...box.rows.map(row => row.name.length + row.label.length + 3));
  box.title = box.title || 'all';
  box.width = Math.max(letters * LETTER + 16, shorter(box.title, 40).length * LETTER + 24);
  box.height = ROW * (box.rows.length + 1) + 8;
  return box;
}
function columnsByDepth(boxes) {
  const levels = new Map();
  for (const box of boxes) { if (!levels.has(box.depth)) levels.set(box.depth, []); levels.get(box.depth).push(box); }
  return [...levels.keys()].sort((a, b) => a - b).map(depth => levels.get(depth));
}
/* Boxes of modules of one folder: of many, one for each number of steps from a root. */
function boxesBySteps(path, own, many, mostOf, go) {
  const steps = new Map();
  for (const entry of own) { const step = own.length > many ? entry.depth : 0; if (!steps.has(step)) steps.set(step, []); steps.get(step).push(entry); }
  return [...steps].map(([step, part]) => {
    const title = steps.size > 1 ? `${path}: ${step === 0 ? 'roots' : counted(step, 'step', 'steps') + ' from a root'}` : path;
    return { ...boxOf(title, part, mostOf(steps.size), false, go), depth: Math.min(...part.map(entry => entry.depth)) };
  });
}
function ofFolder(folder) {
  const at = within(folder), list = [...at.all()].filter(isUnder);
  if (list.length + data.faults.length <= SMALL) {
    const held = new Map();
    for (const entry of list) { if (!held.has(entry.at)) held.set(entry.at, []); held.get(entry.at).push(entry); }
    const many = held.size === 1 ? 8 : MOST_ROWS;
    return columnsByDepth([...held].flatMap(([it, own]) => boxesBySteps(it.path, own, many, () => SMALL, () => go({ view: 'folder', at: it.path }))));
  }
  const below = [...at.below.values()].map(within).filter(it => !now.under || [...it.all()].some(isUnder));
  const most = below.length > 24 ? 0 : below.length > 10 ? 2 : 6;
  return columnsByDepth([...below.map(it => clusterOf(it, most)), ...boxesBySteps(at.path, at.own.filter(isUnder), MOST_ROWS, count => count > 1 ? 16 : MOST_ROWS)]);
}
/* The entries that are so many steps away, by edges that aren't hidden. */
function stepsFrom(entry, depth, side, end) {
  const seen = new Set([entry]), found = [];
  let level = [entry];
  for (let step = 1; step <= depth && level.length; step++) {
    const next = [];
    for (const it of level) for (const edge of it[side]) if (passes(edge) && !seen.has(edge[end]) && isUnder(edge[end])) { seen.add(edge[end]); next.push(edge[end]); }
    if (next.length) found.push(next);
    level = next;
  }
  return found;
}
function ofModule(entry) {
  const before = stepsFrom(entry, now.depth, 'in', 'a').map((list, step) => [{ ...boxOf(step ? `${step + 1} steps before` : 'imported by', list, MOST_ROWS, true), isBefore: true }]).reverse();
  const behind = stepsFrom(entry, now.depth, 'out', 'b').map((list, step) => [boxOf(step ? `${step + 1} steps on` : 'imports', list, MOST_ROWS, true)]);
  return [...before, [boxOf(entry.folder, [entry], 1, true)], ...behind];
}
/* A shortest way from a root, or null. */
function wayTo(entry) {
  const came = new Map(), waiting = entries.filter(it => it.isRoot);
  for (const root of waiting) came.set(root, null);
  for (let at = 0; at < waiting.length; at++) {
    if (waiting[at] === entry) { const way = []; for (let it = entry; it; it = came.get(it)) way.unshift(it); return way; }
    for (const edge of waiting[at].out) if (passes(edge) && !came.has(edge.b)) { came.set(edge.b, waiting[at]); waiting.push(edge.b); }
  }
  return null;
}
function columnsNow() {
  if (now.view === 'module') return ofModule(entryNamed(now.at));
  if (now.view === 'way') return (wayTo(entryNamed(now.at)) || [entryNamed(now.at)]).map((it, step) => [boxOf(step ? it.folder : 'a root: ' + it.folder, [it], 1, true)]);
  if (now.view === 'cycle') {
    const held = new Map();
    for (const entry of cycles[now.at]) { if (!held.has(entry.at)) held.set(entry.at, []); held.get(entry.at).push(entry); }
    return columnsByDepth([...held].map(([it, own]) => ({ ...boxOf(it.path, own, MOST_ROWS, false), depth: Math.min(...own.map(entry => entry.depth)) })));
  }
  return ofFolder(folders.get(now.at));
}

// ---- placing

const highOf = column => column.reduce((sum, box) => sum + box.height + BETWEEN, -BETWEEN);
const wideOf = column => Math.max(...column.map(box => box.width));
/* Orders the boxes of each level by what they are tied to. */
function order(levels, ties) {
  for (const box of levels.flat()) box.tied = [];
  for (const [one, other] of ties) if (one !== other) { one.tied.push(other); other.tied.push(one); }
  for (const level of levels) level.forEach((box, at) => { box.order = (at + 0.5) / level.length; });
  for (let round = 0; round < 6; round++) {
    for (const level of levels) {
      for (const box of level) box.mean = box.tied.length ? box.tied.reduce((sum, other) => sum + other.order, 0) / box.tied.length : box.order;
      level.sort((a, b) => a.mean - b.mean || (a.title < b.title ? -1 : 1));
      level.forEach((box, at) => { box.order = (at + 0.5) / level.length; });
    }
  }
}
/* The levels as columns of at most a height, in bands of at most a width. */
function bandsOf(levels, mostHigh, mostWide) {
  const columns = [], bands = [];
  for (const level of levels) {
    let high = null;
    for (const box of level) {
      if (high === null || high + box.height > mostHigh) { columns.push([]); high = 0; }
      columns[columns.length - 1].push(box);
      high += box.height + BETWEEN;
    }
  }
  let wide = null;
  for (const column of columns) {
    if (wide === null || wide + wideOf(column) > mostWide) { bands.push([]); wide = 0; }
    bands[bands.length - 1].push(column);
    wide += wideOf(column) + GAP;
  }
  return bands;
}
const sizeOf = bands => ({
  wide: Math.max(0, ...bands.map(band => band.reduce((sum, column) => sum + wideOf(column) + GAP, -GAP))) + 96,
  high: bands.reduce((sum, band) => sum + Math.max(...band.map(highOf)) + 2 * BETWEEN, 20),
});
const scaleOf = size => Math.min(1.25, get('view').clientWidth / size.wide, get('view').clientHeight / size.high);
/* Gives each box its place: of several shapes the one that fills the view best. */
function place(levels, ties, isOneRow) {
  order(levels, ties);
  const boxes = levels.flat(), view = get('view'), shape = view.clientWidth / Math.max(1, view.clientHeight);
  const side = Math.sqrt(boxes.reduce((sum, box) => sum + (box.width + GAP) * (box.height + BETWEEN), 0) / shape), least = Math.max(1, ...boxes.map(box => box.height));
  let best = null;
  for (const high of isOneRow ? [Infinity] : [0.4, 0.55, 0.7, 0.85, 1, 1.2, 1.5]) {
    for (const wide of isOneRow ? [Infinity] : [0.9, 1.1, 1.35, 1.7, 2.2]) {
      const bands = bandsOf(levels, Math.max(least, side * high), Math.max(600, side * shape * wide)), size = sizeOf(bands), scale = scaleOf(size) * (1 - 0.03 * bands.length);
      if (!best || scale > best.scale) best = { bands, size, scale };
    }
  }
  let top = 20;
  for (const band of best.bands) {
    const high = Math.max(...band.map(highOf));
    let left = 24;
    for (const column of band) {
      let y = top + (high - highOf(column)) / 2;
      for (const box of column) { box.x = left; box.y = y; y += box.height + BETWEEN; }
      left += wideOf(column) + GAP;
    }
    top += high + 2 * BETWEEN;
  }
  return { boxes, ...best.size };
}

// ---- drawing

const svg = document.querySelector('svg'), all = get('all');
let x = 0, y = 0, scale = 1, drawn = null, lines = [], rows = [], cursor = -1;
function show() { all.setAttribute('transform', `translate(${x} ${y}) scale(${scale})`); }
function fit() {
  const view = get('view');
  scale = Math.max(now.view === 'module' ? 0.7 : 0.3, scaleOf(drawn));
  const row = now.view === 'module' && scale > scaleOf(drawn) ? rows[cursor] : null;
  if (row) { x = view.clientWidth / 2 - scale * (row.left + row.right) / 2; y = view.clientHeight / 2 - scale * row.y; show(); return; }
  x = Math.max(0, (view.clientWidth - scale * drawn.wide) / 2); y = Math.max(0, (view.clientHeight - scale * drawn.high) / 2);
  show();
}
function make(name, attributes, text) {
  const made = document.createElementNS(NS, name);
  for (const key in attributes) made.setAttribute(key, attributes[key]);
  if (text !== undefined) made.textContent = text;
  return made;
}
function curve(one, other) {
  const f = number => number.toFixed(0);
  if (other.left >= one.right + 10) {
    const bend = Math.max(24, Math.min(90, (other.left - one.right) / 2));
    return `M${f(one.right)} ${f(one.y)}C${f(one.right + bend)} ${f(one.y)} ${f(other.left - bend)} ${f(other.y)} ${f(other.left)} ${f(other.y)}`;
  }
  if (other.right <= one.left - 10) {
    const bend = Math.max(24, Math.min(90, (one.left - other.right) / 2));
    return `M${f(one.left)} ${f(one.y)}C${f(one.left - bend)} ${f(one.y)} ${f(other.right + bend)} ${f(other.y)} ${f(other.right)} ${f(other.y)}`;
  }
  const out = Math.max(one.right, other.right) + 16 + Math.min(60, Math.abs(one.y - other.y) * 0.35);
  return `M${f(one.right)} ${f(one.y)}C${f(out)} ${f(one.y)} ${f(out)} ${f(other.y)} ${f(other.right)} ${f(other.y)}`;
}
function kindOf(row) {
  if (row.fault) return 'nowhere';
  if (row.entry) return (row.entry.isFaulty ? 'fault' : row.entry.isRoot ? 'root' : '') + (row.entry.cycle !== null ? ' cyclic' : '');
  return 'closed' + (row.folder && row.folder.faults ? ' faults' : '');
}
function draw() {
  const levels = columnsNow(), of = new Map(), before = new Map();
  for (const box of levels.flat()) {
    for (const row of box.rows) {
      row.box = box;
      const rows = box.isBefore ? before : of;
      if (row.entry && !row.fault) rows.set(row.entry, row);
      for (const entry of row.rest || []) rows.set(entry, row);
    }
  }
  const held = heldEdges(of, before);
  drawn = place(levels, held.map(it => [it.one.box, it.other.box]), now.view === 'module' || now.view === 'way');
  all.replaceChildren();
  rows = [];
  const boxLayer = make('g', {}), edgeLayer = make('g', {}), rowLayer = make('g', {});
  for (const box of drawn.boxes) drawBox(box, boxLayer, rowLayer);
  drawEdges(edgeLayer, held);
  all.append(boxLayer, edgeLayer, rowLayer);
  picked = now.view === 'module' || now.view === 'way' ? entryNamed(now.at) : null;
  cursor = rows.findIndex(row => row.entry && row.entry === picked);
  light(picked && of.get(picked), false);
  tell();
  fit();
}
function drawBox(box, boxLayer, rowLayer) {
  boxLayer.append(make('rect', { class: 'folder', x: box.x - 8, y: box.y, width: box.width + 16, height: box.height, rx: 6 }));
  const head = make('text', { class: 'name' + (box.go ? ' head' : ''), x: box.x, y: box.y + 14 }, shorter(box.title, 40));
  head.append(make('title', {}, box.title));
  if (box.go) head.addEventListener('click', box.go);
  rowLayer.append(head);
  box.rows.forEach((row, at) => {
    const upper = box.y + ROW * (at + 1), group = make('g', { class: 'row ' + kindOf(row) });
    group.append(make('title', {}, row.fault ? `${row.fault.kind} ${row.fault.range} ${row.fault.text} ! ${row.fault.fault}` : row.entry ? `${row.entry.specifier}\n${row.entry.state}` : box.title));
    group.append(make('rect', { class: 'cell', x: box.x, y: upper + 1, width: box.width, height: ROW - 2, rx: 3 }));
    group.append(make('text', { x: box.x + (row.fault ? 18 : 6), y: upper + 14 }, row.name));
    group.append(make('text', { class: 'state', x: box.x + box.width - 6, y: upper + 14 }, row.label));
    row.act = row.act || (() => pick(row.entry));
    group.addEventListener('click', row.act);
    group.addEventListener('pointerenter', () => light(row));
    group.addEventListener('pointerleave', () => light(rows[cursor], false));
    Object.assign(row, { left: box.x, right: box.x + box.width, y: upper + ROW / 2, group });
    rows.push(row);
    rowLayer.append(group);
  });
}
/* The edges between rows that are shown, those between the same two as one. */
function heldEdges(of, before) {
  const held = new Map(), centre = now.view === 'module' ? entryNamed(now.at) : null;
  for (const edge of edges) {
    // what is before and behind the centre has two rows
    const one = (edge.b === centre || before.has(edge.b) ? before.get(edge.a) : null) || of.get(edge.a) || before.get(edge.a);
    const other = (one && one.box.isBefore && edge.b !== centre ? before.get(edge.b) : null) || of.get(edge.b) || before.get(edge.b);
    if (!one || !other || !passes(edge) || (one === other && edge.a !== edge.b)) continue;
    if (!one.to) one.to = new Map();
    if (!one.to.has(other)) { const made = { one, other, list: [] }; one.to.set(other, made); held.set(made, made); }
    one.to.get(other).list.push(edge);
  }
  return [...held.keys()].sort((a, b) => b.list.length - a.list.length);
}
function drawEdges(layer, held) {
  const clear = held.length < 60 ? 0.85 : 0.45, most = held.length > 400 ? MOST_LINES / 2 : MOST_LINES;
  lines = held.map(({ one, other, list }, rank) => {
    const kinds = new Map();
    for (const edge of list) kinds.set(edge.kind, (kinds.get(edge.kind) || 0) + 1);
    const kind = [...kinds].sort((a, b) => b[1] - a[1])[0][0], isRed = list.every(edge => edge.b.isFaulty);
    const path = make('path', {
      class: 'edge' + (kind !== base(kind) ? ' type' : '') + (data.lazy.includes(base(kind)) ? ' lazy' : ''),
      stroke: colourOf(kind, isRed), d: curve(one, other), opacity: rank < most ? clear : 0, 'marker-end': `url(#to${colourOf(kind, isRed).slice(1)})`,
    });
    if (list.length > 1) path.style.strokeWidth = (1.3 + Math.log2(list.length) * 0.6).toFixed(1);
    path.append(make('title', {}, list.length === 1 ? `${list[0].kind} ${list[0].text}\n${list[0].a.specifier}\n-> ${list[0].b.specifier}` : [...kinds].map(([name, count]) => `${name} ${count}`).join(', ')));
    layer.append(path);
    return { path, one, other };
  });
}
/* What isn't tied to a row fades. */
function light(row, fades = true) {
  svg.classList.toggle('some', !!row && fades);
  svg.querySelectorAll('.row.on, .row.picked').forEach(it => it.classList.remove('on', 'picked'));
  for (const { path, one, other } of lines) {
    const isOn = !!row && (one === row || other === row);
    path.classList.toggle('on', isOn);
    if (isOn) { one.group.classList.add('on'); other.group.classList.add('on'); }
  }
  if (row) row.group.classList.add('on', 'picked');
}

// ---- the panel

function pick(entry) { go({ view: 'module', at: shown(entry), depth: now.view === 'module' ? now.depth : 1 }); }
function element(name, text, more = {}) { const made = Object.assign(document.createElement(name), more); if (text !== undefined) made.textContent = text; return made; }
function link(text, act) { return element('a', text, { tabIndex: 0, onclick: act, onkeydown: event => { if (event.key === 'Enter') act(); } }); }
function item(kind, node, isRed, told) {
  const made = element('li', undefined, { className: isRed ? 'red' : '' });
  if (kind) made.append(element('span', kind + ' ', { className: 'kind' }));
  made.append(node);
  if (told) made.append(element('span', ' ' + told, { className: 'kind' }));
  return made;
}
function list(title, items) {
  const made = element('ul');
  made.append(...items.slice(0, MOST_LISTED));
  if (items.length > MOST_LISTED) made.append(item('', `and ${number(items.length - MOST_LISTED)} more`));
  return [element('h4', `${title} (${number(items.length)})`), made];
}
const toEntry = entry => link(shown(entry), () => pick(entry));
const faulty = entries.flatMap(it => [...(it.isFaulty ? [[it, it.state.slice(6)]] : []), ...it.faults.map(fault => [it, `${fault.text}: ${fault.fault.split(' ')[0]}`])]);
function tell() {
  const panel = get('told'), at = now.view === 'cycle' ? null : picked;
  panel.replaceChildren();
  if (at) panel.append(...tellEntry(at));
  else if (now.view === 'cycle') panel.append(element('h3', 'A cycle'), ...list('modules that load each other', cycles[now.at].map(it => item('', toEntry(it)))));
  else panel.append(...tellFolder(within(folders.get(now.at))));
  const crumbs = get('crumbs');
  crumbs.replaceChildren(link('all', () => go({ view: 'folder', at: '' })));
  for (const path of at ? pathsOf(at.folder) : now.view === 'folder' && now.at ? pathsOf(now.at) : []) crumbs.append(' › ', link(shorter(path, 40), () => go({ view: 'folder', at: path })));
  if (at) crumbs.append(' › ' + at.name);
  get('depths').hidden = now.view !== 'module';
  for (const button of get('depths').querySelectorAll('button')) button.classList.toggle('on', Number(button.value) === now.depth);
  for (const box of get('legend').querySelectorAll('input')) box.checked = !now.hide.has(box.value);
  get('under').value = now.under;
}
function tellEntry(entry) {
  const way = wayTo(entry);
  const head = [element('h3', shown(entry)), element('div', entry.state + (entry.isRoot ? ', a root' : ''), { className: entry.isFaulty ? 'red' : '' })];
  if (now.view === 'module') head.push(way ? link(`the way from a root: ${counted(way.length - 1, 'step', 'steps')}`, () => go({ view: 'way' })) : element('div', 'no way from a root by these kinds of edges'));
  else head.push(link('what is near it', () => go({ view: 'module' })));
  if (entry.cycle !== null) head.push(element('br'), link(`↻ in a cycle of ${number(cycles[entry.cycle].length)}`, () => go({ view: 'cycle', at: String(entry.cycle) })));
  return [...head,
    ...list('imports', [...entry.faults.map(it => item(it.kind, `${it.text}: ${it.fault}`, true)), ...entry.out.filter(passes).map(edge => item(edge.kind, toEntry(edge.b), edge.b.isFaulty))]),
    ...list('imported by', entry.in.filter(passes).map(edge => item(edge.kind, toEntry(edge.a))))];
}
function tellFolder(folder) {
  const inside = entry => folder === whole || pathsOf(entry.folder).includes(folder.path);
  const heavy = [...folders.values()].filter(it => it !== whole && it !== folder && within(it) === it && it.own.length && (folder === whole || it.path.startsWith(folder.path))).sort((a, b) => b.size - a.size || b.count - a.count);
  return [
    ...list('Roots', entries.filter(it => it.isRoot && inside(it)).map(it => item('', toEntry(it), it.isFaulty))),
    ...list('Faults', faulty.filter(([it]) => inside(it)).map(([it, said]) => item('', toEntry(it), true, said))),
    ...list('Cycles', cycles.flatMap((part, at) => part.some(inside) ? [item('', link(shown(part[0]), () => go({ view: 'cycle', at: String(at) })), false, counted(part.length, 'module', 'modules'))] : [])),
    ...list('Heaviest folders', heavy.slice(0, 12).map(it => item('', link(it.path, () => go({ view: 'folder', at: it.path })), it.faults > 0, `${bytes(it.size)}, ${counted(it.count, 'entry', 'entries')}`))),
    ...list('Most imported', byIn(folder).slice(0, 12).map(it => item('', toEntry(it), it.isFaulty, counted(it.in.length, 'importer', 'importers')))),
  ];
}
function byIn(folder) { return [...folder.all()].filter(it => it.in.length > 1).sort((a, b) => b.in.length - a.in.length); }

// ---- what the reader does

get('search').addEventListener('input', event => {
  const word = event.target.value.toLowerCase();
  const fitting = word ? entries.filter(it => it.specifier.toLowerCase().includes(word) || it.state.toLowerCase().includes(word)) : [];
  get('found').replaceChildren(...fitting.slice(0, 40).map(it => item('', toEntry(it), it.isFaulty)));
  if (fitting.length > 40) get('found').append(item('', `and ${number(fitting.length - 40)} more`));
});
get('search').addEventListener('keydown', event => { if (event.key === 'Enter') get('found').querySelector('a')?.click(); });
get('under').addEventListener('change', event => go({ under: event.target.value.trim() }));
get('fit').addEventListener('click', fit);
get('home').addEventListener('click', () => go(usual()));
for (const button of get('depths').querySelectorAll('button')) button.addEventListener('click', () => go({ depth: Number(button.value) }));
function zoom(factor, left, upper) {
  const next = Math.min(4, Math.max(0.02, scale * factor));
  x = left - (left - x) * next / scale; y = upper - (upper - y) * next / scale;
  scale = next; show();
}
const view = get('view');
view.addEventListener('wheel', event => { event.preventDefault(); zoom(Math.exp(-event.deltaY * 0.0015), event.clientX, event.clientY); }, { passive: false });
let from = null, moved = 0;
view.addEventListener('pointerdown', event => { from = [event.clientX - x, event.clientY - y]; moved = 0; });
view.addEventListener('pointermove', event => {
  if (!from) return;
  moved += Math.abs(event.movementX) + Math.abs(event.movementY);
  x = event.clientX - from[0]; y = event.clientY - from[1]; show();
});
window.addEventListener('pointerup', () => { from = null; });
view.addEventListener('click', event => { if (moved > 5) event.stopPropagation(); }, true);
window.addEventListener('resize', fit);
window.addEventListener('hashchange', come);
/* Moves to the closest row in a direction. */
function step(right, down) {
  const here = rows[cursor];
  if (!here) { cursor = 0; }
  else {
    const away = row => { const dx = (row.left + row.right - here.left - here.right) / 2, dy = row.y - here.y; return right ? (dx * right > 10 ? Math.abs(dx) + 2 * Math.abs(dy) : Infinity) : (dy * down > 1 && Math.abs(dx) < 40 ? Math.abs(dy) : Infinity); };
    const best = rows.reduce((a, b) => away(b) < away(a) ? b : a, here);
    if (away(best) < Infinity) cursor = rows.indexOf(best);
  }
  const row = rows[cursor], left = x + scale * row.left, upper = y + scale * row.y;
  if (left < 0 || left > view.clientWidth - 100) x = view.clientWidth / 2 - scale * row.left;
  if (upper < 20 || upper > view.clientHeight - 20) y = view.clientHeight / 2 - scale * row.y;
  show(); light(row);
}
/* The closest folder above that has more in it than the one that is shown. */
function above() {
  const here = within(folders.get(now.at) || whole);
  let at = here.above;
  while (at && within(at) === here) at = at.above;
  return at || whole;
}
const KEYS = {
  ArrowRight: () => step(1, 0), ArrowLeft: () => step(-1, 0), ArrowDown: () => step(0, 1), ArrowUp: () => step(0, -1),
  Enter: () => rows[cursor]?.act(), Backspace: () => history.back(), Escape: () => go({ view: 'folder', at: picked ? picked.at.path : above().path }),
  '/': () => get('search').focus(), 0: fit, h: () => go(usual()), '+': () => zoom(1.3, view.clientWidth / 2, view.clientHeight / 2), '-': () => zoom(1 / 1.3, view.clientWidth / 2, view.clientHeight / 2),
  1: () => go({ depth: 1 }), 2: () => go({ depth: 2 }), 3: () => go({ depth: 3 }), w: () => { if (picked) go({ view: now.view === 'way' ? 'module' : 'way' }); },
};
window.addEventListener('keydown', event => {
  if (event.ctrlKey || event.metaKey || event.altKey || event.target.tagName === 'INPUT' || (event.key === 'Enter' && event.target.tagName === 'A')) return;
  if (Object.hasOwn(KEYS, event.key)) { event.preventDefault(); KEYS[event.key](); }
});

const colours = [...new Set([...data.kinds.map(kind => colourOf(kind, false)), RED])];
for (const colour of colours) {
  const marker = make('marker', { id: 'to' + colour.slice(1), viewBox: '0 0 8 8', refX: 7, refY: 4, markerWidth: 7, markerHeight: 7, markerUnits: 'userSpaceOnUse', orient: 'auto' });
  marker.append(make('path', { d: 'M0 0 8 4 0 8z', fill: colour }));
  svg.querySelector('defs').append(marker);
}
get('counts').textContent = data.counts;
for (const kind of data.kinds) {
  const row = element('label'), box = element('input', undefined, { type: 'checkbox', checked: true, value: kind });
  row.append(box, ` ${kind} ${number(edges.filter(edge => edge.kind === kind).length)}`);
  row.style.color = colourOf(kind, false);
  box.addEventListener('change', () => { const hide = new Set(now.hide); if (box.checked) hide.delete(kind); else hide.add(kind); go({ hide }); });
  get('legend').append(row);
}
come();
document.body.dataset.ready = Math.round(performance.now());
