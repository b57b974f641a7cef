// Making elements: of forms, of tables, and of keys with bands beside them.
import {isIn, isPoint, placeOf, rangeInWords, written} from './keys.mjs';
import {cellOf, formText} from './store.mjs';

// An element, by its name and its classes with points between, its attributes and what it holds.
export function h(name, attributes = {}, ...kids) {
  const [tag, ...classes] = name.split('.');
  const made = document.createElement(tag);
  if (classes.length) made.className = classes.join(' ');
  for (const [key, value] of Object.entries(attributes)) {
    if (key.startsWith('on')) made.addEventListener(key.slice(2), value);
    else if (typeof value === 'boolean') made.toggleAttribute(key, value);
    else if (value !== undefined) made.setAttribute(key, value);
  }
  made.append(...kids.flat().filter((it) => it !== null && it !== undefined));
  return made;
}

export function button(text, act, attributes = {}) {
  return h('button', {type: 'button', onclick: act, ...attributes}, text);
}

export function field(label, input) {
  return h('label.field', {}, h('span', {}, label), input);
}

// A list to choose from, which keeps what is chosen as long as it is there.
export function choice(options, attributes = {}) {
  const made = h('select', attributes);
  made.offer = (names) => {
    const {value} = made;
    made.replaceChildren(...names.map((it) => h('option', {}, it)));
    if (names.includes(value)) made.value = value;
  };
  made.offer(options);
  return made;
}

// A place that says what came of the last thing done there.
export function told() {
  const made = h('p.told', {role: 'status'});
  made.tell = (text, isBad = false) => {
    made.textContent = text;
    made.classList.toggle('bad', isBad);
  };
  return made;
}

// A form for the cells of a type's fields.
export function cellForm() {
  const made = h('div.fields');
  let kinds = [];
  made.show = (fields) => {
    if (written(fields) === written(kinds)) return;
    kinds = fields;
    made.replaceChildren(...fields.map(([name, kind]) =>
      field(`${name} (${kind})`, h('input', {name, autocomplete: 'off', spellcheck: 'false'}))));
  };
  made.cells = () => [...made.querySelectorAll('input')].map((it, place) => cellOf(it.value, kinds[place][1]));
  made.fill = (cells) => made.querySelectorAll('input').forEach((it, place) => { it.value = formText(cells[place]); });
  return made;
}

// A table with a heading, names of columns and rows of texts; a row may be lit.
export function table(caption, names, rows) {
  const head = h('tr', {}, names.map((it) => h('th', {scope: 'col'}, it)));
  const body = rows.map(({cells, isLit, tail}) => h(isLit ? 'tr.lit' : 'tr', {},
    cells.map((it) => h('td', {}, shown(it))), tail ? h('td.tail', {}, tail) : null));
  return h('div.table', {tabindex: '0', role: 'region', 'aria-label': caption},
    h('table', {}, h('caption', {}, caption), h('thead', {}, head), h('tbody', {}, body)));
}

// A cell as it stands in a table.
export function shown(cell) {
  if (cell === null || cell === undefined) return '–';
  if (typeof cell === 'string') return cell;
  return cell.hex === undefined ? String(cell) : `0x${cell.hex}`;
}

// A line of a plan's tree: a scan, what its range says in words, and the range; or another step, and its filter.
const SCAN = /^((?:Index)?Scan \S+?)(?:: (.*))? (\[[0-9a-f]*\.\.[0-9a-f]*\](?: reverse)?)$/;
const STEP = /^(\w+)(?: (.*))?$/;

// A plan's tree, from the lines that the module prints, each below the one that it is part of.
export function planTree(lines) {
  const root = h('ul.plan');
  const lists = [root];
  for (const line of lines) {
    const depth = line.search(/\S/) / 2;
    const [, step, words, bytes] = line.trim().match(SCAN) ?? line.trim().match(STEP);
    const kids = h('ul');
    const parts = [h('b', {}, step), words && h('span.words', {}, words), bytes && h('code', {}, bytes)];
    lists[depth].append(h('li', {}, h('div.node', {}, ...parts.map((it) => it || null)), kids));
    lists[depth + 1] = kids;
  }
  root.querySelectorAll('ul:empty').forEach((it) => it.remove());
  return root;
}

const ROW = 1.75;

// Keys one below another, and beside them lanes: each with bands over ranges of keys, and marks at keys.
export function keyLanes(keys, labels, lanes) {
  const height = `${keys.length * ROW}rem`;
  const names = keys.map((key, place) => h('div.key', {title: key}, labels[place]));
  return h('div.lanes', {style: `--lanes:${lanes.length}`},
    h('div.heads', {}, h('span', {}, 'Keys in order'), lanes.map((it) => h(`span.${it.kind}`, {}, it.title))),
    h('div.axis', {style: `height:${height}`}, h('div.keys', {}, names),
      lanes.map((it) => h(`div.lane.${it.kind}`, {}, bandsOf(it, keys), marksOf(it, keys)))));
}

function bandsOf(lane, keys) {
  return (lane.bands ?? []).map(({range, title, kind}) => {
    const from = placeOf(keys, range[0]);
    const size = placeOf(keys, range[1]) - from;
    const style = size ? `top:${from * ROW}rem;height:${size * ROW}rem` : `top:calc(${from * ROW}rem - 3px);height:6px`;
    return h(`div.band${kind ? `.${kind}` : ''}`, {style, title});
  });
}

function marksOf(lane, keys) {
  const isDrawn = ({key}) => isIn(key, [[keys[0], `${keys.at(-1)}00`]]);
  return (lane.marks ?? []).filter(isDrawn).map(({key, title, sign, kind}) =>
    h(`div.mark${kind ? `.${kind}` : ''}`, {style: `top:${placeOf(keys, key) * ROW}rem`, title}, sign ?? '✎'));
}

// Ranges in words, one a line.
export function rangeList(ranges, schema) {
  return h('ul.ranges', {}, ranges.map((it) =>
    h('li', {title: `${it[0]}..${it[1]}`}, rangeInWords(it, schema), isPoint(it) ? '' : h('small', {}, ' (a range)'))));
}
