// The fourth scene: two clients side by side, their reads as bands over the keys, and a conflict where it happened.
import {button, cellForm, choice, field, h, keyLanes, rangeList, told} from './dom.mjs';
import {BUILT, ENTRIES, RECORDS, SCHEMA, STATES, isPoint, keyInWords, prefixOf, rangeInWords, under} from './keys.mjs';
import {keyCells} from './scene_records.mjs';

const PAIRS = 30;
const CONFLICT = /client (\d+) conflict (\d+) ([0-9a-f]*)\.\.([0-9a-f]*)/;

// What a client's last reports say: its conflict, if its last transaction was refused for one.
export function lastConflict(store, client) {
  for (let place = store.replies.length - 1; place >= 0 && place > store.replies.length - 100; place--) {
    const reports = store.replies[place].split(', ').filter((it) => it.startsWith(`client ${client} `));
    const found = reports.at(-1)?.match(CONFLICT);
    if (found) return {client, seen: Number(found[2]), range: [found[3], found[4]]};
    if (reports.length || store.steps[place] === `["begin",${client}]`) return null;
  }
  return null;
}

// The keys that are drawn: the schema's and the states', the first of each type and index, and what clients touch.
function keysOf(store, clients) {
  const keys = new Set([prefixOf(SCHEMA)]);
  const add = ([key]) => keys.add(key);
  store.pairs(...under(prefixOf(STATES)), PAIRS).forEach(add);
  for (const type of store.schema.types) store.pairs(...under(prefixOf(RECORDS, type.number)), PAIRS).forEach(add);
  for (const index of store.schema.indexes) store.pairs(...under(prefixOf(ENTRIES, index.number)), PAIRS).forEach(add);
  for (const index of store.schema.indexes) store.pairs(...under(prefixOf(BUILT, index.number)), PAIRS).forEach(add);
  for (const client of clients) {
    const open = store.ended[client];
    (open?.reads ?? []).filter(isPoint).slice(0, PAIRS).forEach(add);
    (open?.writes ?? []).slice(0, PAIRS).forEach(([name, key]) => name !== 'clear' && keys.add(key));
    const conflict = lastConflict(store, client);
    if (conflict && isPoint(conflict.range)) keys.add(conflict.range[0]);
  }
  return [...keys].sort();
}

// The lane of a client: the reads of its last transaction as bands, its writes as marks, pale once it has ended.
function laneOf(store, client) {
  const open = store.ended[client];
  const kind = store.clients[client] ? undefined : 'pale';
  const bands = (open?.reads ?? []).map((range) =>
    ({range, kind, title: `client ${client} read ${rangeInWords(range, store.schema)}`}));
  const marks = (open?.writes ?? []).filter(([name]) => name !== 'clear')
    .map(([name, key]) => ({key, kind, sign: name === 'add' ? '+' : '✎', title: `client ${client} writes it`}));
  return {title: `client ${client}`, kind: `client${client % 2}`, bands, marks};
}

// What keys clients read and write, drawn.
export function keysDrawn(store, clients) {
  const keys = keysOf(store, clients);
  const lanes = clients.map((it) => laneOf(store, it));
  const conflicts = clients.map((it) => lastConflict(store, it)).filter(Boolean);
  if (conflicts.length) {
    lanes.push({title: 'conflict', kind: 'conflict', bands: conflicts.map(({client, seen, range}) => ({range,
      title: `client ${client} had read what version ${seen} wrote`}))});
  }
  return keyLanes(keys, keys.map((it) => keyInWords(it, store.schema)), lanes);
}

// What is known of a client's transaction, in words.
function standing(store, client) {
  const open = store.clients[client];
  const conflict = lastConflict(store, client);
  if (open) {
    const {version, reads, writes} = open;
    return h('div', {}, h('p', {}, `It reads at version ${version}. Writes of keys so far: ${writes.length}.`),
      h('details', {}, h('summary', {}, `What it has read: ${reads.length}`), rangeList(reads, store.schema)));
  }
  if (conflict) {
    return h('p.bad', {}, `Conflict: version ${conflict.seen} wrote within what it had read, `,
      h('b', {}, rangeInWords(conflict.range, store.schema)), '. Nothing of its transaction was kept.');
  }
  return h('p', {}, 'It has no open transaction.');
}

function clientPanel(store, client) {
  const line = told();
  const type = choice([], {'aria-label': 'type'});
  const form = cellForm();
  const view = h('div');
  const act = (...parts) => {
    const reply = store.do(parts).at(-1);
    line.tell(`${parts[0]}: ${reply}`, reply.startsWith('refused'));
  };
  const its = () => store.typeNamed(type.value);
  const key = () => keyCells(its(), form.cells());
  const buttons = {
    Begin: () => act('begin', client),
    Load: () => its() && act('load', client, type.value, key()),
    'Read all': () => its() && act('query', client, {type: type.value}),
    Save: () => its() && act('save', client, type.value, form.cells()),
    Remove: () => its() && act('remove', client, type.value, key()),
    Commit: () => act('commit', client),
    Abandon: () => act('abandon', client),
  };
  const root = h(`fieldset.client${client % 2}`, {}, h('legend', {}, `Client ${client}`), field('type', type), form,
    h('div.buttons', {}, Object.entries(buttons).map(([name, what]) => button(name, what))), line, view);
  const update = () => {
    type.offer(store.schema.types.map((it) => it.name));
    if (its()) form.show(its().fields);
    view.replaceChildren(standing(store, client));
  };
  type.addEventListener('change', update);
  root.update = update;
  return root;
}

export function clientsScene(store) {
  const panels = [0, 1].map((it) => clientPanel(store, it));
  const view = h('div');
  const settle = button('Settle: all roles do what there is to do', () => store.do(['settle']));
  const root = h('div.beside', {}, h('div', {}, h('div.forms', {}, panels), h('div.buttons', {}, settle)), h('div', {},
    h('p.legend', {}, 'Bands: keys that a client has read. ✎ and +: keys that it writes, or adds to. '
      + 'Pale: its transaction has ended.'), view));
  root.update = () => {
    panels.forEach((it) => it.update());
    view.replaceChildren(keysDrawn(store, [0, 1]));
  };
  return root;
}
