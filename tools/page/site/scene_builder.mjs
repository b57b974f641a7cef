// The fifth scene: a builder fills an index step by step beside a writer; what is built is drawn as bars.
import {button, choice, field, h, keyLanes, table, told} from './dom.mjs';
import {RECORDS, isIn, keyInWords, prefixOf, rangeInWords, written} from './keys.mjs';
import {lastConflict} from './scene_clients.mjs';
import {keyCells} from './scene_records.mjs';
import {inTransaction} from './scene_types.mjs';

const SHOWN = 60;
const BUILDER = 0;
const WRITER = 1;

// The lane of what an index has: a bar for each built range, and a mark where a record has its entry.
function builtLanes(store, index, records) {
  const prefix = prefixOf(RECORDS, store.typeNamed(index.type).number);
  const isWhole = index.state === 'readable';
  const built = isWhole ? [[prefix, `${prefix}ff`]] : index.state === 'disabled' ? [] : store.builtRanges(index);
  const lanes = [{title: 'built', kind: 'built', bands: built.map((range) => ({range, title: 'built'}))}];
  if (index.kind === 'value') {
    const has = new Set(store.entries(index, 10000).map((it) => written(it.record)));
    const type = store.typeNamed(index.type);
    const entered = records.filter((it) => has.has(written(keyCells(type, it.cells))));
    lanes.push({title: 'entry', kind: 'entries',
      marks: entered.map(({key}) => ({key, sign: '●', title: 'it has its entry'}))});
  }
  return [...lanes, readLane(store, BUILDER, 'builder', prefix), readLane(store, WRITER, 'writer', prefix)];
}

// What of the records a client's last transaction has read and written, and what it was refused for.
function readLane(store, client, title, prefix) {
  const its = store.ended[client];
  const kind = store.clients[client] ? undefined : 'pale';
  const conflict = lastConflict(store, client);
  const within = ([begin]) => begin.startsWith(prefix);
  const bands = (its?.reads ?? []).filter(within).map((range) => ({range, kind, title: `${title} read it`}));
  if (conflict && within(conflict.range)) {
    bands.push({range: conflict.range, kind: 'conflict', title: `${title}: conflict`});
  }
  const marks = (its?.writes ?? []).filter(([name, key]) => name === 'set' && key.startsWith(prefix))
    .map(([, key]) => ({key, kind, title: `${title} writes it`}));
  return {title, kind: `client${client}`, bands, marks};
}

function conflictLine(store) {
  const found = [BUILDER, WRITER].map((it) => lastConflict(store, it)).filter(Boolean)[0];
  if (!found) return null;
  const who = found.client === BUILDER ? 'The builder' : 'The writer';
  return h('p.bad', {}, `${who} is refused: version ${found.seen} wrote within what it had read, `,
    h('b', {}, rangeInWords(found.range, store.schema)), '. It may do the same once more.');
}

export function builderScene(store) {
  const line = told();
  const tell = (text) => line.tell(text, text.startsWith('refused'));
  const index = choice([]);
  const limit = h('input', {type: 'number', min: '1', value: '3'});
  const view = h('div');
  const alone = (...step) => () => index.value && tell(inTransaction(store, step.map((it) => it ?? index.value)));
  const shared = (...steps) => index.value && tell(store.do(...steps).at(-1));
  const build = () => ['build', BUILDER, index.value, Number(limit.value)];
  const save = () => {
    const its = store.typeNamed(store.indexNamed(index.value)?.type);
    const records = its ? store.records(its, SHOWN) : [];
    if (!records.length) return;
    const steps = store.clients[WRITER] ? [] : [['begin', WRITER]];
    tell(store.do(...steps, ['save', WRITER, its.name, records[Math.floor(records.length / 2)].cells]).at(-1));
  };
  const buttons = [
    ['Mark it write-only', alone('write_only', null)],
    ['Begin a step', () => shared(['begin', BUILDER], build())],
    ['Commit the step', () => shared(['commit', BUILDER], ['settle'])],
    ['The writer saves a record', save],
    ['The writer commits', () => shared(['commit', WRITER], ['settle'])],
    ['Mark it readable', alone('readable', null)],
  ];
  const root = h('div.beside', {}, h('div', {}, h('div.row', {}, field('index', index), field('records a step', limit)),
    h('div.buttons', {}, buttons.map(([name, act]) => button(name, act))), line,
    h('p.legend', {}, 'Bars: built positions. ●: the record has its entry. Bands: what a transaction has read; pale: '
      + 'it has ended.')), view);
  root.update = () => {
    const {indexes} = store.schema;
    index.offer(indexes.map((it) => it.name));
    const open = indexes.find((it) => it.state !== 'readable');
    if (open && !index.dataset.touched) index.value = open.name;
    const its = store.indexNamed(index.value);
    if (!its) return view.replaceChildren(h('p', {}, 'There is no index yet: the first scene makes some.'));
    return view.replaceChildren(...drawn(store, its));
  };
  index.addEventListener('change', () => { index.dataset.touched = 'yes'; root.update(); });
  return root;
}

function drawn(store, index) {
  const type = store.typeNamed(index.type);
  const records = store.records(type, SHOWN);
  const keys = records.map((it) => it.key);
  const touched = [BUILDER, WRITER].flatMap((it) => store.clients[it]?.writes ?? []).map(([, key]) => key)
    .filter((key) => key.startsWith(prefixOf(RECORDS, type.number)) && !keys.includes(key));
  const all = [...keys, ...new Set(touched)].sort();
  const built = store.builtRanges(index);
  const count = keys.filter((it) => isIn(it, built)).length;
  const said = index.state === 'write-only' ? `Records in built ranges: ${count} of ${keys.length}.` : '';
  const entries = store.entries(index, SHOWN).map(({columns, record, total}) =>
    ({cells: [...columns, total ?? record.map(String).join(', ')]}));
  return [h('p', {}, h('b', {}, `${index.name} is ${index.state}. `), said), conflictLine(store) ?? '',
    keyLanes(all, all.map((it) => keyInWords(it, store.schema)), builtLanes(store, index, records)),
    table(`What ${index.name} has`, [...index.columns, index.kind === 'value' ? 'key' : index.kind], entries)];
}
