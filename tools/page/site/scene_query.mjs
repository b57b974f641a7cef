// The third scene: a query, its plan as a tree, its rows, and what it read, lit up in tables.
import {button, choice, field, h, planTree, table, told} from './dom.mjs';
import {RECORDS, ENTRIES, isIn, prefixOf, written} from './keys.mjs';
import {cellOf} from './store.mjs';
import {Fault, parsed} from './module.mjs';

const SHOWN = 100;
const OPERATIONS = ['=', '!=', '<', '<=', '>', '>=', 'starts', 'null'];
const CLIENT = 2;

// A row of the form of a filter: a field is compared with a value.
function conditionRow() {
  const name = choice([], {'aria-label': 'field'});
  const operation = choice(OPERATIONS, {'aria-label': 'compared'});
  const value = h('input', {'aria-label': 'value', placeholder: 'value', autocomplete: 'off'});
  const out = button('✕', () => row.remove(), {'aria-label': 'take it out'});
  const row = h('div.row', {}, name, operation, value, out);
  row.offer = (fields) => name.offer(fields.map(([it]) => it));
  row.filter = (fields) => {
    const kind = fields.find(([it]) => it === name.value)?.[1];
    if (operation.value === 'null') return ['null', name.value];
    return [operation.value, name.value, cellOf(value.value, kind)];
  };
  return row;
}

// The form of a query, which writes it as it is typed in a script.
function queryForm(store, text) {
  const type = choice([]);
  const join = choice(['and', 'or'], {'aria-label': 'how conditions are joined'});
  const sort = choice(['']);
  const reverse = h('input', {type: 'checkbox'});
  const rows = h('div', {}, conditionRow());
  const fields = () => store.typeNamed(type.value)?.fields ?? [];
  const form = h('fieldset', {}, h('legend', {}, 'A query, by clicks'), field('type', type), rows,
    h('div.row', {}, join, button('One more condition', () => { rows.append(conditionRow()); form.update(); })),
    field('sorted by', sort), h('label', {}, reverse, ' turned round'));
  form.update = () => {
    type.offer(store.schema.types.map((it) => it.name));
    [...rows.children].forEach((it) => it.offer(fields()));
    sort.offer(['', ...fields().map(([it]) => it)]);
  };
  form.addEventListener('change', () => {
    form.update();
    const filters = [...rows.children].map((it) => it.filter(fields()));
    const query = {type: type.value};
    if (filters.length) query.filter = filters.length > 1 ? [join.value, ...filters] : filters[0];
    if (sort.value) query.sort = [sort.value];
    if (reverse.checked) query.reverse = true;
    text.value = written(query);
  });
  return form;
}

// Those of a transaction's reads that aren't of how stores are opened.
function readsOf(store, client) {
  const isOpening = ([begin]) => ![RECORDS, ENTRIES].some((it) => begin.startsWith(prefixOf(it)));
  return (store.clients[client]?.reads ?? []).filter((it) => !isOpening(it));
}

export function queryScene(store) {
  const line = told();
  const text = h('textarea', {rows: '3', spellcheck: 'false', 'aria-label': 'the query as it is typed'});
  text.value = '{"type":"book"}';
  const form = queryForm(store, text);
  const plan = h('div');
  const read = h('div');
  const run = () => {
    try {
      const query = parsed(text.value);
      const steps = store.clients[CLIENT] ? [['abandon', CLIENT]] : [];
      store.do(...steps, ['begin', CLIENT], ['plan', CLIENT, query], ['execute', CLIENT]);
    } catch (error) {
      line.tell(error instanceof Fault ? error.message : 'the query isn\'t JSON', true);
    }
  };
  const typed = h('fieldset', {}, h('legend', {}, 'The same, as it is typed'), text,
    h('div.buttons', {}, button('Plan it and run it', run)));
  const root = h('div.beside', {}, h('div', {}, h('div.forms', {}, form, typed), line), h('div', {}, plan, read));
  root.update = () => {
    form.update();
    showPlan(store, plan, line, text);
    showRead(store, read, text);
  };
  return root;
}

// The last query that client 2 asked, and what came of it.
function lastAsked(store) {
  for (let place = store.steps.length - 1; place >= 0 && place > store.steps.length - 50; place--) {
    if (store.steps[place].startsWith(`["plan",${CLIENT},`)) {
      const executed = store.steps[place + 1] === `["execute",${CLIENT}]` ? store.replies[place + 1] : '';
      return {query: written(parsed(store.steps[place])[2]), planned: store.replies[place], executed};
    }
  }
  return null;
}

function showPlan(store, place, line, text) {
  const asked = lastAsked(store);
  if (!asked) {
    line.tell('');
    return place.replaceChildren();
  }
  if (!asked.planned.startsWith('plan ')) {
    line.tell(asked.planned, true);
    return place.replaceChildren();
  }
  text.value = asked.query;
  line.tell(asked.executed.startsWith('refused') ? asked.executed : '', true);
  const {rows, names} = rowsOf(store, asked);
  return place.replaceChildren(h('h3', {}, 'Its plan'), planOf(store, asked.query),
    table(`Its rows: ${rows.length}`, names, rows.map((cells) => ({cells}))));
}

// The tree of a plan, as `recordctl explain --tree` prints it.
function planOf(store, query) {
  try {
    return planTree(store.tree(query));
  } catch (error) {
    return h('p.bad', {}, error.message);
  }
}

function rowsOf(store, {query, executed}) {
  const type = store.typeNamed(parsed(query).type);
  const rows = executed.startsWith('rows ') ? parsed(executed.slice(5)) : [];
  return {rows, names: (type?.fields ?? []).map(([it]) => it)};
}

// The records and the entries, of which those that the transaction has read are lit.
function showRead(store, place, text) {
  const reads = readsOf(store, CLIENT);
  let type;
  try {
    type = store.typeNamed(parsed(text.value).type);
  } catch { /* what is typed isn't a query yet */ }
  if (!type) return place.replaceChildren();
  const isLit = (key) => isIn(key, reads);
  const records = store.records(type, SHOWN).map(({key, cells}) => ({cells, isLit: isLit(key)}));
  const indexes = store.schema.indexes.filter((it) => it.type === type.name && it.state === 'readable');
  const entries = indexes.map((it) => table(`${it.name}`, [...it.columns, it.kind === 'value' ? 'key' : it.kind],
    store.entries(it, SHOWN).map(({key, columns, record, total}) =>
      ({cells: [...columns, total ?? record.map(String).join(', ')], isLit: isLit(key)}))));
  const lit = records.filter((it) => it.isLit).length;
  return place.replaceChildren(
    h('h3', {}, 'What it read'),
    h('p', {}, `Lit: what client ${CLIENT}'s open transaction has read, ${lit} of ${records.length} records.`),
    h('div.tables', {}, table(type.name, type.fields.map(([it]) => it), records), entries));
}
