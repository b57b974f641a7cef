// The first scene: types and indexes are made, by clicks or typed.
import {button, choice, field, h, table, told} from './dom.mjs';

const KINDS = ['int', 'text', 'bytes'];

// Does a step in a transaction of its own, and answers its reply.
export function inTransaction(store, ...steps) {
  const replies = store.do(['begin', 0], ...steps.map(([name, ...parts]) => [name, 0, ...parts]));
  const refused = replies.find((it) => it.startsWith('refused'));
  if (refused) {
    store.do(['abandon', 0]);
    return refused;
  }
  const [, settled] = store.do(['commit', 0], ['settle']);
  return `${replies.slice(1).join(', ')}; ${settled}`;
}

// A row of the form of a type: a field, its kind, and whether it is of the primary key.
function fieldRow(name = '', kind = 'text', isKey = false) {
  const kinds = choice(KINDS, {'aria-label': 'kind'});
  kinds.value = kind;
  const key = h('input', {type: 'checkbox'});
  key.checked = isKey;
  const row = h('div.row', {}, h('input', {'aria-label': 'field', placeholder: 'field', value: name}), kinds,
    h('label', {}, key, ' key'), button('✕', () => row.remove(), {'aria-label': 'take this field out'}));
  return row;
}

function typeForm(store, says) {
  const name = h('input', {value: 'member', 'aria-label': 'name of the type'});
  const rows = h('div', {}, fieldRow('card', 'int', true), fieldRow('name'), fieldRow('joined', 'int'));
  const add = () => {
    const fields = [...rows.children].map((it) => [it.querySelector('input').value, it.querySelector('select').value]);
    const key = fields.filter((_, place) => rows.children[place].querySelector('[type=checkbox]').checked)
      .map(([it]) => it);
    const type = {name: name.value, fields, key};
    const isFirst = !store.schema.types.length;
    says.told(inTransaction(store, isFirst ? ['create', {types: [type]}] : ['type', type]));
  };
  return h('fieldset', {}, h('legend', {}, 'A type'), field('name', name), rows,
    h('div.buttons', {}, button('One more field', () => rows.append(fieldRow())), button('Make the type', add)));
}

function indexForm(store, says) {
  const name = h('input', {value: 'by_title', 'aria-label': 'name of the index'});
  const kind = choice(['value', 'count', 'sum']);
  const type = choice([]);
  const columns = h('input', {value: 'title', 'aria-label': 'columns', placeholder: 'columns, with commas'});
  const summed = choice([]);
  const fieldsOf = () => (store.typeNamed(type.value)?.fields ?? []).map(([it]) => it);
  const offered = () => summed.offer(fieldsOf());
  type.addEventListener('change', offered);
  const sum = field('summed', summed);
  const chosen = () => { sum.hidden = kind.value !== 'sum'; };
  kind.addEventListener('change', chosen);
  chosen();
  const add = () => {
    const list = columns.value.split(',').map((it) => it.trim()).filter(Boolean);
    const index = {name: name.value, kind: kind.value, type: type.value, columns: list};
    if (kind.value === 'sum') index.summed = summed.value;
    says.told(inTransaction(store, ['index', index]));
  };
  const form = h('fieldset', {}, h('legend', {}, 'An index'), field('name', name), field('kind', kind),
    field('type', type), field('columns', columns), sum, h('div.buttons', {}, button('Make the index', add)));
  form.update = () => {
    type.offer(store.schema.types.map((it) => it.name));
    offered();
  };
  return form;
}

// What a type or an index is, in a table's rows.
function indexRow(store, it, says) {
  const act = (name) => () => says.told(inTransaction(store, [name, it.name]));
  return {
    cells: [it.name, it.kind, it.type, it.columns.join(', ') || 'all in one group', it.summed ?? null, it.state],
    tail: [button('Disable', act('disable'), {'aria-label': `disable ${it.name}`}),
      button('Drop', act('drop'), {'aria-label': `drop ${it.name}`})],
  };
}

export function typesScene(store) {
  const line = told();
  const says = {told: (text) => line.tell(text, text.startsWith('refused'))};
  const indexes = indexForm(store, says);
  const view = h('div');
  const root = h('div.beside', {}, h('div', {}, h('div.forms', {}, typeForm(store, says), indexes), line), view);
  root.update = () => {
    indexes.update();
    const types = store.schema.types.map((it) => ({
      cells: [it.name, it.fields.map(([name, kind]) => `${name} ${kind}`).join(', '), it.key.join(', ')],
    }));
    view.replaceChildren(table('Types', ['type', 'fields', 'primary key'], types),
      table('Indexes', ['index', 'kind', 'of', 'columns', 'summed', 'state', ''],
        store.schema.indexes.map((it) => indexRow(store, it, says))));
  };
  return root;
}
