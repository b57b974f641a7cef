// The second scene: the records of a type in a table; they are saved, loaded and removed.
import {button, cellForm, choice, field, h, table, told} from './dom.mjs';
import {inTransaction} from './scene_types.mjs';
import {written} from './keys.mjs';

const SHOWN = 200;

// The cells of a record's primary key.
export function keyCells(type, cells) {
  return type.key.map((name) => cells[type.fields.findIndex(([it]) => it === name)]);
}

// A cell by a field's name and kind, for a record of this number.
function madeCell([name, kind], number) {
  if (kind === 'int') return number;
  if (kind === 'text') return `${name} ${number}`;
  return {hex: number.toString(16).padStart(8, '0')};
}

// Saves records made up by their numbers, in transactions of a hundred; answers how long it took.
function saveMany(store, type, count) {
  const steps = [];
  for (let number = 0; number < count; number++) {
    if (number % 100 === 0) steps.push('["begin",0]');
    steps.push(written(['save', 0, type.name, type.fields.map((it) => madeCell(it, number))]));
    if (number % 100 === 99 || number === count - 1) steps.push('["commit",0]', '["settle"]');
  }
  const since = performance.now();
  const replies = store.doTexts(steps);
  const refused = replies.find((it) => it.startsWith('refused'));
  return refused ?? `${count} records saved in ${Math.round(performance.now() - since)} ms`;
}

export function recordsScene(store) {
  const line = told();
  const tell = (text) => line.tell(text, text.startsWith('refused'));
  const type = choice([]);
  const form = cellForm();
  const view = h('div');
  const chosen = () => store.typeNamed(type.value);
  const act = (steps) => () => chosen() && tell(steps());
  const save = act(() => inTransaction(store, ['save', type.value, form.cells()]));
  const load = act(() => inTransaction(store, ['load', type.value, keyCells(chosen(), form.cells())]));
  const many = (count) =>
    button(`Save ${count.toLocaleString('en')} made up`, act(() => saveMany(store, chosen(), count)));
  const fields = h('form', {onsubmit: (event) => { event.preventDefault(); save(); }}, form,
    h('div.buttons', {}, h('button', {}, 'Save'), button('Load by its key', load), many(100), many(10000)));
  const root = h('div.beside', {}, h('div', {}, field('type', type), fields, line), view);
  const recordRow = ({cells}) => ({cells, tail: [
    button('Edit', () => form.fill(cells), {'aria-label': `edit ${cells.map(String).join(' ')}`}),
    button('Remove', act(() => inTransaction(store, ['remove', type.value, keyCells(chosen(), cells)])),
      {'aria-label': `remove ${cells.map(String).join(' ')}`})]});
  root.update = () => {
    type.offer(store.schema.types.map((it) => it.name));
    const its = chosen();
    if (!its) return view.replaceChildren(h('p', {}, 'There is no type yet: the first scene makes one.'));
    form.show(its.fields);
    const records = store.records(its, SHOWN);
    const count = records.length < SHOWN ? `${records.length} records` : `the first ${SHOWN} records`;
    return view.replaceChildren(table(`${its.name}: ${count}, in the order of ${its.key.join(', ')}`,
      [...its.fields.map(([it]) => it), ''], records.map(recordRow)));
  };
  type.addEventListener('change', root.update);
  return root;
}
