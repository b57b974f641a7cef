// The store: a session of the module, the steps so far with their replies, and what stands in its database.
import {Fault, Program, parsed} from './module.mjs';
import {BUILT, ENTRIES, RECORDS, SCHEMA, STATES, prefixOf, under, written} from './keys.mjs';

const KINDS = ['', 'int', 'text', 'bytes'];
const INDEX_KINDS = ['', 'value', 'count', 'sum'];
const STATE_NAMES = ['readable', 'write-only', 'disabled'];
const FEW_STEPS = 500;
const NO_SCHEMA = {types: [], indexes: []};

export class Store {
  constructor(compiled, config) {
    this.compiled = compiled;
    this.changed = () => {};
    this.startOver(config);
  }

  // An empty database with this configuration.
  startOver(config = this.config) {
    this.config = config;
    this.steps = [];
    this.replies = [];
    this.ended = [];
    this.program = new Program(this.compiled);
    this.program.run(this.script([]));
    this.read();
  }

  // The script of these steps, which `recordctl run` runs.
  script(steps = this.steps) {
    return `{"config":${written(this.config)},"steps":[\n${steps.join(',\n')}\n]}`;
  }

  // Does steps, each a list of its parts, and answers their replies.
  do(...steps) {
    return this.doTexts(steps.map(written));
  }

  // Does steps that are texts.
  doTexts(texts) {
    try {
      return partsOf(texts).flatMap((part) => this.doPart(part));
    } finally {
      this.changed();
    }
  }

  doPart(texts) {
    const lines = this.program.goOn(`{"steps":[${texts.join(',\n')}]}`);
    const replies = lines.map((it) => it.slice(it.indexOf(' ') + 1));
    this.steps = this.steps.concat(texts);
    this.replies = this.replies.concat(replies);
    this.read();
    return replies;
  }

  // Does what is typed: a step, or steps with commas between them.
  doTyped(text) {
    let list;
    try {
      list = parsed(`[${text}]`);
    } catch {
      throw new Fault('that isn\'t JSON');
    }
    return this.doTexts((Array.isArray(list[0]) && Array.isArray(list[0][0]) ? list[0] : list).map(written));
  }

  // Runs another script in the place of the steps so far.
  load(text) {
    const program = new Program(this.compiled);
    const replies = program.run(text).map((it) => it.slice(it.indexOf(' ') + 1));
    const script = parsed(text);
    Object.assign(this, {program, replies, ended: [], config: script.config ?? {}, steps: script.steps.map(written)});
    this.read();
    this.changed();
  }

  // Takes back the last step: the steps before it are done anew.
  undo() {
    const steps = this.steps.slice(0, -1);
    this.startOver();
    if (steps.length) this.doTexts(steps);
    else this.changed();
  }

  // Reads how things stand. What a transaction had read and written stays known until its client begins another one.
  read() {
    Object.assign(this, this.program.look());
    this.clients.forEach((it, client) => { this.ended[client] = it ?? this.ended[client]; });
    this.isReadable = true;
    this.schema = this.schemaRead();
    for (const [, , [, , number], [state]] of this.pairs(...under(prefixOf(STATES)), 100)) {
      const index = this.schema.indexes.find((it) => it.number === number);
      if (index) index.state = STATE_NAMES[state];
    }
  }

  pairs(begin, end, limit) {
    try {
      return this.program.pairs(begin, end, limit);
    } catch (error) {
      if (!(error instanceof Fault)) throw error;
      this.isReadable = false;
      return [];
    }
  }

  schemaRead() {
    const key = prefixOf(SCHEMA);
    const [pair] = this.pairs(key, `${key}00`, 1);
    if (!pair) return structuredClone(NO_SCHEMA);
    const [, , , types, indexes] = pair[3];
    return {types: types.map(typeOf), indexes: indexes.map((it) => indexOf(it, types.map(typeOf)))};
  }

  typeNamed(name) {
    return this.schema.types.find((it) => it.name === name);
  }

  indexNamed(name) {
    return this.schema.indexes.find((it) => it.name === name);
  }

  // The first records of a type: the key of each, and its cells.
  records(type, limit) {
    const prefix = prefixOf(RECORDS, type.number);
    return this.pairs(prefix, `${prefix}ff`, limit).map(([key, , , cells]) => ({key, cells}));
  }

  // The first entries of an index: the key of each, its columns, the key cells of the record, and the total.
  entries(index, limit) {
    const prefix = prefixOf(ENTRIES, index.number);
    return this.pairs(prefix, `${prefix}ff`, limit).map(([key, value, [, , , ...cells]]) => ({
      key,
      columns: cells.slice(0, index.columns.length),
      record: cells.slice(index.columns.length + 1),
      total: index.kind === 'value' ? null : totalOf(value),
    }));
  }

  // The built ranges of an index, over the keys of its records.
  builtRanges(index) {
    const records = prefixOf(RECORDS, this.typeNamed(index.type).number);
    const prefix = prefixOf(BUILT, index.number);
    return this.pairs(prefix, `${prefix}ff`, 1000)
      .map(([, end, [, , , begin]]) => [records + begin.hex, records + end]);
  }

  // The plan of a query, as a tree, under the schema and the states that stand.
  tree(text) {
    const {schema} = this;
    return this.program.tree(written({schema: asked(schema), states: statesOf(schema), query: parsed(text)}));
  }
}

// Steps in parts, each but the first beginning with a commit, so that what is committed is read before; many in one.
function partsOf(texts) {
  if (texts.length > FEW_STEPS) return [texts];
  const parts = [[]];
  for (const it of texts) {
    if (it.startsWith('["commit"') && parts.at(-1).length) parts.push([]);
    parts.at(-1).push(it);
  }
  return parts;
}

function typeOf([number, name, fields, key]) {
  return {number, name, fields: fields.map(([it, kind]) => [it, KINDS[kind]]), key: key.map((it) => fields[it][0])};
}

function indexOf([number, name, kind, type, columns, summed], types) {
  const owner = types.find((it) => it.number === type);
  const index = {number, name, kind: INDEX_KINDS[kind], type: owner.name, state: 'readable'};
  index.columns = columns.map((it) => owner.fields[it][0]);
  if (index.kind === 'sum') index.summed = owner.fields[summed][0];
  return index;
}

// The schema as one asks for it.
function asked({types, indexes}) {
  return {
    types: types.map(({name, fields, key}) => ({name, fields, key})),
    indexes: indexes.map(({name, kind, type, columns, summed}) =>
      ({name, kind, type, columns, ...(summed ? {summed} : {})})),
  };
}

function statesOf({indexes}) {
  return Object.fromEntries(indexes.map((it) => [it.name, it.state]));
}

// The total that eight bytes are, the least significant first.
function totalOf(hex) {
  const turned = (hex.match(/../g) ?? []).reverse().join('');
  return BigInt.asIntN(64, BigInt(`0x${turned || 0}`));
}

// The cell that a text in a form stands for; nothing is null.
export function cellOf(text, kind) {
  if (text === '') return null;
  if (kind === 'text') return text;
  if (kind === 'bytes') return {hex: text};
  return /^-?\d+$/.test(text) ? BigInt(text) : text;
}

// A cell as it stands in a form.
export function formText(cell) {
  if (cell === null || cell === undefined) return '';
  return typeof cell === 'object' ? cell.hex : String(cell);
}
