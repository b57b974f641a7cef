// Keys of the store: in hexadecimal digits, as the module tells them, and in words.

// What stands behind the store's own prefix, by its first number.
export const SCHEMA = 0;
export const RECORDS = 1;
export const ENTRIES = 2;
export const STATES = 5;
export const BUILT = 6;
export const STORE = '1501';

// The pack of a whole number that isn't below 0 and fits 16 bits, as numbers of types and indexes do.
export function packed(number) {
  if (number === 0) return '14';
  return number < 256 ? `15${digits(number, 2)}` : `16${digits(number, 4)}`;
}

function digits(number, count) {
  return number.toString(16).padStart(count, '0');
}

// The key under which all of a kind stand: records of a type, entries of an index.
export function prefixOf(...numbers) {
  return STORE + numbers.map(packed).join('');
}

// The pairs under a key.
export function under(prefix) {
  return [`${prefix}00`, `${prefix}ff`];
}

function bytesOf(hex) {
  return Uint8Array.from(hex.match(/../g) ?? [], (it) => parseInt(it, 16));
}

// The place after a text or bytes that begin at a place, and what they are; a zero byte is escaped there.
function escaped(bytes, at) {
  const found = [];
  for (let here = at; here < bytes.length; here++) {
    if (bytes[here] !== 0) found.push(bytes[here]);
    else if (bytes[here + 1] === 255) found.push(bytes[here++]);
    else return [Uint8Array.from(found), here + 1];
  }
  return null;
}

function wholeNumber(bytes, at, size) {
  if (at + Math.abs(size) > bytes.length) return null;
  let number = 0n;
  for (let here = at; here < at + Math.abs(size); here++) number = number * 256n + BigInt(bytes[here]);
  if (size < 0) number -= (1n << BigInt(-8 * size)) - 1n;
  const isSmall = number >= BigInt(Number.MIN_SAFE_INTEGER) && number <= BigInt(Number.MAX_SAFE_INTEGER);
  return [isSmall ? Number(number) : number, at + Math.abs(size)];
}

function element(bytes, at) {
  const code = bytes[at];
  if (code === 0) return [null, at + 1];
  if (code >= 0x0c && code <= 0x1c) return wholeNumber(bytes, at + 1, code - 0x14);
  const found = code === 1 || code === 2 ? escaped(bytes, at + 1) : null;
  if (!found) return null;
  return [code === 2 ? new TextDecoder().decode(found[0]) : {hex: hexOf(found[0])}, found[1]];
}

export function hexOf(bytes) {
  return Array.from(bytes, (it) => digits(it, 2)).join('');
}

// The elements that a key spells from its begin on, and the digits behind them.
export function elements(hex) {
  const bytes = bytesOf(hex);
  const found = [];
  let at = 0;
  for (let next; at < bytes.length && (next = element(bytes, at)); [, at] = next) found.push(next[0]);
  return [found, hexOf(bytes.slice(at))];
}

// A cell as it is written in a script.
export function written(value) {
  if (typeof value === 'bigint') return String(value);
  if (Array.isArray(value)) return `[${value.map(written).join(',')}]`;
  if (value === null || typeof value !== 'object') return JSON.stringify(value);
  return `{${Object.entries(value).map(([name, it]) => `${JSON.stringify(name)}:${written(it)}`).join(',')}}`;
}

// How many elements the key of a record or of an entry has, or Infinity of another key.
function sizeOf([, kind, number], schema) {
  const index = kind === ENTRIES ? indexOf(schema, number) : undefined;
  if (index && index.kind !== 'value') return 3 + index.columns.length;
  const type = schema.types.find((it) => (index ? it.name === index.type : kind === RECORDS && it.number === number));
  return type ? 3 + (index ? index.columns.length + 1 : 0) + type.key.length : Infinity;
}

// What a key is the key of, in words.
export function keyInWords(hex, schema) {
  const [found, rest] = elements(hex);
  const [, kind, number, ...cells] = found.slice(0, sizeOf(found, schema));
  const shown = [...cells.map(written), ...(rest ? [`…${rest}`] : [])].join(', ');
  if (!hex.startsWith(STORE)) return hex;
  if (kind === SCHEMA) return 'schema';
  if (kind === RECORDS) return `${typeName(schema, number)} ${shown}`.trim();
  if (kind === ENTRIES) return `${indexName(schema, number)}: ${entryInWords(cells, indexOf(schema, number)) || shown}`;
  if (kind === STATES) return number === undefined ? 'states of indexes' : `state of ${indexName(schema, number)}`;
  if (kind === BUILT) return `built range of ${indexName(schema, number)}`;
  return hex;
}

// The columns of an entry, and whose it is.
function entryInWords(cells, index) {
  if (!index || cells.length < index.columns.length) return '';
  const columns = cells.slice(0, index.columns.length).map(written).join(', ');
  if (index.kind !== 'value') return columns || 'all';
  const key = cells.slice(index.columns.length + 1).map(written).join(', ');
  return key ? `${columns} → ${key}` : columns;
}

function typeName(schema, number) {
  return schema.types.find((it) => it.number === number)?.name ?? `type ${number ?? ''}`;
}

function indexOf(schema, number) {
  return schema.indexes.find((it) => it.number === number);
}

function indexName(schema, number) {
  return indexOf(schema, number)?.name ?? `index ${number ?? ''}`;
}

// Whether a range is that of one key.
export function isPoint([begin, end]) {
  return end === `${begin}00`;
}

// A range of keys, in words.
export function rangeInWords(range, schema) {
  const [begin, end] = range;
  if (isPoint(range)) return keyInWords(begin, schema);
  for (const it of schema.types) {
    const prefix = prefixOf(RECORDS, it.number);
    if (begin === prefix && end === `${prefix}ff`) return `all of ${it.name}`;
  }
  for (const it of schema.indexes) {
    const prefix = prefixOf(ENTRIES, it.number);
    if (begin === prefix && end === `${prefix}ff`) return `all of ${it.name}`;
  }
  if (begin === `${prefixOf(STATES)}00`) return 'states of indexes';
  if (end === `${begin}ff`) return `all that begin with ${keyInWords(begin, schema)}`;
  const from = `${isNext(begin, schema) ? 'after' : 'from'} ${keyInWords(begin, schema)}`;
  if (end.endsWith('ff')) return `${from} to the end of ${keyInWords(end.slice(0, -2), schema)}`;
  return `${from} up to ${isNext(end, schema) ? 'and with ' : ''}${keyInWords(end, schema)}`;
}

// Whether a bound is the first key after that of a record or an entry, which is that key with a zero byte.
function isNext(bound, schema) {
  const [found, rest] = elements(bound);
  return rest === '' && found.length === sizeOf(found, schema) + 1;
}

// How many of the sorted keys stand before a bound.
export function placeOf(keys, bound) {
  let low = 0;
  for (let high = keys.length; low < high;) {
    const middle = (low + high) >> 1;
    if (keys[middle] < bound) low = middle + 1;
    else high = middle;
  }
  return low;
}

// Whether a key lies in one of the ranges.
export function isIn(key, ranges) {
  return ranges.some(([begin, end]) => begin <= key && key < end);
}
