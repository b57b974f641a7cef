// The module: the product's own library, compiled for the browser. It answers calls, each a letter and a text.

const encoder = new TextEncoder();
const decoder = new TextDecoder();

// Where the program stands: it runs, it is about to wait, or it is about to go on.
const GOES_ON = 2;

// Why a call isn't answered, in the words that recordctl prints.
export class Fault extends Error {}

// A session of the module's program. It waits for a call between any two of them.
export class Program {
  constructor(compiled) {
    const page = {wait: () => this.wait()};
    this.exports = new WebAssembly.Instance(compiled, {page}).exports;
    this.hasBegun = false;
    this.room = Number(this.exports.room());
    const view = new DataView(this.exports.memory.buffer);
    view.setUint32(this.room, this.room + 8, true);
    view.setUint32(this.room + 4, this.room + Number(this.exports.room_size()), true);
  }

  // The program asks for the next call: it is left here, and is here again once there is one.
  wait() {
    if (this.exports.asyncify_get_state() === GOES_ON) this.exports.asyncify_stop_rewind();
    else this.exports.asyncify_start_unwind(this.room);
  }

  // The answer to a call.
  ask(letter, text) {
    const bytes = encoder.encode(letter + text);
    const at = Number(this.exports.call(BigInt(bytes.length)));
    if (!at) throw new Fault('out of memory');
    new Uint8Array(this.exports.memory.buffer, at, bytes.length).set(bytes);
    if (this.hasBegun) this.exports.asyncify_start_rewind(this.room);
    this.hasBegun = true;
    this.exports.run();
    this.exports.asyncify_stop_unwind();
    const size = Number(this.exports.answer_size());
    const answer = decoder.decode(new Uint8Array(this.exports.memory.buffer, Number(this.exports.answer()), size));
    if (answer.startsWith('!')) throw new Fault(answer.slice(1));
    return answer;
  }

  // What the steps of a script reply, a line each, over an empty database.
  run(script) {
    return linesOf(this.ask('r', script));
  }

  // What the steps of a script reply behind those before.
  goOn(script) {
    return linesOf(this.ask('s', script));
  }

  // The plan that a text asks for, as a tree, a step a line.
  tree(text) {
    return linesOf(this.ask('t', text));
  }

  // The clocks of the database, and what each open transaction has read and written.
  look() {
    return parsed(this.ask('l', ''));
  }

  // The first pairs of a range of keys, as the servers have them.
  pairs(begin, end, limit) {
    return parsed(this.ask('p', `${begin} ${end} ${limit}`));
  }
}

function linesOf(text) {
  return text.split('\n').slice(0, -1);
}

// A text of JSON, with whole numbers of any size: one that isn't exact as a number is a BigInt.
export function parsed(text) {
  const marked = text.replace(/"(?:[^"\\]|\\.)*"|-?\d{16,}/g, (it) => (it.startsWith('"') ? it : `{"whole":"${it}"}`));
  return JSON.parse(marked, (_, it) => (it && it.whole !== undefined ? BigInt(it.whole) : it));
}
