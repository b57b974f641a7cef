// The seventh scene: the steps as a script that `recordctl run` replays, and a script that is loaded.
import {button, h, told} from './dom.mjs';
import {Fault, Program} from './module.mjs';

// Runs the script in a session of its own, and says whether it replies the same.
function checked(store) {
  const program = new Program(store.compiled);
  const lines = program.run(store.script());
  const differs = lines.findIndex((it, place) => it !== `${place + 1} ${store.replies[place]}`);
  if (lines.length === store.replies.length && differs < 0) return `all ${lines.length} replies are the same`;
  return `another reply at step ${differs + 1}`;
}

// What recordctl prints for the steps so far.
export function printed(store) {
  return store.replies.map((it, place) => `${place + 1} ${it}\n`).join('');
}

export function scriptScene(store) {
  const line = told();
  const script = h('textarea.script', {rows: '14', readonly: true, 'aria-label': 'the script', id: 'script'});
  const replies = h('textarea.script', {rows: '14', readonly: true, 'aria-label': 'the replies', id: 'replies'});
  const other = h('textarea.script', {rows: '6', spellcheck: 'false', 'aria-label': 'another script',
    placeholder: '{"steps":[["begin",0]]}'});
  const load = () => {
    try {
      store.load(other.value);
      line.tell(`${store.replies.length} steps were run`);
    } catch (error) {
      if (!(error instanceof Fault)) throw error;
      line.tell(error.message, true);
    }
  };
  const root = h('div', {},
    h('div.buttons', {}, button('Copy the script', () => copied(script, line)),
      button('Run it anew, and compare', () => line.tell(checked(store)))), line,
    h('div.forms', {}, h('fieldset', {}, h('legend', {}, 'script.json'), script),
      h('fieldset', {}, h('legend', {}, 'recordctl run script.json'), replies)),
    h('fieldset', {}, h('legend', {}, 'Another script in its place'), other,
      h('div.buttons', {}, button('Run it', load))));
  root.update = () => {
    script.value = store.script();
    replies.value = printed(store);
  };
  return root;
}

// Copies what a text field holds.
export async function copied(place, line) {
  try {
    await navigator.clipboard.writeText(place.value);
    line.tell('the script is copied');
  } catch {
    place.focus();
    place.select();
    line.tell('the script is selected: copy it by the keyboard');
  }
}
