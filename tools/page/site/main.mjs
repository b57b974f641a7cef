// The page: its scenes, of which one is shown, what is played there, and the steps so far.
import {button, h, told} from './dom.mjs';
import {Fault} from './module.mjs';
import {Store} from './store.mjs';
import {CONFIG, SCENES} from './tour.mjs';

const PAUSE = 2200;
const LISTED = 150;

function placeIn(id) {
  return document.getElementById(id);
}

// What is played in the scenes: the one that is shown, and how far it has come.
class Tour {
  constructor(store) {
    this.store = store;
    this.views = SCENES.map((it) => it.make(store));
    this.playing = null;
    this.caption = told();
    this.show(Math.max(0, Math.min(SCENES.length, Number(location.hash.slice(1))) - 1 || 0));
  }

  get scene() {
    return SCENES[this.place];
  }

  // Shows a scene.
  show(place) {
    this.stop();
    this.views[this.place]?.leave?.();
    this.place = place;
    this.played = 0;
    history.replaceState(null, '', `#${place + 1}`);
    placeIn('scenes').replaceChildren(...SCENES.map(({name}, it) => h('li', {}, button(`${it + 1} ${name}`,
      () => this.show(it), it === place ? {'aria-current': 'step'} : {}))));
    const current = placeIn('scenes').children[place];
    placeIn('scenes').scrollLeft = current.offsetLeft - placeIn('scenes').offsetLeft - 8;
    const {name, lead} = this.scene;
    this.caption.tell('');
    this.plays = button('Play', () => this.play());
    placeIn('scene').replaceChildren(h('h2', {}, `${place + 1}. ${name}`), h('p.lead', {}, lead),
      h('div.player', {}, h('div.buttons', {}, this.plays, button('Next step', () => this.next()),
        button('To its end', () => this.toEnd()),
        place + 1 < SCENES.length ? button('Next scene', () => this.show(place + 1)) : null), this.caption),
      this.views[place]);
    this.update();
  }

  // Begins the scene: all that is played before it stands.
  begin() {
    this.store.startOver(CONFIG);
    const before = SCENES.slice(0, this.place).flatMap((it) => it.plays).flatMap((it) => it.steps);
    if (before.length) this.store.do(...before);
    this.played = 0;
  }

  // Plays what comes next, and says whether there was something.
  next() {
    const {plays} = this.scene;
    if (this.played === plays.length) return false;
    if (this.played === 0) this.begin();
    const {say, steps} = plays[this.played];
    this.played += 1;
    this.caption.tell(`${this.played} of ${plays.length}: ${say}`);
    this.store.do(...steps);
    if (this.played === plays.length) this.stop();
    return true;
  }

  toEnd() {
    this.stop();
    if (this.played === this.scene.plays.length) this.played = 0;
    while (this.next());
  }

  play() {
    if (this.playing) return this.stop();
    if (this.played === this.scene.plays.length) this.played = 0;
    this.playing = setInterval(() => this.next(), PAUSE);
    this.plays.textContent = 'Pause';
    return this.next();
  }

  stop() {
    clearInterval(this.playing);
    this.playing = null;
    if (this.plays) this.plays.textContent = 'Play';
  }

  update() {
    this.views[this.place].update();
    showSteps(this.store);
    placeIn('unread').hidden = this.store.isReadable;
  }
}

// The last of the steps so far, with their replies.
function showSteps({steps, replies}) {
  const first = Math.max(0, steps.length - LISTED);
  const items = steps.slice(first).map((step, place) => h('li', {value: String(first + place + 1)}, h('code', {}, step),
    h(replies[first + place].startsWith('refused') ? 'samp.refused' : 'samp', {}, replies[first + place])));
  const list = placeIn('steps');
  list.replaceChildren(...items);
  list.scrollTop = list.scrollHeight;
  placeIn('count').textContent = `${steps.length}`;
}

// What is done with the steps so far: one more is typed, the last is taken back, they are copied, or forgotten.
function wireSteps(store, line) {
  const tried = (act) => () => {
    try {
      line.tell(act() ?? '');
    } catch (error) {
      if (!(error instanceof Fault)) throw error;
      line.tell(error.message, true);
    }
  };
  const typed = placeIn('typed');
  placeIn('type').addEventListener('submit', (event) => {
    event.preventDefault();
    tried(() => store.doTyped(typed.value).at(-1))();
  });
  placeIn('undo').addEventListener('click', tried(() => { store.undo(); }));
  placeIn('anew').addEventListener('click', tried(() => {
    store.startOver(CONFIG);
    store.changed();
  }));
  placeIn('copy').addEventListener('click', async () => {
    try {
      await navigator.clipboard.writeText(store.script());
      line.tell('the script is copied');
    } catch {
      line.tell('this browser doesn\'t let it be copied: the last scene shows it');
    }
  });
}

async function begin() {
  const file = await fetch('store.wasm');
  if (!file.ok) throw new Error(`store.wasm isn't there: ${file.status}`);
  const compiled = await WebAssembly.compile(await file.arrayBuffer());
  const store = new Store(compiled, CONFIG);
  performance.mark('first answer');
  const line = told();
  placeIn('said').append(line);
  wireSteps(store, line);
  const tour = new Tour(store);
  store.changed = () => tour.update();
  window.page = {store, tour};
  document.body.classList.add('ready');
}

begin().catch((error) => {
  placeIn('scene').replaceChildren(h('p.bad', {}, `This browser can't run the module: ${error.message}`));
});
