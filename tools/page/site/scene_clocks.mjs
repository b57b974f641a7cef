// The sixth scene: the clocks of the sequencer, the resolvers, the logs, the reports and the servers, as lanes.
import {button, choice, field, h, told} from './dom.mjs';
import {written} from './keys.mjs';

const COLUMNS = 14;
const PAUSE = 350;
const CLIENTS = 16;

// A lane for each role: its name, the last version that it has done, up to which it may go on, and how it does.
function rolesOf(store) {
  const {submitted, resolved, logged, pulled} = store;
  const each = (name, clocks, step, mayOf) => clocks.map((clock, place) =>
    ({name: `${name} ${place}`, clock, may: mayOf(place), step: [step, place]}));
  return [
    {name: 'sequencer', clock: submitted, may: submitted},
    ...each('resolver', resolved, 'resolve', () => submitted),
    ...each('log', logged, 'log', () => least(resolved)),
    {name: 'reports', clock: store.reported, may: least(logged), step: ['report']},
    ...each('server', pulled, 'pull', (place) => logged[place % logged.length]),
  ];
}

// The least of numbers, of which some may be a BigInt.
function least(numbers) {
  return numbers.reduce((one, other) => (other < one ? other : one));
}

function mayGoOn(role) {
  return role.clock < role.may;
}

// Whose each version is, and what was reported of it, from the replies so far: reports come in the order of versions.
function versionsOf(store) {
  const versions = new Map();
  let reported = BigInt(store.config.start ?? 0);
  store.replies.forEach((reply, place) => {
    if (reply.startsWith('submitted ')) {
      const [, client] = store.steps[place].match(/^\["commit",(\d+)\]$/);
      versions.set(reply.slice(10), {client});
    } else if (reply.startsWith('client ')) {
      for (const it of reply.split(', ')) {
        reported += 1n;
        Object.assign(versions.get(String(reported)), {outcome: it.split(' ')[2]});
      }
    }
  });
  return versions;
}

const SIGNS = {committed: '✓', conflict: '✕', unknown: '?'};

function cellAt(role, version, versions) {
  const {client, outcome} = versions.get(String(version)) ?? {};
  const isDone = version <= role.clock;
  const isReport = role.name === 'reports';
  const sign = role.name === 'sequencer' ? `c${client}` : isReport ? SIGNS[outcome] ?? '✓' : '';
  const kinds = `${isDone ? '.done' : ''}${isDone && isReport && outcome === 'conflict' ? '.conflict' : ''}`;
  const title = `version ${version} of client ${client}: ${isDone ? (isReport ? outcome : 'done') : 'not yet'}`;
  return h(`td.clock${kinds}`, {title}, isDone ? sign : '');
}

// Steps that make requests: each client saves the first record of the first type once more.
function submitSteps(store, count) {
  const [type] = store.schema.types;
  const [record] = type ? store.records(type, 1) : [];
  if (!record) return [];
  const free = Array.from({length: CLIENTS}, (_, it) => it).filter((it) => !store.clients[it]).slice(0, count);
  return free.flatMap((it) => [['begin', it], ['save', it, type.name, record.cells], ['commit', it]]);
}

function configForm(store) {
  const counts = ['1', '2', '3'];
  const [resolvers, logs, servers] = ['resolvers', 'logs', 'servers'].map((it) => choice(counts, {'aria-label': it}));
  [resolvers, logs, servers].forEach((it) => { it.value = '2'; });
  const splits = (count) => ['15011502', '1501150215'].slice(0, Number(count) - 1);
  const begin = () => {
    const [resolver_splits, storage_splits] = [resolvers, servers].map((it) => splits(it.value));
    store.startOver({resolver_splits, logs: Number(logs.value), storage_splits});
    store.changed();
  };
  return h('details', {}, h('summary', {}, 'Another database'), h('p', {}, 'All steps so far are forgotten.'),
    h('div.row', {}, field('resolvers', resolvers), field('logs', logs), field('servers', servers)),
    h('div.buttons', {}, button('Begin with these', begin)));
}

export function clocksScene(store) {
  const line = told();
  const view = h('div');
  const act = (...steps) => {
    const replies = steps.length ? store.do(...steps) : ['there is no record to save: the second scene saves some'];
    line.tell(steps.length ? `${written(steps.at(-1))}: ${replies.at(-1)}` : replies[0]);
    return replies;
  };
  // each role in turn does its step, and once none has one to do it stops
  let running = null;
  const stop = () => {
    clearInterval(running);
    running = null;
    runs.textContent = 'Run';
  };
  let turn = 0;
  const runOn = () => {
    const roles = rolesOf(store);
    const next = roles.findIndex((_, it) => mayGoOn(roles[(turn + it) % roles.length]));
    if (next < 0) return stop();
    turn = (turn + next) % roles.length;
    return act(roles[turn++].step);
  };
  const runs = button('Run', () => {
    if (running) return stop();
    running = setInterval(runOn, PAUSE);
    runs.textContent = 'Stop';
    return runOn();
  });
  const root = h('div', {}, h('div.buttons', {},
    button('A client submits', () => act(...submitSteps(store, 1))),
    button('Three clients submit', () => act(...submitSteps(store, 3))), runs,
    button('Settle', () => act(['settle'])), button('Lose the next report', () => act(['lost']))),
  line, view, configForm(store));
  root.update = () => view.replaceChildren(lanesOf(store, act));
  root.leave = stop;
  return root;
}

function lanesOf(store, act) {
  const versions = versionsOf(store);
  const last = BigInt(store.submitted);
  const count = Math.min(COLUMNS, Number(last - BigInt(store.config.start ?? 0)));
  const columns = Array.from({length: count}, (_, it) => last - BigInt(count - 1 - it));
  const isThere = least(store.pulled) >= store.reported;
  const lacks = isThere ? '' : ' A server lacks what is reported: a read at that version is refused.';
  const named = (role) => (role.step ? button(role.name, () => act(role.step),
    {'aria-label': `step of ${role.name}`, class: mayGoOn(role) ? 'may' : 'idle'}) : role.name);
  const rows = rolesOf(store).map((role) => h('tr', {}, h('th', {scope: 'row'}, named(role)),
    h('td', {}, String(role.clock)), columns.map((it) => cellAt(role, it, versions))));
  const heads = ['role', 'at', ...columns.map(String)].map((it) => h('th', {scope: 'col'}, it));
  return h('div', {}, h('p', {}, `A transaction that begins now reads at version ${store.reported}.${lacks}`),
    h('div.table', {tabindex: '0', role: 'region', 'aria-label': 'clocks'}, h('table.clocks', {},
      h('thead', {}, h('tr', {}, heads)), h('tbody', {}, rows))));
}
