// The tour: what each scene is about, and the steps that are played there.
import {builderScene} from './scene_builder.mjs';
import {clientsScene} from './scene_clients.mjs';
import {clocksScene} from './scene_clocks.mjs';
import {queryScene} from './scene_query.mjs';
import {recordsScene} from './scene_records.mjs';
import {scriptScene} from './scene_script.mjs';
import {typesScene} from './scene_types.mjs';

// Two resolvers and two servers, which part the keys between records and indexes, and two logs.
export const CONFIG = {resolver_splits: ['15011502'], logs: 2, storage_splits: ['15011502']};

const BOOK = {
  name: 'book',
  fields: [['title', 'text'], ['author', 'text'], ['year', 'int'], ['copies', 'int']],
  key: ['title'],
};
const BOOKS = [
  ['Adam Bede', 'Eliot', 1859, 2], ['Emma', 'Austen', 1815, 3], ['Middlemarch', 'Eliot', 1871, 4],
  ['Moby-Dick', 'Melville', 1851, 1], ['Omoo', 'Melville', 1847, 2], ['Persuasion', 'Austen', 1817, 2],
  ['Pierre', 'Melville', 1852, 1], ['Romola', 'Eliot', 1863, 1], ['Sanditon', 'Austen', null, 1],
];

const value = (name, ...columns) => ({name, kind: 'value', type: 'book', columns});
// steps of client 0 in a transaction of its own
const alone = (...steps) => [['begin', 0], ...steps, ['commit', 0], ['settle']];
const saved = (client, ...cells) => ['save', client, 'book', cells];
// client 2 asks a query, and keeps its transaction open so that its reads can be seen
const asked = (query) => [['begin', 2], ['plan', 2, query], ['execute', 2]];
const filtered = (...filter) => ({type: 'book', filter});

const TYPES = [
  {say: 'A store is made, with one type: books, whose primary key is the title.',
    steps: alone(['create', 0, {types: [BOOK]}])},
  {say: 'Another type is added later, in a transaction of its own.',
    steps: alone(['type', 0, {name: 'reader', fields: [['name', 'text'], ['city', 'text']], key: ['name']}])},
  {say: 'An index of books by author: it is readable at once, as there are no books.',
    steps: alone(['index', 0, value('by_author', 'author')])},
  {say: 'Another one, by year.', steps: alone(['index', 0, value('by_year', 'year')])},
  {say: 'And a SUM: how many copies of each author\'s books there are.',
    steps: alone(['index', 0, {name: 'copies_of', kind: 'sum', type: 'book', columns: ['author'], summed: 'copies'}])},
];

const RECORDS = [
  {say: 'Nine books are saved in one transaction, and each index is kept with them.',
    steps: alone(...BOOKS.map((it) => saved(0, ...it)))},
  {say: 'A record with the same key is saved over the one that was there.',
    steps: alone(saved(0, 'Emma', 'Austen', 1815, 5))},
  {say: 'One is removed.', steps: alone(['remove', 0, 'book', ['Sanditon']])},
  {say: 'What isn\'t of the type is refused, and changes nothing.',
    steps: [['begin', 0], saved(0, 'Typee', 'Melville', '1846', 1), ['load', 0, 'book', ['Typee']], ['abandon', 0]]},
  {say: 'The SUM has followed: Austen\'s books have five copies and two.',
    steps: [['begin', 0], ['aggregate', 0, 'copies_of', ['Austen']], ['abandon', 0]]},
];

const QUERIES = [
  {say: 'The books of one author: a scan of the index by author, each of whose entries leads to a record.',
    steps: asked(filtered('=', 'author', 'Melville'))},
  {say: 'An author and a year: the plan takes what two scans have in common, and fetches just that.',
    steps: [['abandon', 2], ...asked(filtered('and', ['=', 'author', 'Eliot'], ['=', 'year', 1871]))]},
  {say: 'An author or some years: two scans, and each record once.',
    steps: [['abandon', 2], ...asked(filtered('or', ['=', 'author', 'Austen'], ['>=', 'year', 1860]))]},
  {say: 'By year, the last first: the index gives that order, turned round.',
    steps: [['abandon', 2], ...asked({type: 'book', filter: ['<', 'year', 1860], sort: ['year'], reverse: true})]},
  {say: 'An order that no index gives is refused.',
    steps: [['abandon', 2], ['begin', 2], ['plan', 2, {type: 'book', sort: ['copies']}]]},
  {say: 'And again by author, with a filter for the rest.',
    steps: [['abandon', 2], ...asked(filtered('and', ['=', 'author', 'Melville'], ['<', 'copies', 2]))]},
];

const TWO_CLIENTS = [
  {say: 'Two clients begin. Both read at the same version.', steps: [['abandon', 2], ['begin', 0], ['begin', 1]]},
  {say: 'Both load the same book. Their bands stand at the same key.',
    steps: [['load', 0, 'book', ['Emma']], ['load', 1, 'book', ['Emma']]]},
  {say: 'Both save it with a copy more, each from what it read.',
    steps: [saved(0, 'Emma', 'Austen', 1815, 6), saved(1, 'Emma', 'Austen', 1815, 6)]},
  {say: 'Both commit. Client 0 is first; client 1 had read what client 0 wrote, and is refused.',
    steps: [['commit', 0], ['commit', 1], ['settle']]},
  {say: 'Client 1 does its work once more, over what there is now.',
    steps: [['begin', 1], ['load', 1, 'book', ['Emma']], saved(1, 'Emma', 'Austen', 1815, 7), ['commit', 1],
      ['settle']]},
  {say: 'Now client 0 asks for all of Melville\'s books. What it has read is a range of the index.',
    steps: [['begin', 0], ['query', 0, filtered('=', 'author', 'Melville')], ['begin', 1]]},
  {say: 'Client 1 saves a book that isn\'t there yet, within that range.',
    steps: [saved(1, 'Typee', 'Melville', 1846, 1), ['commit', 1], ['settle']]},
  {say: 'Client 0 writes what it found. It is refused where the new entry stands: no row is missed.',
    steps: [saved(0, 'Melville, a list', 'nobody', null, 3), ['commit', 0], ['settle']]},
];

const BUILDING = [
  {say: 'An index by copies is added. As there are books already, it is disabled.',
    steps: alone(['index', 0, value('by_copies', 'copies')])},
  {say: 'It is marked write-only: writers keep it up to date, and nobody reads it yet.',
    steps: alone(['write_only', 0, 'by_copies'])},
  {say: 'A builder builds the first three records. The bar shows which positions are built.',
    steps: alone(['build', 0, 'by_copies', 3])},
  {say: 'It builds three more, and hasn\'t committed yet: its band covers what it read.',
    steps: [['begin', 0], ['build', 0, 'by_copies', 3]]},
  {say: 'A writer saves one of these meanwhile, and commits first.',
    steps: [['begin', 1], saved(1, 'Omoo', 'Melville', 1847, 9), ['commit', 1], ['settle']]},
  {say: 'So the builder is refused: it had read the book before the writer changed it.',
    steps: [['commit', 0], ['settle']]},
  {say: 'It does the step once more.', steps: alone(['build', 0, 'by_copies', 3])},
  {say: 'A writer in what is built already doesn\'t disturb it.',
    steps: [['begin', 0], ['build', 0, 'by_copies', 9], ['begin', 1], saved(1, 'Adam Bede', 'Eliot', 1859, 8),
      ['commit', 1], ['settle'], ['commit', 0], ['settle']]},
  {say: 'All positions are built. It is marked readable, and has just what its records define.',
    steps: [['begin', 0], ['build', 0, 'by_copies', 3], ['abandon', 0], ...alone(['readable', 0, 'by_copies'])]},
];

const CLOCKS = [
  {say: 'Three clients submit: the sequencer gives each request a version.',
    steps: [0, 1, 2].flatMap((it) => [['begin', it], saved(it, `Clock ${it}`, 'Anon', 1900 + it, 1), ['commit', it]])},
  {say: 'The resolver of the records answers for two of them, that of the indexes for one.',
    steps: [['resolve', 0], ['resolve', 0], ['resolve', 1]]},
  {say: 'A log appends what every resolver has answered for: so just the first.',
    steps: [['log', 0], ['log', 0], ['log', 1]]},
  {say: 'It is in every log: it can be reported to its client. From now on transactions read it.',
    steps: [['report'], ['begin', 3]]},
  {say: 'But no server has it yet, so what asks for it there is refused, and may be asked again.',
    steps: [['load', 3, 'book', ['Clock 0']]]},
  {say: 'The servers pull it, and the same transaction finds it.',
    steps: [['pull', 0], ['pull', 1], ['load', 3, 'book', ['Clock 0']], ['abandon', 3]]},
  {say: 'The second one goes through, and its report is lost: its client doesn\'t know.',
    steps: [['resolve', 1], ['log', 0], ['log', 1], ['lost']]},
  {say: 'All roles do what there is to do.', steps: [['settle']]},
];

const SCRIPT = [
  {say: 'All of this is a script. A query to end with.',
    steps: [['begin', 5], ['query', 5, {type: 'book', sort: ['year']}], ['abandon', 5]]},
];

export const SCENES = [
  {name: 'Types and indexes', make: typesScene, plays: TYPES,
    lead: 'A store keeps records of types, and indexes over them. Make some by clicks, or type a step.'},
  {name: 'Records', make: recordsScene, plays: RECORDS,
    lead: 'Records are saved, loaded and removed in transactions. Indexes follow in the same transaction.'},
  {name: 'A query and its plan', make: queryScene, plays: QUERIES,
    lead: 'The planner chooses scans whose ranges hold what the query asks for. What they read is lit.'},
  {name: 'Two clients', make: clientsScene, plays: TWO_CLIENTS,
    lead: 'Each transaction remembers the ranges of keys that it reads. One that reads what another writes meanwhile '
      + 'is refused.'},
  {name: 'A builder beside a writer', make: builderScene, plays: BUILDING,
    lead: 'An index of a store in use is built in steps, beside those who write. Nobody reads it half built.'},
  {name: 'Clocks', make: clocksScene, plays: CLOCKS,
    lead: 'Each role has its own clock. A version passes the sequencer, every resolver, every log, and is reported; '
      + 'servers pull it from the logs.'},
  {name: 'The script', make: scriptScene, plays: SCRIPT,
    lead: 'The steps so far, whoever made them, are a script. The program replays it to the same replies.'},
];
