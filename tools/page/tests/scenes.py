"""What the scenes of the page must show, as they are played to an end and as one clicks in them."""

# what is asked of a page, in JavaScript
HELPERS = r"""
window.t = {
  text: (it) => it.textContent.trim().replace(/\s+/g, ' '),
  all: (selector) => [...document.querySelectorAll(`#scene ${selector}`)],
  button: (name) => [...document.querySelectorAll('button')]
    .find((it) => t.text(it) === name && it.offsetParent),
  click: (name) => t.button(name).click(),
  named: (label, place = 0) => [...document.querySelectorAll('label > span')]
    .filter((it) => t.text(it) === label)[place].parentElement.querySelector('input,select,textarea'),
  labelled: (label, place = 0) => [...document.querySelectorAll(`[aria-label="${label}"]`)][place],
  put: (it, value) => { it.value = value; it.dispatchEvent(new Event('change', {bubbles: true})); },
  rows: (caption, rows = 'tbody tr') => t.all('table').filter((it) => t.text(it.caption ?? it).startsWith(caption))
    .flatMap((it) => [...it.querySelectorAll(rows)].map((row) => [...row.cells].map(t.text))),
  // the words of the keys beside the bands of a lane
  covered: (lane) => t.all(`.lane.${lane} .band`).map((it) => {
    const row = t.all('.key')[0].getBoundingClientRect().height;
    const rem = parseFloat(getComputedStyle(document.documentElement).fontSize);
    const [at, size] = [it.style.top, it.style.height].map((its) => Math.round(parseFloat(its) * rem / row));
    return t.all('.key').slice(at, at + size).map(t.text);
  }).filter((it) => it.length),
  marked: (lane) => t.all(`.lane.${lane} .mark`).map((it) => {
    const rem = parseFloat(getComputedStyle(document.documentElement).fontSize);
    const row = t.all('.key')[0].getBoundingClientRect().height;
    return t.text(t.all('.key')[Math.round(parseFloat(it.style.top) * rem / row)]);
  }).sort(),
  // how many of the last versions each clock has
  clocks: (last) => Object.fromEntries([...document.querySelectorAll('.clocks tbody tr')].map((row) =>
    [t.text(row.cells[0]), [...row.cells].slice(2).slice(-last).filter((it) => it.classList.contains('done')).length])),
  replies: (count) => page.store.replies.slice(-count),
  play: (count) => { for (let it = 0; it < count; it++) page.tour.next(); },
};
"""

MELVILLE = [f'by_author: "Melville" → "{it}"' for it in ("Moby-Dick", "Omoo", "Pierre", "Typee")]
BUILT_FIRST = ["Adam Bede", "Emma", "Middlemarch"]
BOOKS = [*BUILT_FIRST, "Moby-Dick", "Omoo", "Persuasion", "Pierre", "Romola", "Typee"]


def books(names):
    return [f'book "{it}"' for it in names]


# of each scene: how many of its steps are played, and what must then be seen
SEEN = [
    (1, 1, "t.rows('Types')", [["book", "title text, author text, year int, copies int", "title"]]),
    (1, 5, "t.rows('Types').length", 2),
    (1, 5, "t.rows('Indexes').map((it) => it.slice(0, 6).join())", [
        "by_author,value,book,author,–,readable", "by_year,value,book,year,–,readable",
        "copies_of,sum,book,author,copies,readable"]),
    (2, 1, "t.rows('book').length", 9),
    (2, 2, "t.rows('book').map((it) => it.slice(0, 4).join())[1]", "Emma,Austen,1815,5"),
    (2, 3, "t.rows('book').map((it) => it[0])", [*BOOKS[:-1]]),
    (2, 4, "t.replies(3)", ["refused WrongKind", "none", "ok"]),
    (2, 5, "t.replies(2)", ["total 7", "ok"]),
    (3, 1, "t.all('.plan b').map(t.text)", ["Fetch", "IndexScan by_author"]),
    (3, 1, "t.all('.plan .words').map(t.text)", ['author = "Melville"']),
    (3, 2, "t.all('.plan b').map(t.text)", ["Fetch", "Intersection", "IndexScan by_author", "IndexScan by_year"]),
    (3, 2, "t.rows('Its rows')", [["Middlemarch", "Eliot", "1871", "4"]]),
    (3, 2, "t.rows('book', 'tr.lit').map((it) => it[0])", ["Middlemarch"]),
    (3, 2, "t.rows('by_author', 'tr.lit').map((it) => it[1])", ["Adam Bede", "Middlemarch", "Romola"]),
    (3, 3, "t.rows('Its rows').map((it) => it[0]).sort()", ["Emma", "Middlemarch", "Persuasion", "Romola"]),
    (3, 4, "t.rows('Its rows').map((it) => it[2])", ["1859", "1852", "1851", "1847", "1817", "1815"]),
    (3, 5, "[t.all('.plan').length, t.text(t.all('.beside .told')[0])]", [0, "refused SortNotServed"]),
    (3, 6, "t.rows('Its rows').map((it) => it[0]).sort()", ["Moby-Dick", "Pierre"]),
    (3, 6, "t.all('.node').map((it) => [...it.children].slice(0, 2).map(t.text))", [
        ["Filter", '["<","copies",2]'], ["Fetch"], ["IndexScan by_author", 'author = "Melville"']]),
    (3, 6, "t.rows('book', 'tr.lit').map((it) => it[0])", ["Moby-Dick", "Omoo", "Pierre"]),
    (3, 6, "t.rows('by_year', 'tr.lit').length", 0),
    (4, 2, "[t.covered('client0'), t.covered('client1')]", [[["schema"], ['book "Emma"']]] * 2),
    (4, 3, "t.marked('client1')", ['book "Emma"', 'copies_of: "Austen"']),
    (4, 4, "t.covered('conflict')", [['book "Emma"']]),
    (4, 4, "t.text(t.all('fieldset.client1 .bad b')[0])", 'book "Emma"'),
    (4, 6, "t.covered('client0').filter((it) => it[0].startsWith('by_author'))", [MELVILLE[:3]]),
    (4, 7, "t.marked('client1')", [
        'book "Typee"', MELVILLE[3], 'by_year: 1846 → "Typee"', 'copies_of: "Melville"']),
    (4, 8, "t.covered('conflict')", [MELVILLE]),
    (4, 8, "t.text(t.all('fieldset.client0 .bad')[0])", "Conflict: version 12 wrote within what it had read, all that "
     "begin with by_author: \"Melville\". Nothing of its transaction was kept."),
    (5, 1, "t.text(t.all('.beside b')[0])", "by_copies is disabled."),
    (5, 2, "[t.text(t.all('.beside b')[0]), t.covered('built')]", ["by_copies is write-only.", []]),
    (5, 3, "[t.covered('built'), t.marked('entries')]", [[books(BUILT_FIRST)], books(BUILT_FIRST)]),
    (5, 4, "t.covered('client0')", [books(BOOKS[3:6])]),
    (5, 6, "[t.covered('built'), t.text(t.all('.bad b')[0])]", [
        [books(BUILT_FIRST)], 'after book "Middlemarch" up to and with book "Persuasion"']),
    (5, 8, "[t.covered('built'), t.marked('entries')]", [[books(BOOKS)], books(BOOKS)]),
    (5, 9, "[t.text(t.all('.beside b')[0]), t.rows('What').map((it) => it.join())]", ["by_copies is readable.", [
        "1,Moby-Dick", "1,Pierre", "1,Romola", "1,Typee", "2,Persuasion", "4,Middlemarch", "7,Emma", "8,Adam Bede",
        "9,Omoo"]]),
    (6, 1, "t.clocks(3)", {"sequencer": 3, "resolver 0": 0, "resolver 1": 0, "log 0": 0, "log 1": 0, "reports": 0,
                           "server 0": 0, "server 1": 0}),
    (6, 3, "t.clocks(3)", {"sequencer": 3, "resolver 0": 2, "resolver 1": 1, "log 0": 1, "log 1": 1, "reports": 0,
                           "server 0": 0, "server 1": 0}),
    (6, 5, "[t.replies(1), t.all('p').some((it) => t.text(it).includes('A server lacks what is reported'))]",
     [["refused FutureVersion"], True]),
    (6, 6, "t.replies(2)", ['found ["Clock 0","Anon",1900,1]', "ok"]),
    (6, 7, "t.replies(1)", ["client 1 unknown"]),
    (6, 8, "[t.clocks(3), t.all('.clocks tr:nth-child(6) td').slice(-3).map(t.text)]", [
        {"sequencer": 3, "resolver 0": 3, "resolver 1": 3, "log 0": 3, "log 1": 3, "reports": 3, "server 0": 3,
         "server 1": 3}, ["✓", "?", "✓"]]),
    (7, 1, "document.getElementById('script').value === page.store.script()", True),
    (7, 1, "t.click('Run it anew, and compare'), t.all('.told').map(t.text).filter((it) => it.startsWith('all'))",
     ["all 162 replies are the same"]),
]

# of each scene: what is played before, what is clicked and put in, and what must be seen then
CLICKED = [
    (1, 0, "t.click('Make the type')", "t.replies(4)", ["begun 0", "ok", "submitted 1", "client 0 committed 1"]),
    (1, 5, "t.click('Make the type'); t.click('Make the index')", "t.replies(4)[1]", "readable"),
    (1, 5, "t.labelled('drop by_year').click()", "[t.replies(4)[1], t.rows('Indexes').length]", ["ok", 2]),
    (1, 5, "t.labelled('disable by_year').click()", "t.rows('Indexes')[1][5]", "disabled"),
    (1, 5, "t.put(t.named('name', 1), 'by_author'); t.click('Make the index')", "t.replies(2)", [
        "refused NameTaken", "ok"]),
    (2, 5, "['Typee', 'Melville', '1846', '1'].forEach((it, place) => t.put(t.all('form input')[place], it)); "
     "t.click('Save')", "[t.replies(3)[0], t.rows('book').at(-1).slice(0, 4).join()]", [
         "saved new", "Typee,Melville,1846,1"]),
    (2, 5, "t.labelled('edit Emma Austen 1815 5').click(); t.click('Load by its key')", "t.replies(3)[0]",
     'found ["Emma","Austen",1815,5]'),
    (2, 5, "t.labelled('remove Emma Austen 1815 5').click()", "[t.replies(3)[0], t.rows('book').length]", [
        "removed", 7]),
    (2, 5, "t.click('Save 100 made up')", "page.store.replies.filter((it) => it === 'saved new').length", 109),
    (2, 5, "t.put(document.getElementById('typed'), '[\"begin\",0],[\"save\",0,\"book\",[\"Big\",null,"
     "9223372036854775807,-9007199254740993]],[\"commit\",0],[\"settle\"]'); t.click('Do it')",
     "t.rows('book')[1].slice(0, 4)", ["Big", "–", "9223372036854775807", "-9007199254740993"]),
    (3, 1, "t.put(t.labelled('field'), 'year'); t.put(t.labelled('compared'), '<'); "
     "t.put(t.labelled('value'), '1850'); t.click('Plan it and run it')",
     "[t.rows('Its rows').map((it) => it[0]), t.all('.plan .words').map(t.text)]",
     [["Emma", "Persuasion", "Omoo"], ["year < 1850"]]),
    (3, 1, "t.put(t.all('textarea')[0], '{\"type\":'); t.click('Plan it and run it')",
     "t.text(t.all('.beside .told')[0])", "the query isn't JSON"),
    (4, 1, "t.put(t.named('title (text)', 1), 'Emma'); [...document.querySelectorAll('.client1 button')]"
     ".find((it) => t.text(it) === 'Load').click()", "t.covered('client1')", [["schema"], ['book "Emma"']]),
    (5, 2, "t.put(t.named('records a step'), '2'); t.click('Begin a step'); t.click('Commit the step')",
     "t.covered('built')", [books(BOOKS[:2])]),
    (5, 8, "t.click('Mark it readable')", "t.text(t.all('.beside b')[0])", "by_copies is readable."),
    (6, 1, "t.click('resolver 0'); t.click('resolver 1'); t.click('log 0'); t.click('log 1'); t.click('reports')",
     "t.replies(1)", ["client 0 committed 23"]),
    (6, 1, "t.click('Run')", "new Promise((done) => { const it = setInterval(() => { if (t.button('Run')) { "
     "clearInterval(it); done(Object.values(t.clocks(3))); } }, 50); })", [3] * 8),
    (7, 1, "t.put(t.labelled('another script'), '{\"steps\":[[\"begin\",0],[\"query\",0,{\"type\":\"t\"}]]}'); "
     "t.click('Run it')", "page.store.replies", ["begun 0", "refused NoStore"]),
    (7, 1, "t.put(t.labelled('another script'), '{\"steps\":[[\"begin\"]]}'); t.click('Run it')",
     "t.all('.told.bad').map(t.text)", ["bad script at step 1"]),
    (7, 1, "t.click('Take back the last')", "[page.store.steps.length, page.store.steps.at(-1)]",
     [161, '["query",5,{"type":"book","sort":["year"]}]']),
    (7, 1, "t.put(document.getElementById('typed'), '[\"begin\",7]'); t.click('Do it')", "t.replies(1)", ["begun 25"]),
    (7, 1, "t.click('Start over')", "page.store.steps.length", 0),
]
