"""Tests a page that was built, in real browsers, against a built `recordctl`. It is run at the top of the repository.

    tests PROGRAM [--folder FOLDER] [--browser NAME] [--only WORDS] [--pictures FOLDER]

Each of the seven scenes is played to its end by the keyboard alone, and what it shows is looked at on the way; one
clicks in it; after each of these the script that the page copies is run by the program, whose replies must be those
that the page had. So are the cases of cases/, the examples, and 200 scripts made at random. Then it is measured: how
soon the page paints and answers, and 10,000 saves beside those of the program, which may take three times as long.

It is no part of the gate, as not every machine has browsers: Debian's `chromium` and `firefox-esr`. A line is printed
for each case that fails. The last line is 'N passed, M failed', and the status is 0 where M is 0.
"""
import argparse
import json
import os
import subprocess
import sys
import threading
import time
from functools import partial
from http.server import ThreadingHTTPServer

HERE = os.path.dirname(os.path.abspath(__file__))
TOOLS = os.path.dirname(os.path.dirname(HERE))
sys.path += [os.path.join(TOOLS, "program_tests"), os.path.join(TOOLS, "page")]
from browsers import BROWSERS, Gone
from cases import cases_in, example_cases
from random_scripts import random_scripts
from scenes import CLICKED, HELPERS, SEEN
from serving import Handler

SCRIPTS, SCENES, TABS = 200, 7, 60
WIDTHS, NARROW = (360, 1600), 4.5
# a script of a byte too many
LONG = '{"steps":[]}'.ljust(4_000_001)
# how often a time is taken, of which the least counts
TRIES, TIMES_AS_LONG, SECOND = 5, 3, 1000
# what a call of the page answers, or a fault behind an exclamation mark
ASK = """((calls) => calls.map(([letter, text]) => {
  try {
    return new page.store.program.constructor(page.store.compiled).ask(letter, text);
  } catch (error) {
    return `!${error.message}`;
  }
}))"""
# the contrast of each text of the page to what is below it, and the least of them
CONTRAST = """Math.min(...[...document.querySelectorAll('h1,h2,p,button,td,th,code,samp,.key,label,strong,caption')]
  .filter((it) => it.offsetParent && it.textContent.trim()).map((it) => {
  const numbers = (color) => (color.match(/[0-9.]+/g) ?? []).map(Number);
  const light = (color) => numbers(color).slice(0, 3).map((it) => it / 255)
    .map((it) => (it <= 0.04045 ? it / 12.92 : ((it + 0.055) / 1.055) ** 2.4))
    .reduce((sum, it, place) => sum + it * [0.2126, 0.7152, 0.0722][place], 0);
  let below = it;
  while (below && (numbers(getComputedStyle(below).backgroundColor)[3] ?? 1) < 1) below = below.parentElement;
  const [one, other] = [getComputedStyle(it).color, getComputedStyle(below ?? document.body).backgroundColor]
    .map(light);
  return (Math.max(one, other) + 0.05) / (Math.min(one, other) + 0.05);
}))"""


class Place:
    """A browser, the page that is served, and the program."""

    def __init__(self, browser, url, program):
        self.browser, self.url, self.program, self.count = browser, url, program, 0

    def fresh(self, scene, width=1280, is_dark=False):
        """Opens the page anew at a scene."""
        self.count += 1
        self.browser.look(width, 900, is_dark)
        self.browser.open(f"{self.url}?{self.count}#{scene}")
        self.browser.until(f"location.search === '?{self.count}' && document.body?.classList.contains('ready')")
        self.browser.value(f"{HELPERS}; undefined")

    def value(self, expression):
        """A value of the page, by way of JSON."""
        told = self.browser.value(f"Promise.resolve(({expression})).then(JSON.stringify)")
        return None if told is None else json.loads(told)

    def do(self, statements):
        self.browser.value(f"{statements}; undefined")

    def printed(self, words, text):
        """What the program prints, or the line of a fault behind an exclamation mark."""
        ran = subprocess.run([self.program, *words], input=text.encode(), capture_output=True, check=False)
        return f"!{ran.stderr.decode().strip()}" if ran.returncode else ran.stdout.decode()

    def copied_fault(self):
        """What is wrong with the script that the page copies: the program replies to it otherwise, or None."""
        self.do("navigator.clipboard.writeText = (it) => { window.copied = it; return Promise.resolve(); }")
        self.do("document.getElementById('copy').click()")
        script = self.value("window.copied")
        replies = self.value("page.store.replies")
        found = self.printed(["run"], script)
        wanted = "".join(f"{place} {it}\n" for place, it in enumerate(replies, 1))
        return None if found == wanted else f"the program replies {found[-300:]}"


def unlike(found, wanted):
    return None if found == wanted else f"{found!r}, wanted {wanted!r}"


def played_fault(place, scene):
    """Plays a scene by the keyboard alone: the button is reached by the key for the next thing, and pressed."""
    place.fresh(scene)
    for _ in range(TABS):
        place.browser.key("Tab")
        if place.value("document.activeElement.textContent") == "To its end":
            break
    place.browser.key("Enter")
    place.browser.until("page.store.steps.length > 0")
    count = place.value("page.tour.scene.plays.length")
    told = place.value("t.all('.player .told').map(t.text)[0]")
    return place.copied_fault() if told.startswith(f"{count} of {count}: ") else f"the scene tells {told!r}"


def seen_fault(place, scene, count, expression, wanted):
    place.fresh(scene)
    place.do(f"t.play({count})")
    return unlike(place.value(expression), wanted) or place.copied_fault()


def clicked_fault(place, scene, count, clicks, expression, wanted):
    place.fresh(scene)
    place.do(f"t.play({count}); {clicks}")
    return unlike(place.value(expression), wanted) or place.copied_fault()


def shape_fault(place, width, is_dark, pictures):
    """Looks at each scene at a width: nothing is wider than the page, and texts can be read."""
    for scene in range(1, SCENES + 1):
        place.fresh(scene, width, is_dark)
        place.do("page.tour.toEnd()")
        wide = place.value("document.documentElement.scrollWidth - document.documentElement.clientWidth")
        contrast = place.value(CONTRAST)
        if pictures:
            name = f"{place.browser.name}-{scene}-{width}-{'dark' if is_dark else 'light'}.png"
            with open(os.path.join(pictures, name), "wb") as file:
                file.write(place.browser.picture())
        if wide > 0 or contrast < NARROW:
            return f"scene {scene}: {wide} columns too many, contrast {contrast}"
    return None


def names_fault(place):
    """Each thing that one can click or type in has a name, and is reached by the keyboard."""
    for scene in range(1, SCENES + 1):
        place.fresh(scene)
        place.do("page.tour.toEnd()")
        nameless = place.value("[...document.querySelectorAll('button,input,select,textarea,summary,.table')]"
                               ".filter((it) => it.offsetParent && !(it.labels?.length || t.text(it) "
                               "|| it.getAttribute('aria-label')) || it.tabIndex < 0).map((it) => it.outerHTML)")
        if nameless:
            return f"scene {scene}: {nameless}"
    return None


def asked_fault(place, calls):
    """Asks the module and the program: calls, each with a letter, words, a text, and what is wanted, or None."""
    place.fresh(1)
    answers = place.value(f"{ASK}({json.dumps([[letter, text] for letter, _, text, _ in calls])})")
    for (_, words, text, wanted), found in zip(calls, answers):
        wanted = place.printed(words, text) if wanted is None else wanted
        if found.rstrip("\n") != wanted.rstrip("\n"):
            return f"{text[:300]!r}: {found[-300:]!r}, wanted {wanted[-300:]!r}"
    return None if calls else "there is nothing to ask"


def repository_calls():
    """The cases and the examples that run scripts and show plans, with what must be printed."""
    letters, calls = {("run",): "r", ("explain",): "e", ("explain", "--tree"): "t"}, []
    for case in [*cases_in("cases"), *example_cases("examples")]:
        words, text = tuple(case.words), case.given
        if words and os.path.exists(words[-1]):
            with open(words[-1], "rb") as file:
                words, text = words[:-1], file.read()
        if words in letters and (case.errors or not case.status):
            wanted = f"!{case.errors.decode().strip()}" if case.status else case.output.decode()
            calls.append((letters[words], words, text.decode(), wanted))
    return calls


def first_times(place):
    """When the page that is opened anew paints first, and has its first answer."""
    place.fresh(1)
    place.browser.until("performance.getEntriesByName('first-contentful-paint').length")
    return dict(place.value("[...performance.getEntriesByType('paint'), ...performance.getEntriesByType('mark')]"
                            ".map((it) => [it.name, it.startTime])"))


def soon_fault(place):
    """The page paints, and answers, within a second, where the machine is free; and all of it is from where it is."""
    times = min((first_times(place) for _ in range(TRIES)), key=lambda it: max(it.values()))
    others = place.value("performance.getEntriesByType('resource').map((it) => it.name)"
                         ".filter((it) => !it.startsWith(location.origin))")
    print(f"{place.browser.name}: {', '.join(f'{name} {at:.0f} ms' for name, at in times.items())}", flush=True)
    if others:
        return f"it asks elsewhere: {others}"
    return None if max(times.values()) < SECOND and "first answer" in times else str(times)


def saves_fault(place):
    """10,000 saves in the page take at most three times what they take in the program."""
    words = [sys.executable, os.path.join(TOOLS, "benchmark_script.py")]
    script = subprocess.run(words, capture_output=True, text=True, check=True).stdout
    program = []
    for _ in range(TRIES):
        since = time.monotonic()
        place.printed(["run"], script)
        program.append((time.monotonic() - since) * 1000)
    place.fresh(1)
    page = place.value(f"((text) => Array.from({{length: {TRIES}}}, () => {{ const since = performance.now(); "
                       "new page.store.program.constructor(page.store.compiled).ask('r', text); "
                       f"return performance.now() - since; }}))({json.dumps(script)})")
    said = ", ".join(f"{it:.0f}" for it in page)
    print(f"{place.browser.name}: 10,000 saves in {said} ms; in the program {min(program):.0f} ms", flush=True)
    return None if min(page) <= TIMES_AS_LONG * min(program) else "the page takes too long"


def all_cases(options):
    """The name of each case, and what finds its fault."""
    yield "it paints and answers soon", soon_fault
    for scene in range(1, SCENES + 1):
        yield f"scene {scene} is played by the keyboard", partial(played_fault, scene=scene)
    for scene, count, expression, wanted in SEEN:
        yield f"scene {scene} after {count} steps: {expression[:60]}", partial(
            seen_fault, scene=scene, count=count, expression=expression, wanted=wanted)
    for scene, count, clicks, expression, wanted in CLICKED:
        yield f"scene {scene} after {clicks[:60]}", partial(
            clicked_fault, scene=scene, count=count, clicks=clicks, expression=expression, wanted=wanted)
    for width in WIDTHS:
        for is_dark in (False, True):
            yield f"{width} columns, {'dark' if is_dark else 'light'}", partial(
                shape_fault, width=width, is_dark=is_dark, pictures=options.pictures)
    yield "names and keys", names_fault
    yield "the repository's cases", partial(asked_fault, calls=repository_calls())
    yield "a script that is too long", partial(asked_fault, calls=[("r", ["run"], LONG, "!bad script at step 0")])
    scripts = [("r", ["run"], it, None) for it in random_scripts(SCRIPTS)]
    yield f"{SCRIPTS} scripts at random", partial(asked_fault, calls=scripts)
    yield "10,000 saves", saves_fault


def tried(place, options):
    """How many cases passed and failed in a browser."""
    passed = failed = 0
    for name, fault_of in all_cases(options):
        if options.only not in name:
            continue
        try:
            fault = fault_of(place)
        except Gone as why:
            fault = str(why)
        passed, failed = passed + (not fault), failed + bool(fault)
        if fault:
            print(f"{place.browser.name}: {name}: {fault}", flush=True)
    return passed, failed


def main():
    parser = argparse.ArgumentParser(description=__doc__, formatter_class=argparse.RawDescriptionHelpFormatter)
    parser.add_argument("program", help="a built recordctl")
    parser.add_argument("--folder", default=os.path.join("out", "page"), help="the page; else out/page")
    parser.add_argument("--browser", choices=[it.name for it in BROWSERS], help="this one alone; else each")
    parser.add_argument("--only", default="", help="a part of the names of the cases that are tried")
    parser.add_argument("--pictures", metavar="FOLDER", help="where a picture of each scene is put")
    options = parser.parse_args()
    passed = failed = 0
    with ThreadingHTTPServer(("127.0.0.1", 0), partial(Handler, directory=options.folder)) as server:
        threading.Thread(target=server.serve_forever, daemon=True).start()
        for kind in BROWSERS:
            if options.browser in (None, kind.name):
                with kind() as browser:
                    place = Place(browser, f"http://127.0.0.1:{server.server_port}/", os.path.abspath(options.program))
                    one, other = tried(place, options)
                    passed, failed = passed + one, failed + other
        server.shutdown()
    print(f"{passed} passed, {failed} failed")
    return 0 if passed and not failed else 1


if __name__ == "__main__":
    sys.exit(main())
