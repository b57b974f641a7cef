"""The page as one file: its style and its modules of JavaScript put into the page of HTML."""
import os
import re

HERE = os.path.join(os.path.dirname(os.path.abspath(__file__)), "site")
# the modules, each after those that it imports
MODULES = ("module", "keys", "store", "dom", "scene_types", "scene_records", "scene_query", "scene_clients",
           "scene_builder", "scene_clocks", "scene_script", "tour", "main")
IMPORT = re.compile(r"^import \{([^}]*)\} from '\./(\w+)\.mjs';$", re.M)
EXPORT = re.compile(r"^export ((?:async )?function|class|const) (\w+)", re.M)


def text_of(name):
    """The text of a file of the site."""
    with open(os.path.join(HERE, name), encoding="utf-8") as file:
        return file.read()


def enclosed(name):
    """A module as a function that answers what it exports, and is called once: its other names are its own."""
    text = text_of(f"{name}.mjs")
    exported = [it[2] for it in EXPORT.finditer(text)]
    text = IMPORT.sub(lambda it: f"const {{{it[1]}}} = in_{it[2]};", text)
    text = EXPORT.sub(r"\1 \2", text)
    return f"const in_{name} = (() => {{\n{text}return {{{', '.join(exported)}}};\n}})();\n"


def joined():
    """The whole page."""
    page = text_of("page.html")
    for place, text in (("/* style */", text_of("style.css")), ("/* script */", "".join(map(enclosed, MODULES)))):
        page = page.replace(f"{place}\n", text)
    return page
