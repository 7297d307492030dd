#!/usr/bin/env python3
"""bindings/web/embed.py PAGE FOLDER: writes FOLDER/index.html, the page with its style, its modules and FOLDER/ndef_wasm.mjs within it.

Each module becomes a function that returns what it exports. The page names the digests of its script and its style, so the browser
runs no other ones."""
import base64
import hashlib
import pathlib
import re
import sys

IMPORT = re.compile(r'^import (?:\{([^}]*)\}|(\w+)) from "\./([\w.]+)";\n', re.M)
EXPORT = re.compile(r'^export (?:async )?(?:function\*?|class|const) (?:(\w+)|\{([^}]*)\})', re.M)


def put(text, mark, what):
    if text.count(mark) != 1:
        sys.exit(f'bindings/web/embed.py: {mark!r} stands {text.count(mark)} times in the page')
    return text.replace(mark, what)


def imported(found):
    names = found[1].strip() if found[1] is not None else f'default: {found[2]}'
    return f'const {{ {names} }} = modules["{found[3]}"];\n'


def exported(text):
    for one, several in EXPORT.findall(text):
        yield from [one] if one else re.split(r',\s*', several.strip())


class Bundle:
    """Modules as functions, each after those that it imports."""

    def __init__(self, folders):
        self.folders, self.done = folders, {}

    def source(self, name):
        return next(folder / name for folder in self.folders if (folder / name).exists()).read_text(encoding='utf-8')

    def body(self, text):
        for found in IMPORT.finditer(text):
            self.add(found[3])
        return IMPORT.sub(imported, text)

    def add(self, name):
        if name in self.done:
            return
        text = self.body(self.source(name))
        names = list(exported(text))
        if re.search(r'^export default ', text, re.M):
            names.append('default: made')
            text = re.sub(r'^export default ', 'const made = ', text, flags=re.M)
        text = re.sub(r'^export ', '', text, flags=re.M)
        if re.search(r'^(?:import|export)\b', text, re.M):
            sys.exit(f'bindings/web/embed.py: {name} has an import or an export of another form')
        self.done[name] = f'modules["{name}"] = (() => {{\n{text}return {{ {", ".join(names)} }};\n}})();\n'

    def whole(self, name):
        body = self.body(self.source(name))
        return 'const modules = {};\n' + ''.join(self.done.values()) + body


def digest(text):
    return "'sha256-" + base64.b64encode(hashlib.sha256(text.encode()).digest()).decode() + "'"


def main(page, folder):
    web = pathlib.Path(page).parent
    text = pathlib.Path(page).read_text(encoding='utf-8')
    script = '\n' + Bundle([web, pathlib.Path(folder)]).whole('page.js')
    style = '\n' + (web / 'page.css').read_text(encoding='utf-8')
    text = put(text, 'SCRIPT-DIGEST', digest(script))
    text = put(text, 'STYLE-DIGEST', digest(style))
    text = put(text, '<link rel="stylesheet" href="page.css">', f'<style>{style}</style>')
    text = put(text, '<script type="module" src="page.js"></script>', f'<script type="module">{script}</script>')
    pathlib.Path(folder, 'index.html').write_text(text, encoding='utf-8')


main(*sys.argv[1:])
