#!/usr/bin/env python3
"""test/install/links.py FOLDER: whether each link in the documents below a folder leads to a file there."""
import pathlib
import re
import sys

folder = pathlib.Path(sys.argv[1])
pages = sorted(folder.rglob('*.md'))
bad = [f'{page.relative_to(folder)}: {target}' for page in pages for target in re.findall(r'\]\(([^()\s]+)\)', page.read_text(encoding='utf-8'))
       if '://' not in target and not (page.parent / (target.partition('#')[0] or page.name)).exists()]
print(*bad, f'{len(pages)} documents', sep='\n')
sys.exit(bool(bad) or not pages)
