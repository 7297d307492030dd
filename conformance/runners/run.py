#!/usr/bin/env python3
# SPDX-License-Identifier: CC0-1.0 OR MIT OR Apache-2.0
"""run.py READER [typed|leaf|opaque [strict|standard]]: runs the cases on a reader. READER is a Python file with a function
length(octets), which returns the length of the message with which the octets begin, or None where there is none."""
import collections
import importlib.util
import json
import pathlib
import sys

path, language, profile = [*sys.argv[1:], *['', 'typed', 'strict'][len(sys.argv) - 1:]]
spec = importlib.util.spec_from_file_location('reader', path)
reader = importlib.util.module_from_spec(spec)
spec.loader.exec_module(reader)
run, wrong = collections.Counter(), collections.Counter()
for line in (pathlib.Path(__file__).resolve().parents[1] / 'cases.jsonl').open(encoding='utf-8'):
    case = json.loads(line)
    usual = case.get('limits') == {'payload': 1048576, 'records': 1024, 'pieces': 4096}
    if usual and language in case['languages'] and profile in case['profiles']:
        run[case['class']] += 1
        length = reader.length(bytes.fromhex(case['bytes']))
        if length != case.get('length'):
            wrong[case['class']] += 1
            print(case['id'], case['rule'], case['class'], case['bytes'], 'wanted', case.get('length'), 'got', length)
for name in run:
    print(f'{name}: {run[name]} cases, {wrong[name]} wrong')
sys.exit(sum(wrong.values()) > 0)
