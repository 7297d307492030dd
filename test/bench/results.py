"""Tests what bench/run measured: each call of each program has a time, and each count is there. The last line is 'N passed, M failed'."""
import json
import pathlib
import sys

TOP = pathlib.Path(__file__).resolve().parents[2]
sys.path[:0] = [str(TOP / 'bench'), str(TOP / 'test')]
import harness  # noqa: E402
import programs  # noqa: E402
import tables  # noqa: E402

RESULTS = json.loads(pathlib.Path(sys.argv[1]).read_text(encoding='utf-8'))
NAMES = [*tables.WORKLOADS, 'records-100', 'records-10000', 'records-60000']
CALLS = {'c': ['%s %s' % (call, name) for name in NAMES for call in ('check', 'hand-check', 'walk', 'feed', 'memcpy')] + ['check cut', 'hand-check cut'],
         'plain': ['check ' + name for name in NAMES]}

harness.count('nothing is left out but what this machine lacks', set(RESULTS['left out']) <= {*programs.NAMES, 'instructions'}, RESULTS['left out'])
for program, calls in CALLS.items():
    if program in RESULTS['left out']:
        harness.left_out('bench/run: ' + RESULTS['left out'][program])
        continue
    times = RESULTS['times'][program]
    harness.count('%s has a time for each call' % program, sorted(times) == sorted(calls) and min(times.values()) > 0, sorted(times))
if harness.has('valgrind'):
    counts = RESULTS['instructions']
    harness.count('instructions are counted', len(counts) >= 20 and min(counts.values()) > 0, counts)
    checks = [name for name in counts if not name.startswith('by hand: ') and ('ndef_check' in name or 'fed octet' in name)]
    harness.count('those of each check by hand too', len(checks) >= 16 and not [name for name in checks if 'by hand: ' + name not in counts], counts)
harness.count('a check holds no memory of the message', RESULTS['peaks']['c records-60000'] < 700, RESULTS['peaks'])
harness.finish()
