"""Tests the tables of bench/run: what they show of times, and that a page has a place for each. The last line is 'N passed, M failed'."""
import pathlib
import sys
import unittest

TOP = pathlib.Path(__file__).resolve().parents[2]
sys.path.insert(0, str(TOP / 'bench'))
import tables  # noqa: E402

PAGE = 'before\n' + ''.join('<!-- bench %s -->\nold\n<!-- end -->\n' % name for name in tables.NAMES) + 'after\n'
RESULTS = {'made of': 'dist', 'version': '1.3.0', 'released': '1.2.3', 'of dist': ['Go'], 'machine': 'a processor', 'load': 'load 1 on 4 cores', 'peaks': {'c records-60000': 0, 'c opaque-1M': 12},
           'instructions': {'ndef_check, refused': 7, 'by hand: ndef_check, refused': 14, '`ndef check`': 8},
           'times': {'c': {'check hello': 20.4, 'walk hello': 40.0, 'check records-100': 2000.0, 'check records-1000': 21000.0, 'check records-10000': 2.2e5,
                           'check records-60000': 1.8e6, 'check wide-1M': 2.5e6}, 'plain': {'check hello': 40.8}, 'c_gcc': {'check hello': 51.2, 'hand-check hello': 25.6},
                     'page': {'task records-100': 1e7, 'layout records-100': 2e7, 'all records-100': 9e7, 'task records-1000': 1e7}}}


class Tables(unittest.TestCase):
    def test_times_have_units(self):
        shown = [tables.shown(time) for time in (None, 0.4, 20.4, 999.4, 1000, 9940, 12345, 1.5e6, 2.3e7)]
        self.assertEqual(shown, ['', '0 ns', '20 ns', '999 ns', '1.0 us', '9.9 us', '12 us', '1.5 ms', '23 ms'])

    def test_ratios_of_what_is_there(self):
        self.assertEqual([tables.ratio(*pair) for pair in ((1, 2), (None, 2), (1, None), (1, 1000))], ['0.50', '', '', '0.001'])

    def test_columns_that_nothing_measured_are_left_out(self):
        self.assertEqual(tables.table(['a', 'b', 'c'], [['1', '', '2'], ['3', '', '']]), '| a | c |\n|---|---|\n| 1 | 2 |\n| 3 |  |')

    def test_a_table_without_a_figure_says_so(self):
        for rows in ([], [['a', '']]):
            self.assertEqual(tables.table(['of', 'time'], rows), 'Not measured.')

    def test_a_page_takes_each_table(self):
        page = tables.filled(PAGE, RESULTS)
        for line in ('| the text "Hello" | 12 | 20 ns | 41 ns | 0.50 | 40 ns |',
                     '| the text "Hello" | 12 | 51 ns | 20 ns | 26 ns | 2.00 |', '| `ndef_check` | 20 | 21 | 22 | 30 |', '| `ndef_check`, refused | 7 | 14 | 0.50 |', '| `ndef check` | 8 |  |  |', '| `ndef_check` | 0 | 12 |',
                     '| 100 records | 10 ms | 20 ms | 90 ms |'):
            self.assertIn(line, page.split('\n'))
        self.assertEqual(page.count('\nold\n'), 1 + tables.written(RESULTS).count('Not measured.'))
        self.assertEqual((page.split('\n')[0], page.split('\n')[-2]), ('before', 'after'))
        self.assertEqual(tables.filled(page, RESULTS), page)
        self.assertIn('\nMade of `dist/` of release 1.2.3; on a processor; load 1 on 4 cores.\n', tables.written(RESULTS))

    def test_what_was_measured_is_said(self):
        made = tables.Results({**RESULTS, 'made of': 'crates'}).made()
        self.assertEqual(made, 'Made of what was proved, version 1.3.0, and of `dist/` of release 1.2.3: Go; on a processor; load 1 on 4 cores.')

    def test_a_page_without_a_place_is_refused(self):
        for page in (PAGE.replace('bench growth', 'bench other'), PAGE.replace('<!-- bench growth -->', ''), PAGE + PAGE):
            self.assertRaises(ValueError, tables.filled, page, RESULTS)

    def test_the_document_has_each_place(self):
        tables.filled((TOP / 'docs/PERFORMANCE.md').read_text(encoding='utf-8'), RESULTS)


if __name__ == '__main__':
    result = unittest.main(exit=False, verbosity=2).result
    broken = len(result.failures) + len(result.errors)
    print('%d passed, %d failed' % (result.testsRun - broken, broken), flush=True)
    raise SystemExit(bool(broken))
