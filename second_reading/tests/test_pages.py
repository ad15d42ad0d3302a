"""Pages of the web, exported from a browser: the cases in `crates/lay_cases/data/pages`.

python3 -m unittest discover second_reading
"""
import json
import pathlib
import unittest

from reading.report import report

PAGES = pathlib.Path(__file__).resolve().parents[2] / 'crates' / 'lay_cases' / 'data' / 'pages'


class Pages(unittest.TestCase):
    def test_each_has_the_report_that_stands_beside_it(self):
        files = sorted(PAGES.glob('*.json'))
        self.assertLessEqual(10, len(files))
        for file in files:
            with self.subTest(file.stem):
                self.assertEqual(file.with_suffix('.txt').read_text(), report(json.loads(file.read_text())))
