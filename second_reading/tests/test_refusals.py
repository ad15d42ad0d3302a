"""Refusals: the cases in `crates/lay_cases/data`, those that were worked out by hand among them.

python3 -m unittest discover second_reading
"""
import pathlib
import re
import unittest

from reading.refusals import first_fault

DATA = pathlib.Path(__file__).resolve().parents[2] / 'crates' / 'lay_cases' / 'data'
# its nodes are written in a short form of the cases' own
SHORTENED = DATA / 'run-documents' / 'places.cases'
CASE = re.compile(r'^case (.*)\n((?:.*\n)*?)answer (Ok|Refused)\n(refused .*\n)?', re.M)


class Refusals(unittest.TestCase):
    def test_documents_in_files_of_their_own(self):
        for file in DATA.rglob('*.json'):
            if file.with_suffix('.txt').exists():
                with self.subTest(file.stem):
                    wanted = file.with_suffix('.txt').read_text()
                    self.assertEqual(wanted if wanted.startswith('refused') else None, first_fault(file.read_bytes()))

    def test_documents_of_lists_of_cases(self):
        found = 0
        for file in sorted(set((DATA / 'run-documents').glob('*.cases')) - {SHORTENED}):
            for name, run, _, refusal in CASE.findall(file.read_text()):
                found += 1
                with self.subTest(file.stem + ': ' + name):
                    self.assertEqual(refusal or None, first_fault(run.encode()))
        self.assertLessEqual(150, found)


if __name__ == '__main__':
    unittest.main()
