"""Which piece is seen at a point: the cases in `crates/lay_cases/data/9.9-painting-order`.

python3 -m unittest discover second_reading
"""
import json
import pathlib
import unittest

from reading.painting import hit_line

CASES = pathlib.Path(__file__).resolve().parents[2] / 'crates' / 'lay_cases' / 'data' / '9.9-painting-order'


def cases(file):
    """The name, the point, the document and the answer of each case of a file."""
    for text in file.read_text().split('\ncase ')[1:]:
        call, answer = text.split('\nanswer Ok\n')
        name, words, document = call.split('\n', 2)
        across, down = words.split()[-3], words.split()[-1]
        yield name, (int(across), int(down)), json.loads(document), answer.strip() + '\n'


class Hits(unittest.TestCase):
    def test_each_point_has_the_answer_that_stands_with_it(self):
        count = 0
        for file in sorted(CASES.glob('*.cases')):
            for name, point, run, answer in cases(file):
                with self.subTest('%s: %s' % (file.stem, name)):
                    self.assertEqual(answer, hit_line(run, *point))
                count += 1
        self.assertLessEqual(30, count)


if __name__ == '__main__':
    unittest.main()
