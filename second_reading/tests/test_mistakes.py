"""Each wrong reading is a change of the reading as it is."""
import pathlib
import unittest

from mistakes.atomic_mistakes import ATOMIC_MISTAKES
from mistakes.automatic_mistakes import AUTOMATIC_MISTAKES
from mistakes.changes import with_changes
from mistakes.flow_mistakes import MISTAKES
from mistakes.positioned_mistakes import POSITIONED_MISTAKES
from mistakes.table_mistakes import TABLE_MISTAKES

READING = pathlib.Path(__file__).resolve().parents[1] / 'reading'


class Mistakes(unittest.TestCase):
    def test_each_mistake_changes_a_text_that_stands_once_in_its_module(self):
        for mistakes in (MISTAKES, ATOMIC_MISTAKES, TABLE_MISTAKES, AUTOMATIC_MISTAKES, POSITIONED_MISTAKES):
            for module, readings in mistakes.items():
                source = (READING / (module + '.py')).read_text()
                for name, *changes in readings:
                    with self.subTest('%s: %s' % (module, name)):
                        self.assertNotEqual(source, with_changes(source, changes))


if __name__ == '__main__':
    unittest.main()
