"""`tools/ways` and `tools/gate` on made repositories.

python3 -m unittest discover tools/tests
"""
import importlib.machinery
import importlib.util
import pathlib
import shutil
import subprocess
import sys
import tempfile
import unittest

TOOLS = pathlib.Path(__file__).resolve().parent.parent
BUDGET = 'low 60 0.3\nleft 120   # a remark\nright 60\ntop 60 0.9\n'
LISTS = '# a remark\nlow:\nleft: low\nright: low\ntop: left right\n'
# a gate that proves one crate: a process by that crate's name, in its folder, which takes a second of a processor
STUB = """#!/usr/bin/env python3
import subprocess, sys
subprocess.run([sys.executable, '-c', 'import time\\nwhile time.process_time() < 1.2: pass', '--crate-name', 'low'], cwd='crates/low')
print('1 passed, 0 failed')
"""


def module(name):
    """A script as a module."""
    loader = importlib.machinery.SourceFileLoader(name, str(TOOLS / name))
    made = importlib.util.module_from_spec(importlib.util.spec_from_loader(name, loader))
    loader.exec_module(made)
    return made


def repository(root, lists, budget):
    """A repository of crates that name what stands before them in these lists, with the scripts."""
    root.mkdir()
    shutil.copytree(TOOLS, root / 'tools')
    (root / 'tools' / 'budget.txt').write_text(budget)
    (root / 'crates.txt').write_text(lists)
    for line in LISTS.splitlines()[1:]:
        name, _, uses = line.partition(':')
        source = root / 'crates' / name / 'src'
        source.mkdir(parents=True)
        (source / 'lib.rt').write_text(''.join('pub use %s;\n' % it for it in uses.split()))
    return root


class OneRepository(unittest.TestCase):
    def setUp(self):
        self.folder = tempfile.TemporaryDirectory()
        self.addCleanup(self.folder.cleanup)

    def ways(self, lists=LISTS, budget=BUDGET, *words):
        root = repository(pathlib.Path(self.folder.name, 'made'), lists, budget)
        done = subprocess.run([sys.executable, root / 'tools' / 'ways', *words], capture_output=True, text=True)
        return done.returncode, done.stdout

    def test_ways_seconds_and_the_longest_chain(self):
        status, text = self.ways()
        self.assertEqual(0, status, text)
        rows = {row.split()[0]: row.split()[1:] for row in text.splitlines()[1:6]}
        self.assertEqual(['5', '3'], rows['top'][:2])
        self.assertEqual(['2', '1'], rows['left'][:2])
        self.assertEqual(['10', '300'], [rows['all'][0], rows['all'][-1]])
        self.assertEqual(['0.4', '1.0', '1.0'], [rows[name][2] for name in ('low', 'left', 'top')])
        self.assertIn('the longest chain takes 4 minutes of one processor: low left top\n', text)

    def test_a_name_in_vain_is_refused(self):
        status, text = self.ways(LISTS.replace('top: left right', 'top: low left right'))
        self.assertEqual(1, status)
        self.assertIn('top lists low, which it does not name\n', text)

    def test_a_budget_of_no_crate_is_refused(self):
        status, text = self.ways(LISTS, BUDGET + 'gone 9\n')
        self.assertEqual(1, status)
        self.assertIn('tools/budget.txt has gone, which is no crate\n', text)

    def test_too_many_ways_are_refused(self):
        self.assertEqual(1, self.ways(LISTS, BUDGET, '--most', '9')[0])

    def test_the_gate_tells_what_a_crate_took(self):
        root = repository(pathlib.Path(self.folder.name, 'made'), LISTS, BUDGET)
        (root / 'tools' / 'rt').write_text(STUB)
        words = [sys.executable, root / 'tools' / 'gate', '--log', pathlib.Path(self.folder.name, 'log'), '--every', '0.05']
        done = subprocess.run(words, capture_output=True, text=True)
        self.assertEqual(0, done.returncode, done.stderr)
        self.assertRegex(done.stdout, r'(?m)^low +\d+\.\d')
        self.assertRegex(done.stdout, r'(?m)^rt itself took \d+\.\d processor minutes, and the gate \d+\.\d minutes$')
        self.assertIn('the longest chain took 0.0 processor minutes: low', done.stdout)
        self.assertEqual('1 passed, 0 failed', done.stdout.splitlines()[-1])


class Watched(unittest.TestCase):
    def test_seconds_and_memory_of_a_crate(self):
        with tempfile.TemporaryDirectory() as name:
            root = pathlib.Path(name)
            (root / 'crates' / 'low').mkdir(parents=True)
            (root / 'stub').write_text(STUB)
            started = subprocess.Popen([sys.executable, root / 'stub'], cwd=root, stdout=subprocess.DEVNULL)
            tasks, own = module('gate').watch(started, 0.05)
        self.assertEqual({('low', 'proof')}, set(tasks))
        self.assertTrue(0.8 < tasks['low', 'proof'].minutes()[1] * 60 < 1.6)
        self.assertTrue(0.001 < tasks['low', 'proof'].peak < 1)
        self.assertTrue(0 < own < 1)


class Model(unittest.TestCase):
    def setUp(self):
        self.ways = module('ways')

    def minutes(self, found, processors, free):
        self.ways.tasks = lambda: found
        return self.ways.gate(processors, free)

    def test_one_after_the_other(self):
        found = {('a', 'proof'): ([], 9, 1, 60), ('b', 'proof'): ([('a', 'proof')], 9, 1, 60)}
        self.assertAlmostEqual(2 / self.ways.SPEEDS[2], self.minutes(found, 2, 20))

    def test_beside_each_other(self):
        found = {('a', 'proof'): ([], 9, 1, 60), ('b', 'proof'): ([], 8, 1, 60)}
        self.assertAlmostEqual(1, self.minutes(found, 2, 20))

    def test_memory_for_one(self):
        found = {('a', 'proof'): ([], 9, 7, 60), ('b', 'proof'): ([], 8, 7, 60)}
        self.assertAlmostEqual(2, self.minutes(found, 2, 10))

    def test_an_edit_waits_for_the_kept_proof(self):
        found = {('a', 'seed'): ([], 0, 1, 60), ('a', 'edit', 0): ([('a', 'seed')], 9, 1, 15)}
        self.assertAlmostEqual(60 / self.ways.SPEEDS[2] / 60 + 0.25, self.minutes(found, 2, 20))


class Budget(unittest.TestCase):
    BUDGET = {'a': (60, 1.0), 'b': (120, 0), 'c': (60, 1.0)}

    def test_a_slow_machine_is_over_for_none(self):
        self.assertEqual([], module('gate').over_budget(self.BUDGET, {'a': 2.0, 'b': 4.0, 'c': 2.0}))

    def test_one_that_grew_is_over(self):
        found = module('gate').over_budget(self.BUDGET, {'a': 1.0, 'b': 2.0, 'c': 2.0})
        self.assertEqual([('c', 120.0, 60.0)], found)


if __name__ == '__main__':
    unittest.main()
