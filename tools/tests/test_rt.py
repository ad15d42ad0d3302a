"""`tools/rt` answers what the kit's own `rt` answers.

python3 -m unittest discover tools/tests
"""
import importlib.machinery
import importlib.util
import os
import pathlib
import subprocess
import sys
import tempfile
import types
import unittest

ROOT = pathlib.Path(__file__).resolve().parent.parent.parent
TOOL = ROOT / 'tools' / 'rt'
# crates of the repository with few ways down: the bare `rt` sums these in a second
SMALL = ('lay_units', 'lay_style', 'lay_doc', 'lay_box_tree', 'lay_boxgen')
LISTS = 'low:\nleft: low\nright: low\ntop: left right low\nhigh: top left\n'


def module(path, name):
    """The program at a path, as a module."""
    loader = importlib.machinery.SourceFileLoader(name, str(path))
    made = importlib.util.module_from_spec(importlib.util.spec_from_loader(name, loader))
    loader.exec_module(made)
    return made


def kits():
    """The kit's `rt` twice: as it is, and with what `tools/rt` puts in place of two functions."""
    tool = module(TOOL, 'tool')
    path = tool.kit_program()
    bare = tool.loaded(path)
    asked = tool.loaded(path)
    tool.remember(asked.rtlib.Crate)
    return bare, asked


def answers(kit, root, name):
    """The sum of a crate, and the crates below it in order."""
    crate = kit.rtlib.Crate(str(root / 'crates' / name), str(root), {})
    return crate.stamp(), [it.name for it in crate.below()]


def small_repository(root):
    """Five crates, with more than one way down to the lowest."""
    (root / 'crates.txt').write_text(LISTS)
    for line in LISTS.splitlines():
        folder = root / 'crates' / line.partition(':')[0] / 'src'
        folder.mkdir(parents=True)
        (folder / 'lib.rt').write_text('//! %s\n' % line)


class SameAnswers(unittest.TestCase):
    def test_crates_of_the_repository(self):
        bare, asked = kits()
        there = [name for name in SMALL if (ROOT / 'crates' / name).is_dir()]
        self.assertTrue(there)
        for name in there:
            with self.subTest(name):
                self.assertEqual(answers(bare, ROOT, name), answers(asked, ROOT, name))

    def test_several_ways_down(self):
        with tempfile.TemporaryDirectory() as name:
            root = pathlib.Path(name)
            small_repository(root)
            bare, asked = kits()
            found = answers(bare, root, 'high')
            self.assertEqual(['low', 'left', 'right', 'top'], found[1])
            self.assertEqual(found, answers(asked, root, 'high'))

    def test_an_edit_between_two_calls_is_seen(self):
        with tempfile.TemporaryDirectory() as name:
            root = pathlib.Path(name)
            small_repository(root)
            _, asked = kits()
            before = answers(asked, root, 'high')
            (root / 'crates' / 'low' / 'src' / 'lib.rt').write_text('//! another text\n')
            bare, _ = kits()
            self.assertNotEqual(before, answers(asked, root, 'high'))
            self.assertEqual(answers(bare, root, 'high'), answers(asked, root, 'high'))


class PlannedMemory(unittest.TestCase):
    def ask(self, budget, name):
        """What is planned for a crate of 3 GB by the kit's function, over a budget of this text."""
        tool = module(TOOL, 'tool')
        with tempfile.TemporaryDirectory() as folder:
            tool.BUDGET = pathlib.Path(folder, 'budget.txt')
            if budget is not None:
                tool.BUDGET.write_text(budget)
            return tool.planning(lambda crate: 3 * 10**9)(types.SimpleNamespace(name=name))

    def test_a_third_more_than_a_proof_took(self):
        self.assertEqual(2 * 10**9, self.ask('# seconds and GB\none 60 1.5\n', 'one'))

    def test_never_more_than_the_kit_plans(self):
        self.assertEqual(3 * 10**9, self.ask('one 60 2.5\n', 'one'))

    def test_what_is_not_known(self):
        for budget in (None, 'one 60\n', 'other 60 1.5\n'):
            self.assertEqual(3 * 10**9, self.ask(budget, 'one'))


class FewerCalls(unittest.TestCase):
    def test_a_crate_is_asked_once_within_a_call(self):
        tool = module(TOOL, 'tool')
        asked = []

        class Crate:
            def __init__(self, folder, deps):
                self.folder, self.deps = folder, deps

            def stamp(self):
                asked.append(self.folder)
                return [it.stamp() for it in self.deps]

        tool.remember(Crate)
        low = Crate('low', [])
        top = Crate('top', [Crate('left', [low]), Crate('right', [low]), low])
        self.assertEqual([[[]], [[]], []], top.stamp())
        self.assertEqual(['top', 'left', 'low', 'right'], asked)

    def test_a_function_that_the_kit_has_replaced_stays(self):
        tool = module(TOOL, 'tool')

        class Crate:
            pass

        def stamp_once(crate):
            return crate

        Crate.stamp = stamp_once
        tool.remember(Crate)
        self.assertIs(stamp_once, Crate.stamp)


class OtherKits(unittest.TestCase):
    def test_an_rt_without_these_functions_runs_as_it_is(self):
        with tempfile.TemporaryDirectory() as name:
            program = pathlib.Path(name, 'rt')
            program.write_text('#!/bin/sh\necho "other kit: $*"\nexit 3\n')
            program.chmod(0o755)
            path = name + os.pathsep + os.environ['PATH']
            done = subprocess.run([sys.executable, TOOL, 'ci', 'low'], env={**os.environ, 'PATH': path}, capture_output=True, text=True)
            self.assertEqual(('other kit: ci low\n', 3), (done.stdout, done.returncode))

    def test_no_rt_is_said(self):
        done = subprocess.run([sys.executable, TOOL, 'ci'], env={**os.environ, 'PATH': ''}, capture_output=True, text=True)
        self.assertEqual((1, "rt: the toolchain's rt is not on the PATH\n"), (done.returncode, done.stderr))


if __name__ == '__main__':
    unittest.main()
