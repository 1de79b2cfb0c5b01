"""The examples in the package's texts and in README, run."""
import doctest
import importlib
import os
import pkgutil
import re
import unittest

import morelturret

from .shared import TOP


def load_tests(loader, tests, pattern):
    names = {name: getattr(morelturret, name) for name in morelturret.__all__}
    modules = [morelturret, *(importlib.import_module(f"morelturret.{m.name}") for m in pkgutil.iter_modules(morelturret.__path__) if m.name != "__main__")]
    for module in modules:
        if any(test.examples for test in doctest.DocTestFinder().find(module)):
            tests.addTests(doctest.DocTestSuite(module, extraglobs=names))
    return tests


class Readme(unittest.TestCase):
    def test_examples(self):
        """README's examples in Python, one after the other, at the top of the repository."""
        blocks = re.findall(r"^```python\n(.*?)^```", (TOP / "README.md").read_text(), re.M | re.S)
        self.assertTrue(blocks)
        before = os.getcwd()
        os.chdir(TOP)
        self.addCleanup(os.chdir, before)
        test = doctest.DocTestParser().get_doctest("\n".join(blocks), {}, "README.md", "README.md", 0)
        self.assertTrue(test.examples)
        runner = doctest.DocTestRunner(verbose=False)
        runner.run(test)
        self.assertEqual(runner.failures, 0)
