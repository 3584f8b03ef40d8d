"""tools/run test [PATTERN]

Tests the gate's own modules: tests/test_*.py, or those whose names fit a pattern such as
test_mutants*.
"""
import os
import unittest

HERE = os.path.dirname(os.path.realpath(__file__))


def main(words):
    top = os.path.dirname(os.path.dirname(HERE))
    found = unittest.defaultTestLoader.discover(HERE, f"{(words or ['test_*'])[0]}.py", top)
    result = unittest.TextTestRunner(verbosity=0).run(found)
    return 0 if result.wasSuccessful() and result.testsRun else 1
