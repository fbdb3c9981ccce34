"""Runs all tests beside this file; fails where one fails, or where there is none."""

from __future__ import annotations

import collections
import sys
import unittest
import warnings
from pathlib import Path


def main() -> int:
    here = Path(__file__).resolve().parent
    suite = unittest.defaultTestLoader.discover(str(here), top_level_dir=str(here.parent))
    warnings.simplefilter("default")
    result = unittest.TextTestRunner(stream=sys.stdout, verbosity=0, buffer=True).run(suite)
    skipped = collections.Counter(reason for _, reason in result.skipped)
    for reason, count in sorted(skipped.items()):
        print(f"tools: {count} tests skipped: {reason}")
    bad = len(result.failures) + len(result.errors)
    print(f"tools: {result.testsRun - len(result.skipped)} tests run, {f'{bad} fail' if bad else 'all pass'}")
    return 1 if bad or not result.wasSuccessful() or result.testsRun == 0 else 0


if __name__ == "__main__":
    sys.exit(main())
