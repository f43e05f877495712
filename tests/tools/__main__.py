"""Runs the tests of the launcher and of the tools: python3 tests/tools [WORD..], the tests whose name has a WORD."""

import sys
import unittest
from pathlib import Path

HERE = Path(__file__).resolve().parent
sys.path[:0] = [str(HERE), str(HERE.parents[1] / "tools")]


def main(words: list[str]) -> int:
    loader = unittest.TestLoader()
    loader.testNamePatterns = [f"*{word}*" for word in words] or None
    result = unittest.TextTestRunner(verbosity=0).run(loader.discover(str(HERE)))
    for reason in sorted({reason for _, reason in result.skipped}):
        print(f"skipped: {reason}")
    failed = len(result.failures) + len(result.errors)
    print(f"tools: {result.testsRun - failed - len(result.skipped)} passed, {failed} failed")
    return 1 if failed else 0


if __name__ == "__main__":
    sys.exit(main(sys.argv[1:]))
