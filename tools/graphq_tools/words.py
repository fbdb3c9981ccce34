"""The parser of a tool's command line, which shows its examples as they are written."""

from __future__ import annotations

import argparse


def words_of(program: str, about: str, examples: str) -> argparse.ArgumentParser:
    """A parser without options yet: what the program is called, what it does, and what stands below its options."""
    return argparse.ArgumentParser(
        prog=program, description=about, epilog=examples, formatter_class=argparse.RawDescriptionHelpFormatter
    )
