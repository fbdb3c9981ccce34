"""Which program graphq is measured."""
import os
import subprocess

TOP = os.path.dirname(os.path.dirname(os.path.dirname(__file__)))


def graphq_of(path: str | None, command: str) -> str:
    """The one given, else the one built here where it is newer than its sources, else the released one."""
    built, released = os.path.join(TOP, "crates/graphq/out/graphq"), os.path.join(TOP, "release/graphq")
    if path is None:
        newer = subprocess.run([os.path.join(TOP, "release/make"), "--newer"], check=False).returncode == 0
        path = built if newer else released
    if not os.path.isfile(path) or not os.access(path, os.X_OK):
        raise SystemExit(f"{command}: no program {path}")
    return os.path.abspath(path)
