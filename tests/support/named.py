"""The tests of tests/ and the cases of `test_acceptance`, by their names."""
import ast
import re
from typing import Set

from .program import TOP

CASES = TOP / "crates" / "test_acceptance" / "data" / "cases"


def methods() -> Set[str]:
    """The tests, as tests.test_out.Rights.test_rights."""
    found: Set[str] = set()
    for path in (TOP / "tests").glob("test_*.py"):
        for one in ast.parse(path.read_text(encoding="utf-8")).body:
            if isinstance(one, ast.ClassDef):
                names = [it.name for it in one.body if isinstance(it, ast.FunctionDef)]
                found.update(f"tests.{path.stem}.{one.name}.{it}" for it in names if it.startswith("test"))
    return found


def cases() -> Set[str]:
    """The cases, SUBJECT/CASE."""
    texts = {it.name: it.read_text(encoding="utf-8") for it in CASES.iterdir()}
    return {f"{subject}/{name}" for subject, text in texts.items() for name in re.findall("^= (.*)$", text, re.M)}
