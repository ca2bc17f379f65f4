"""The cases of `test_acceptance`, compared with a model of archives and commands, tests/model, which shares nothing with the
program: a test for each subject. `tests/check-cases SUBJECT/CASE` tries one case."""
import unittest
from typing import Callable

from .model import checking


class Cases(unittest.TestCase):
    """What stands in a subject is what the model computes."""

    is_side_by_side = True


def of_subject(subject: str) -> Callable[[Cases], None]:
    def test(self: Cases) -> None:
        differences = checking.check(subject).differences
        self.assertEqual(differences, [], "".join(f"\n{it}" for it in differences))

    return test


for name in checking.subjects():
    setattr(Cases, f"test_{name.replace('-', '_')}", of_subject(name))
