"""mypy and pyflakes find nothing in the Python, by pyproject.toml, and no line has more than 120 columns."""
import pathlib
import re
import shutil
import sys
import unittest
from typing import List

from .support.program import TOP, call

FOLDERS = ("bench", "docs", "packaging", "tests", "tools")
# Begins scripts one after another, and measures nothing.
BEGIN = "import runpy, sys; [runpy.run_path(path, run_name='begun') for path in sys.argv[1:]]"


def is_python(path: pathlib.Path) -> bool:
    """Whether a file is a module or a script of Python."""
    if path.suffix == ".py":
        return True
    with path.open("rb") as file:
        return path.suffix == "" and b"python3" in file.readline()


def sources() -> List[pathlib.Path]:
    """All modules and scripts."""
    found = [path for folder in FOLDERS for path in sorted((TOP / folder).rglob("*")) if path.is_file()]
    return [path for path in found if "out" not in path.relative_to(TOP).parts and is_python(path)]


class Lint(unittest.TestCase):
    """What they say."""

    is_side_by_side = True
    seconds = 15

    def says_nothing(self, command: str, *words: str) -> None:
        if shutil.which(command) is None:
            self.skipTest(f"there is no {command}")
        came = call([command, *words], cwd=TOP)
        self.assertEqual(came.status, 0, (came.out + came.errors).decode())

    def test_mypy(self) -> None:
        scripts = [str(it.relative_to(TOP)) for it in sources() if it.suffix == "" and it.parent != TOP / "bench"]
        words = ["--scripts-are-modules", "--cache-dir=/dev/null"]
        self.says_nothing("mypy", *words, "tools/symarch_tools", "tools/symarch_server", "tests", *scripts)

    def test_pyflakes(self) -> None:
        self.says_nothing("pyflakes3", *map(str, sources()))

    def test_benchmarks_begin(self) -> None:
        """No script of bench/ asks a module for a name that is gone."""
        scripts = [path for path in sources() if path.parent == TOP / "bench" and path.suffix == ""]
        came = call([sys.executable, "-B", "-c", BEGIN, *scripts], environment={"PYTHONPATH": str(TOP / "bench")})
        self.assertEqual(came.status, 0, came.errors.decode())

    def test_version(self) -> None:
        """The version of pyproject.toml is that of the last release in CHANGELOG.md, or before the next one."""
        changes = (TOP / "CHANGELOG.md").read_text(encoding="utf-8")
        found = re.search(r"^### ([0-9.]+), (not released|[0-9-]+)$", changes, re.M)
        said = re.search(r'^version = "(.*)"$', (TOP / "pyproject.toml").read_text(encoding="utf-8"), re.M)
        assert found is not None and said is not None
        self.assertEqual(said[1], f"{found[1]}.dev0" if found[2] == "not released" else found[1])

    def test_columns(self) -> None:
        wide = [
            f"{path.relative_to(TOP)}:{number}"
            for path in sources()
            for number, line in enumerate(path.read_text(encoding="utf-8").splitlines(), 1)
            if len(line) > 120
        ]
        self.assertEqual(wide, [])
