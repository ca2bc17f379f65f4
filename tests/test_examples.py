"""The output of the scripts of examples."""
import textwrap

from .support import crash
from .support.cases import TOP, ProgramCase
from .support.made_images import slice_text
from .support.program import call, symarch

# What the program names by `llvm-nm` and llvm-symbolizer, in the place of what stands there.
NAMES = {
    "0x104d38000 + 1040": "copy_body + 12 (spool.c:9)",
    "0x104d38000 + 1016": "file_message + 32 (spool.c:21)",
    "0x104d38000 + 1156": "spool_one + 24 (spool.c:26)",
    "0x104d38000 + 1128": "start + 48 (spool.c:31)",
}


class Examples(ProgramCase):
    """A script runs from any folder, and leaves nothing."""

    def run_script(self, name: str) -> str:
        """What a script prints. Its temporary folder is one of this case, and it leaves nothing there."""
        (self.folder / "temporary").mkdir()
        environment = {"SYMARCH": symarch, "TMPDIR": str(self.folder / "temporary")}
        came = call([TOP / "examples" / name], cwd=self.folder, environment=environment)
        self.assertEqual(came.status, 0, came.errors.decode())
        self.assertEqual(list((self.folder / "temporary").iterdir()), [])
        return came.out.decode()

    def test_a_crash(self) -> None:
        wanted = (crash.CRASH / "arm64.crash").read_text(encoding="utf-8")
        for there, name in NAMES.items():
            wanted = wanted.replace(there, name)
        self.assertEqual(self.run_script("crash/name-it"), wanted)

    def test_an_exchange(self) -> None:
        printed = self.run_script("exchange")
        lines = [it for it in printed.splitlines() if it and not it.startswith("# ")]
        wanted = f"""\
            $ symarch new empty.sym
            archive: 0 records, 17 bytes
            $ symarch admit empty.sym east/0.sym crash/spool-1 crash/spool-1.dSYM
            file 0 slice 0 added {slice_text(crash.SHIPPED_X86_64)}
            file 0 slice 1 added {slice_text(crash.SHIPPED_ARM64)}
            file 1 slice 0 added {slice_text(crash.DSYM_X86_64)}
            file 1 slice 1 added {slice_text(crash.DSYM_ARM64)}
            archive: 4 records, 43857 bytes
            $ symarch admit empty.sym west/0.sym crash/spool-1 crash/spool-2 crash/spool-2.dSYM
            file 0 slice 0 added {slice_text(crash.SHIPPED_X86_64)}
            file 0 slice 1 added {slice_text(crash.SHIPPED_ARM64)}
            file 1 slice 0 added {slice_text(crash.SECOND_SHIPPED_X86_64)}
            file 1 slice 1 added {slice_text(crash.SECOND_SHIPPED_ARM64)}
            file 2 slice 0 added {slice_text(crash.SECOND_DSYM_X86_64)}
            file 2 slice 1 added {slice_text(crash.SECOND_DSYM_ARM64)}
            archive: 6 records, 65514 bytes
            $ symarch summary east/0.sym shared/east.sum
            summary: 4 entries, 245 bytes
            $ symarch delta west/0.sym shared/east.sum shared/for-east.sym
            archive: 4 records, 44144 bytes
            $ symarch summary west/0.sym shared/west.sum
            summary: 6 entries, 359 bytes
            $ symarch merge east/0.sym east/1.sym shared/for-east.sym
            archive: 8 records, 87984 bytes
            $ symarch delta east/0.sym shared/west.sum shared/for-west.sym
            archive: 2 records, 22487 bytes
            $ symarch merge west/0.sym west/1.sym shared/for-west.sym
            archive: 8 records, 87984 bytes
            $ cmp east/1.sym west/1.sym
            $ symarch retire west/1.sym west/2.sym {slice_text(crash.DSYM_ARM64)}
            retired {slice_text(crash.DSYM_ARM64)}
            archive: 8 records, 76938 bytes
            $ symarch delta west/2.sym shared/east.sum shared/for-east-again.sym
            archive: 5 records, 44201 bytes
            $ symarch merge east/1.sym east/2.sym shared/for-east-again.sym
            archive: 8 records, 76938 bytes
            $ cmp east/2.sym west/2.sym
            $ symarch merge east/2.sym east/3.sym shared/for-east.sym shared/for-east-again.sym
            archive: 8 records, 76938 bytes
            $ cmp east/2.sym east/3.sym
            $ symarch summary east/3.sym shared/east-again.sum
            summary: 8 entries, 473 bytes
            $ symarch delta west/2.sym shared/east-again.sum shared/nothing.sym
            archive: 0 records, 17 bytes
            $ cmp shared/nothing.sym empty.sym
            """
        self.assertEqual(lines, textwrap.dedent(wanted).splitlines())
