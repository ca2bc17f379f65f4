"""The slices of examples/crash, a small program in two builds, and the words by which they are asked."""
from typing import List

from .made_images import slices_in
from .program import TOP

CRASH = TOP / "examples" / "crash"


def slices_of(name: str) -> List[bytes]:
    """The slices of a file of examples/crash."""
    return slices_in((CRASH / name).read_bytes())


# The first build as it is shipped, its dSYM, and what was linked for arm64 before it was stripped.
SHIPPED_X86_64, SHIPPED_ARM64 = slices_of("spool-1")
DSYM_X86_64, DSYM_ARM64 = slices_of("spool-1.dSYM")
(LINKED_ARM64,) = slices_of("spool-1.arm64")
# The second build: what was linked for x86_64, what is shipped, and its dSYM.
(SECOND_LINKED_X86_64,) = slices_of("spool-2.x86_64")
SECOND_SHIPPED_X86_64, SECOND_SHIPPED_ARM64 = slices_of("spool-2")
SECOND_DSYM_X86_64, SECOND_DSYM_ARM64 = slices_of("spool-2.dSYM")
# What the sites of the tests have.
SHIPPED = [SHIPPED_X86_64, SHIPPED_ARM64, DSYM_X86_64, DSYM_ARM64]
LINKED = [LINKED_ARM64, SECOND_LINKED_X86_64, SECOND_DSYM_X86_64, SECOND_DSYM_ARM64]

# UUID and ARCH of the slices of the first build, and of one of the second.
ARM64 = "4c4c4419-5555-3144-a1d2-4341c97782f0 arm64"
X86_64 = "4c4c44c0-5555-3144-a19f-a433d7651718 x86_64"
SECOND_X86_64 = "4c4c4492-5555-3144-a19f-dc793c8d1050 x86_64"
# The addresses of arm64.crash and of x86_64.crash, with the option that says where the image was loaded.
ARM64_CRASH = "--load 0x104d38000 0x104d38410 0x104d383f8 0x104d38484 0x104d38468"
X86_64_CRASH = "--load 0x10a5c4000 0x10a5c4410 0x10a5c43ed 0x10a5c4489 0x10a5c445a"
# The names of arm64.crash, which `llvm-nm` gives.
ARM64_NAMES = """
    0x0000000104d38410 _copy_body + 12 (__TEXT,__text)
    0x0000000104d383f8 _file_message + 32 (__TEXT,__text)
    0x0000000104d38484 _spool_one + 24 (__TEXT,__text)
    0x0000000104d38468 _start + 48 (__TEXT,__text)
    """
