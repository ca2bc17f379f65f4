"""What needs the modules of Python for zip and tar files. They are imported once such a file is read, since that takes
longer than most calls of a tool."""
import struct
import tarfile
import zipfile
import zlib

BLOCK = 512
# How many bytes the headers of a tar file may have that have long names.
MOST_OF_NAMES = 1 << 20
NAMES = (tarfile.GNUTYPE_LONGNAME, tarfile.GNUTYPE_LONGLINK, tarfile.XHDTYPE, tarfile.XGLTYPE, tarfile.SOLARIS_XHDTYPE)
# What the modules raise of a file that is damaged.
FAULTS = (
    zipfile.BadZipFile, tarfile.TarError, zlib.error, struct.error, EOFError, NotImplementedError, RuntimeError,
    ValueError, OverflowError, LookupError,
)  # fmt: skip


class TarHeader(tarfile.TarInfo):
    """A header of a tar file. What stands before a member has to fit in memory, so sparse ones, whose maps may have any
    length, are refused. A header that is damaged is not the end of the file."""

    @classmethod
    def frombuf(cls, buf: bytes, encoding: str, errors: str) -> "TarHeader":
        try:
            found = super().frombuf(buf, encoding, errors)
        except tarfile.HeaderError:
            if len(buf) in (0, BLOCK) and not any(buf):
                raise
            raise tarfile.ReadError("a damaged header") from None
        if found.type in NAMES and found.size > MOST_OF_NAMES or found.type == tarfile.GNUTYPE_SPARSE:
            raise tarfile.ReadError("a long name or map")
        return found

    def _proc_gnusparse_10(self, *_: object) -> None:
        """What the module calls to read a map that stands in the bytes of a member."""
        raise tarfile.ReadError("a map")
