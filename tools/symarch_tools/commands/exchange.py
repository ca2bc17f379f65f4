"""`exchange`: exchanges with other sites over a folder."""
import argparse
import os
from typing import Dict, Optional, Sequence, Tuple

from ..console.escapes import shown
from ..console.faults import Failed
from ..console.screen import screen_of
from ..exchange.exchange import Exchange
from ..exchange.identity import Identity, refuse_name
from ..exchange.shared_folder import NAME_OF_SITE, SharedFolder
from ..exchange.signatures import SIGNERS, Keys, Senders
from ..store.archive import Archive
from ..store.losses import lost_lines
from ..store.program import Program
from .arguments import define_archive, size_in

DESCRIPTION = """\
Exchanges with the other sites over FOLDER, a disk that all mount or a folder that is copied. NAME is that of this
site, which no other one has: a-z, 0-9, - and _.

  symarch-keep exchange builds.sym shared east
  symarch-keep exchange builds.sym shared east --key east.key --signers signers

One call joins the answers of the others, asks anew if something changed, answers the others' questions, and removes
old files. ARCHIVE is made if it does not exist; FOLDER is not.

With --key and --signers each file has a signature by `ssh-keygen -Y sign`, and is accepted only if a key of its site
made that. A site that signed once needs keys from then on. Files that are not accepted are named, and the call exits
with 2, as it does while something is lost.

The last line on standard error has counts: `not whole` of files that are not copied to their end yet, `refused` of
those that are not accepted. The other lines, which ARCHIVE.log keeps with their dates:

  added UUID ARCH DIGEST SITE      the slice came from SITE
  retired UUID ARCH DIGEST SITE    the retirement came from SITE
  took FILE                        the mark FILE was put into FOLDER by --take-name
  asked FILE                       a question was put into FOLDER
  answered SITE FILE               an answer was put into FOLDER
  named N SITE                     N names of builds came from SITE
  told FILE                        ARCHIVE.builds was put into FOLDER, as FILE"""
CALL = "symarch-keep exchange [--quiet] [--wait SECONDS] [--json] [--take-name] [--most BYTES] ARCHIVE FOLDER NAME"
USAGE = f"""{CALL}
    {CALL} --key FILE --signers FILE"""
ABOUT = "exchange with other sites over a folder"
MOST = """accept no file of FOLDER with more BYTES, and send no more in all answers together; BYTES may end in k, M, G
or T, powers of 1000"""
KEYS = ("added", "retired", "answered", "not_whole", "refused", "lost")


def define(parser: argparse.ArgumentParser) -> None:
    parser.add_argument("--take-name", action="store_true", help="take NAME, which another site has or had")
    parser.add_argument("--key", metavar="FILE", help="sign with this key, whose private half may be in an agent")
    parser.add_argument("--signers", metavar="FILE", help="accept only files that a key of these sites signed")
    parser.add_argument("--most", metavar="BYTES", help=MOST)
    define_archive(parser, "FOLDER", "NAME")


def met(
    archive: Archive, arguments: argparse.Namespace, keys: Optional[Keys], most: Optional[int]
) -> Tuple[SharedFolder, Identity]:
    """The folder, and who this site is there. Fails if it is another one, or signed before and does not now."""
    kept = archive.folder.beside(SIGNERS)
    if not keys and os.path.lexists(kept):
        raise Failed(f"{shown(kept)} shows that this site signs: name --key and --signers")
    senders = Senders(archive.folder, keys) if keys else None
    folder, identity = SharedFolder(os.fsencode(arguments.folder), arguments.name, senders, most), Identity.of(archive)
    if not arguments.take_name:
        refuse_name(folder, identity)
    return folder, identity


def keys_of(arguments: argparse.Namespace) -> Optional[Keys]:
    if (arguments.key is None) != (arguments.signers is None):
        raise Failed("--key and --signers are named together, or neither", 3)
    return None if arguments.key is None else Keys(os.fsencode(arguments.key), os.fsencode(arguments.signers))


def carry_out(arguments: argparse.Namespace) -> int:
    if not NAME_OF_SITE.fullmatch(arguments.name):
        raise Failed(f"NAME is {shown(os.fsencode(arguments.name))}, and has other letters than a-z, 0-9, - and _", 3)
    most = None if arguments.most is None else size_in(arguments.most)
    screen, keys = screen_of(arguments), keys_of(arguments)
    program = Program()
    archive = Archive(os.fsencode(arguments.archive), is_made=True)
    # Where the folder or the name is wrong nothing is made. Another call may have changed both since.
    met(archive, arguments, keys, most)
    archive.take_lock(screen, arguments.wait)
    folder, identity = met(archive, arguments, keys, most)
    with archive.folder.room() as room:
        if folder.senders:
            folder.senders.begin(room, arguments.name)
        exchange = Exchange(archive, folder, program, screen, room)
        exchange.carry_out(identity, arguments.take_name)
    logged = [line for line in exchange.lines if line.startswith(("took ", "asked ", "answered ", "named ", "told "))]
    archive.folder.log.note(logged, screen)
    screen.show(exchange.lines)
    exchange.say_what_is_lost()
    refused, counts = screen.refused + folder.named_before, counts_of(exchange.lines)
    told = ", ".join(f"{number} {kind}" for kind, number in counts.items())
    screen.line(f"{told}; {folder.not_whole} not whole, {refused} refused")
    others = {"not_whole": folder.not_whole, "refused": refused, "lost": len(lost_lines(archive.lost.content))}
    return screen.end(0, {**counts, **others})


def counts_of(lines: Sequence[str]) -> Dict[str, int]:
    """How many slices and retirements came, and how many answers went."""
    return {kind: sum(line.startswith(f"{kind} ") for line in lines) for kind in KEYS[:3]}
