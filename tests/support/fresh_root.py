"""A root of a system of Debian's essential packages and of Python, and of nothing else that this machine has."""
import os
import re
import shutil
import subprocess
from typing import Dict, Iterable, List, Sequence, Set

FIELDS = "${Package}\\t${Essential}\\t${Depends}, ${Pre-Depends}\\t${Provides}\\n"
LINKED = ("bin", "sbin", "lib", "lib32", "lib64", "libx32")
# What no program of these packages needs.
LEFT_OUT = re.compile("/usr/share/(doc|locale|man|info|zoneinfo|i18n)/")
PATH = "/usr/sbin:/usr/bin:/sbin:/bin"
FOLDERS = ("proc", "dev", "root", "tmp", "etc", *(f"var/lib/dpkg/{it}" for it in ("info", "updates", "triggers")))
USERS = {"passwd": "root:x:0:0:root:/root:/bin/sh\n", "group": "root:x:0:\n"}
# What the root takes over of this machine while a command runs in it.
ENTER = """
for folder in proc dev; do mount --rbind "/$folder" "$1/$folder" || exit 125; done
PATH=$PATH:/usr/sbin:/sbin
exec chroot "$1" /usr/bin/env -i "HOME=/root" "PATH=$2" sh -euc 'cd; . "./$0"' "$3"
"""


class NotGranted(Exception):
    """What keeps a root from being made or entered here."""


def said(words: Sequence[str]) -> str:
    return subprocess.run(words, stdout=subprocess.PIPE, check=True).stdout.decode()


def names_in(text: str) -> List[List[str]]:
    """For each dependency the packages of which one is enough."""
    wanted = filter(None, (it.strip() for it in text.split(",")))
    return [[re.split(r"[ :(]", it.strip())[0] for it in one.split("|")] for one in wanted]


def chosen(names: Sequence[str], depends: Dict[str, List[List[str]]], provided: Dict[str, str]) -> str:
    """The first of these packages that is there, by its own name or as what another one provides."""
    return next((it if it in depends else provided[it] for it in names if it in depends or it in provided), "")


def closure(more: Sequence[str]) -> List[str]:
    """The essential packages, Python's and these, with all that they depend on."""
    rows = [it.split("\t") for it in said(["dpkg-query", "-W", "-f", FIELDS]).splitlines()]
    depends = {name: names_in(text) for name, _, text, _ in rows}
    provided = {one[0]: name for name, _, _, text in rows for one in names_in(text)}
    left = [name for name, essential, _, _ in rows if essential == "yes"] + ["python3", *more]
    found: Set[str] = set()
    while left:
        name = left.pop()
        if name in depends and name not in found:
            found.add(name)
            left += [chosen(one, depends, provided) for one in depends[name]]
    lacking = {"python3", "dpkg", *more} - found
    if lacking:
        raise NotGranted(f"these packages of Debian are not there: {' '.join(sorted(lacking))}")
    return sorted(found)


def files_of(packages: Iterable[str]) -> List[str]:
    """The paths of what the packages have, by the folders in which they are."""
    found = {f"/{it}" for it in LINKED if os.path.islink(f"/{it}")}
    for path in said(["dpkg-query", "-L", *packages]).splitlines():
        if path.startswith("/") and os.path.lexists(path) and not LEFT_OUT.match(path):
            folder, name = os.path.split(path)
            found.add(os.path.join(os.path.realpath(folder), name))
    return sorted(it for it in found if os.path.islink(it) or os.path.isfile(it) or os.path.isdir(it))


def make(root: str, *more: str) -> None:
    """Makes the root, which has more packages. Its packages are those that dpkg is told of."""
    if not shutil.which("dpkg-query"):
        raise NotGranted("this is no system of Debian")
    packages = closure(more)
    listed = "\0".join(it.lstrip("/") for it in files_of(packages)).encode()
    words = ["tar", "-C", "/", "--no-recursion", "--null", "--ignore-failed-read", "-cf", "-", "-T", "-"]
    # What may not be read is of no use to the root's own commands.
    nothing = subprocess.DEVNULL
    packed = subprocess.run(words, input=listed, check=True, stdout=subprocess.PIPE, stderr=nothing).stdout
    subprocess.run(["tar", "-C", root, "--no-same-owner", "-xf", "-"], input=packed, check=True)
    for folder in FOLDERS:
        os.makedirs(f"{root}/{folder}", exist_ok=True)
    with open(f"{root}/var/lib/dpkg/status", "w", encoding="utf-8") as file:
        file.write(said(["dpkg-query", "-s", *packages]))
    for name in packages:
        open(f"{root}/var/lib/dpkg/info/{name}.list", "w", encoding="utf-8").close()
    for name, text in USERS.items():
        with open(f"{root}/etc/{name}", "w", encoding="utf-8") as file:
            file.write(text)
    if run(root, "ldconfig").returncode:
        raise NotGranted("the rights to mount and to change the root are not granted")


def run(root: str, script: str) -> "subprocess.CompletedProcess[str]":
    """Runs the lines of a script in the root, as its own superuser, in the home of that one."""
    with open(f"{root}/root/.script", "w", encoding="utf-8") as file:
        file.write(script + "\n")
    alone = ["unshare", "--mount"] if os.geteuid() == 0 else ["unshare", "--mount", "--map-root-user"]
    words = [*alone, "sh", "-c", ENTER, "sh", root, PATH, ".script"]
    nothing = subprocess.DEVNULL
    try:
        return subprocess.run(words, errors="replace", text=True, check=False, capture_output=True, stdin=nothing)
    except FileNotFoundError:
        raise NotGranted("there is no command unshare") from None
