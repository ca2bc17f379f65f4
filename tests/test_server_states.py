"""symarch-server while its archive changes, with many and slow clients, at its limits, and at its end."""
import contextlib
import os
import random
import select
import signal
import socket
import subprocess
import sys
import threading
from concurrent.futures import ThreadPoolExecutor
from typing import Any, Callable, Iterator, List, Sequence, Tuple

from .support.cases import powerless_over, same
from .support.made_images import image, slice_words
from .support.program import MOST_SECONDS, TOP, call
from .support.rooms import Gate, change, levelled
from .support.servers import CRASH, FIRST, LIFTED, Server, ServerCase, lifted, python, with_numbers
from .support.sites import Site
from .support.waits import is_running, wait_until

REPORT = (CRASH / "arm64.crash").read_bytes()
HEX = FIRST.replace("-", "")


class Changing(ServerCase):
    """Each answer is of one state, whatever words of symarch-keep do meanwhile."""

    seconds = 30

    @contextlib.contextmanager
    def asking(self, server: Server, *asked: Callable[[], None]) -> Iterator[List[str]]:
        """Asks again and again in other threads; what was wrong is in the list at its end."""
        wrong: List[str] = []
        is_over = threading.Event()

        def ask(one: Callable[[], None]) -> None:
            while not is_over.is_set():
                try:
                    one()
                except Exception as fault:
                    wrong.append(str(fault)[:500])
                    return

        threads = [threading.Thread(target=ask, args=(one,)) for one in asked]
        for thread in threads:
            thread.start()
        try:
            yield wrong
        finally:
            is_over.set()
            for thread in threads:
                thread.join()

    def test_folds_and_additions(self) -> None:
        """Reports, slices and builds have all that was there, at each moment."""
        self.room.tool = levelled(self.folder)
        server = self.serve()
        wanted = server.ask("/reports", REPORT).body
        dsym = server.ask(f"/buildid/{HEX}/debuginfo").body

        def report() -> None:
            came = server.ask("/reports", REPORT)
            same("report", (came.status, came.body), (200, wanted))

        def slices() -> None:
            came = server.ask(f"/buildid/{HEX}/debuginfo")
            same("slice", (came.status, came.body), (200, dsym))

        with self.asking(server, report, slices) as wrong:
            for number in range(6):
                self.room.file(f"more/{number}", image(50 + number, more=bytes(20_000 * (1 + number % 3))))
                self.room.add("more")
                self.room.call("fold", *(["--all"] if number % 3 == 2 else []), self.room.archive)
        same("what was wrong", wrong, [])
        for number in range(6):
            made = image(50 + number, more=bytes(20_000 * (1 + number % 3)))
            found = server.ask(f"/buildid/{slice_words(made)[0].replace('-', '')}/executable")
            same(f"image {number}", found.body, made)

    def test_a_repair(self) -> None:
        """Bytes that changed are sent to nobody, while they are mended either; then they are as they were."""
        self.room.call("add", "good.sym", "1", "2")
        server = self.serve()
        path = f"/buildid/{HEX}/debuginfo"
        dsym, wanted = server.ask(path).body, server.ask("/reports", REPORT).body
        for file in (it for it in self.folder.glob("site.sym*") if dsym in it.read_bytes()):
            change(file, file.read_bytes().index(dsym) + len(dsym) - 1)

        def slices() -> None:
            came = server.ask(path)
            self.assertIn(came.status, (200, 503))
            if came.status == 200:
                same("slice", came.body, dsym)

        def report() -> None:
            same("status", server.ask("/reports", REPORT).status, 200)

        same("changed", server.ask(path).status, 503)
        with self.asking(server, slices, report) as wrong:
            self.room.call("repair", self.room.archive, "good.sym")
        same("what was wrong", wrong, [])
        same("then", (server.ask(path).body, server.ask("/reports", REPORT).body), (dsym, wanted))

    def test_no_lock_is_kept(self) -> None:
        """A word that writes does not wait for what was asked before."""
        server = self.serve()
        for path in ("/status", "/metrics", "/builds", "/symbols/_copy_body", f"/builds/{FIRST}/dsym"):
            same(path, server.ask(path).status, 200)
        self.room.file("more/one", image(50))
        said = self.room.add("more")[1]
        same("said", [line for line in said if "waiting" in line], [])
        self.room.call("fold", "--all", self.room.archive)

    def test_a_month_of_two_sites(self) -> None:
        """East is asked while it adds, retires, exchanges and folds each night, and checks and folds all each week; in
        the end both have the same, and so it says."""
        dice = random.Random(96)
        self.room.tool = levelled(self.folder)
        east, west = Site(self.room, "east"), Site(self.room, "west")
        self.room.call("add", east.archive, "1", "2")
        server = self.serve(archive=east.archive)
        dsym, path = server.ask(f"/buildid/{HEX}/debuginfo").body, f"/buildid/{HEX}/debuginfo"

        def report() -> None:
            came = server.ask("/reports", REPORT)
            same("report", (came.status, b"copy_body + 12 (spool.c:9)" in came.body), (200, True))

        def others() -> None:
            same("slice", server.ask(path).body, dsym)
            same("page", server.ask("/", headers={"Accept": "text/html"}).status, 200)
            builds = server.ask("/builds", headers={"Accept": "application/json"}).json()
            same("builds", (builds[-1]["type"], builds[-1]["status"]), ("end", 0))
            same("status", server.ask("/status").text.count("companions 4"), 1)

        retired: List[bytes] = []
        made: List[bytes] = []
        with self.asking(server, report, others) as wrong:
            for day in range(30):
                self.live_a_day(day, dice, (east, west), made, retired)
        same("what was wrong", wrong, [])
        for _ in range(2):
            east.exchange()
            west.exchange()
        for one in made:
            path = f"/buildid/{slice_words(one)[0].replace('-', '')}/executable"
            same(path, server.ask(path).status, 404 if one in retired else 200)
        same("status", server.ask("/status").lines, self.room.call("status", east.archive)[0])
        same("both", east.has(), west.has())

    def live_a_day(
        self, day: int, dice: random.Random, sites: Sequence[Site], made: List[bytes], retired: List[bytes]
    ) -> None:
        """A day of two sites: one adds and may retire, both exchange, and the first one folds at night."""
        site = dice.choice(sites)
        made.append(image(200 + day, more=bytes([day]) * dice.randrange(20_000)))
        site.add(made[-1])
        if day % 4 == 3:
            retired.append(made[dice.randrange(len(made))])
            site.retire(retired[-1])
        for one in sites:
            one.exchange()
        self.room.call("fold", *(["--all", "--purge"] if day % 7 == 6 else []), sites[0].archive)
        if day % 7 == 6:
            self.room.call("check", sites[0].archive)


def slow_connection(server: Server) -> socket.socket:
    """A connection whose client takes little before it reads."""
    made = socket.socket()
    made.setsockopt(socket.SOL_SOCKET, socket.SO_RCVBUF, 4096)
    made.connect(("127.0.0.1", server.port))
    return made


class LargeCase(ServerCase):
    """Cases over an image that no buffer of a connection has room for."""

    def begin_with_a_large_one(self, **how: Any) -> Tuple[Server, bytes, str]:
        """A server, the image, and the path that it is asked by."""
        large = image(70, more=bytes(6_000_000))
        self.room.file("large", large)
        self.room.add("large")
        return self.serve(**how), large, f"/buildid/{slice_words(large)[0].replace('-', '')}/executable"


class Clients(LargeCase):
    """Many clients, and slow ones."""

    def test_two_hundred_at_once(self) -> None:
        patient = f"init = pool.Pool.__init__; init.__defaults__ = ({2 * MOST_SECONDS}, *init.__defaults__[1:])"
        server = self.serve(before=with_numbers(patient))
        wanted = server.ask("/reports", REPORT).body
        with ThreadPoolExecutor(200) as threads:
            came = list(threads.map(lambda _: server.ask("/reports", REPORT), range(200)))
        same("failed", sum((one.status, one.body) != (200, wanted) for one in came), 0)

    def test_a_hundred_slow_ones(self) -> None:
        """They have sent half a head, half a body, or read nothing of an answer; others are answered."""
        server, large, path = self.begin_with_a_large_one()
        host = f"Host: 127.0.0.1:{server.port}\r\n"
        begun = (
            f"GET / HTTP/1.1\r\n{host}X: ",
            f"POST /reports HTTP/1.1\r\n{host}Content-Length: 100000\r\n\r\nhalf",
            f"GET {path} HTTP/1.1\r\n{host}\r\n",
        )
        with contextlib.ExitStack() as ends:
            for number in range(105):
                connection = ends.enter_context(slow_connection(server))
                connection.sendall(begun[number % 3].encode())
            for _ in range(3):
                same("report", server.ask("/reports", REPORT).status, 200)
                same("slice", server.ask(path).body, large)

    def test_requests_that_are_none(self) -> None:
        server = self.serve()
        for sent in (
            b"\x16\x03\x01\x02\x00\x01\x00\x01\xfc\x03\x03",
            b"GET\r\n\r\n",
            b"GET / HTTP/1.1\r\n\r\n",
            b"GET http://evil/ HTTP/1.1\r\nHost: evil\r\n\r\n",
            b"POST /reports HTTP/1.1\r\nHost: 127.0.0.1\r\nContent-Length: -1\r\n\r\n",
            b"POST /reports HTTP/1.1\r\nHost: 127.0.0.1\r\nContent-Length: 3\r\nTransfer-Encoding: chunked\r\n\r\nabc",
            b"POST /reports HTTP/1.1\r\nHost: 127.0.0.1\r\nTransfer-Encoding: chunked\r\n\r\nzz\r\n",
            b"GET /" + b"a" * 40_000 + b" HTTP/1.1\r\nHost: 127.0.0.1\r\n\r\n",
            b"GET / HTTP/1.1\r\nHost: 127.0.0.1\r\nX: " + b"a" * 40_000 + b"\r\n\r\n",
        ):
            with socket.create_connection(("127.0.0.1", server.port), timeout=MOST_SECONDS) as connection:
                # It may have answered and gone before all is sent.
                with contextlib.suppress(OSError):
                    connection.sendall(sent)
                    connection.shutdown(socket.SHUT_WR)
                    said = connection.recv(1000)
                    self.assertNotIn(b" 200 ", said, sent[:60])
        same("status", server.ask("/status").status, 200)


class Busy(ServerCase):
    """Searches that take long keep nobody else out."""

    # Of searches so many are worked on and wait at once.
    MOST = 6

    def test_searches(self) -> None:
        gate = Gate(self.room, "name", LIFTED)
        server = self.serve("--workers", "2", environment=gate.environment)
        with ThreadPoolExecutor(40) as threads:
            came = [threads.submit(server.ask, f"/symbols/_none{number}") for number in range(40)]
            wait_until(lambda: sum(one.done() for one in came) == len(came) - self.MOST, server.process)
            same("another one", server.ask("/reports", REPORT).status, 200)
            gate.open()
            statuses = sorted(one.result().status for one in came)
        same("statuses", statuses, [404] * self.MOST + [503] * (len(came) - self.MOST))


class Limits(ServerCase):
    """Each answer has so much memory and so many seconds; the server goes on."""

    def test_seconds(self) -> None:
        slow = self.room.program('[ "$1" = frames ] && exec sleep 6000\nulimit -S -v unlimited\nexec $symarch "$@"')
        server = self.serve("--seconds", "6", environment=slow)
        came = server.ask("/reports", REPORT)
        self.refuses(came, 503, "the work took more than 6 seconds, and was ended")
        server.goes_on()

    def test_what_never_ends(self) -> None:
        """A program that works without end is ended with its worker."""
        # Nor does its limit of processor time end it.
        spun = 'if [ "$1" = frames ]; then trap "" XCPU; echo $$ >spun.pid; while :; do :; done; fi'
        slow = self.room.program(f'cd {self.folder}\n{spun}\nulimit -S -v unlimited\nexec $symarch "$@"')
        server = self.serve("--seconds", "6", environment=slow)
        path = self.folder / "spun.pid"
        while not path.exists():
            same("status", server.ask("/reports", REPORT).status, 503)
        wait_until(lambda: not is_running(int(path.read_text())))

    def test_memory(self) -> None:
        """A report that needs more than a worker may have is refused; others are named."""
        lines = b"".join(b"%-4dspool   0x%016x 0x104d38000 + 1040\n" % (at % 500, 0x104D38410) for at in range(400_000))
        begin, _, rest = REPORT.partition(b"0   spool")
        report = begin + lines + rest[rest.index(b"\n\nBinary") :]
        server = self.serve("--memory", "64M")
        came = server.ask("/reports", report)
        same(came.text[:200], came.status, 503)
        self.assertIn("memory", came.text)
        same("another one", server.ask("/reports", REPORT).status, 200)

    def test_a_worker_that_is_killed(self) -> None:
        """The next request has another one."""
        server = self.serve("--workers", "1")
        same("before", server.ask("/reports", REPORT).status, 200)
        said = subprocess.run(["ps", "-o", "pid=", "--ppid", str(server.process.pid)], capture_output=True, check=True)
        for number in map(int, said.stdout.split()):
            os.kill(number, signal.SIGKILL)
            wait_until(lambda: not is_running(number))
        same("then", [server.ask("/reports", REPORT).status for _ in range(2)], [200, 200])


class Ending(LargeCase):
    """SIGTERM ends it after the answers that are under way."""

    def test_an_answer_that_is_under_way(self) -> None:
        gate = Gate(self.room, "frames", LIFTED)
        server = self.serve(environment=gate.environment)
        with ThreadPoolExecutor(1) as threads:
            came = threads.submit(server.ask, "/reports", REPORT)
            gate.wait(server.process)
            server.process.send_signal(signal.SIGTERM)
            wait_until(lambda: not server.is_reached(), server.process)
            gate.open()
            same("answer", came.result().status, 200)
            same("status of the server", server.end(), 0)

    def test_a_large_answer_that_is_under_way(self) -> None:
        server, large, path = self.begin_with_a_large_one()
        with slow_connection(server) as connection:
            connection.sendall(f"GET {path} HTTP/1.0\r\nHost: 127.0.0.1\r\n\r\n".encode())
            wait_until(lambda: select.select([connection], [], [], 0)[0], server.process)
            server.process.send_signal(signal.SIGTERM)
            wait_until(lambda: not server.is_reached(), server.process)
            data = b"".join(iter(lambda: connection.recv(1 << 20), b""))
        same("bytes", data.partition(b"\r\n\r\n")[2], large)

    def test_an_idle_one(self) -> None:
        for number in (signal.SIGTERM, signal.SIGINT):
            server = self.serve()
            same("status of the server", server.end(number), 0)


class Words(ServerCase):
    """The words of a call."""

    def came(self, *words: str) -> Tuple[int, str]:
        tool = TOP / "tools" / "symarch-server"
        came = call([python(), "-BI", tool, *words], cwd=self.folder, environment={"SYMARCH": lifted(self.folder)})
        self.assertNotIn(b"Traceback", came.errors)
        return came.status, came.error_lines[-1] if came.errors else ""

    def test_what_is_refused(self) -> None:
        archive = str(self.room.archive)
        for words, status, said in (
            ((), 3, "symarch-server: the following arguments are required: ARCHIVE"),
            (("--listen", "x", archive), 3, "symarch-server: --listen is `x`: expected ADDRESS:PORT, as 127.0.0.1:8080 "
             "or [::1]:8080"),
            (("--listen", "0.0.0.0:0", archive), 3, "symarch-server: 0.0.0.0 is every address: --host NAME names the "
             "server"),
            (("--workers", "0", archive), 3, "symarch-server: --workers is 0: expected 1 to 256"),
            (("--origin", "x", archive), 3, "symarch-server: --origin is `x`: expected one as "
             "https://profiler.firefox.com"),
            (("--most", "x", archive), 3, "symarch-server: BYTES is `x`: expected a number of bytes, which may end in "
             "k, M, G or T"),
            (("none.sym",), 2, f"symarch-server: {self.folder}/none.sym: No such file or directory"),
            ((str(CRASH / "spool.c"),), 2, f"symarch-server: {CRASH}/spool.c is no archive"),
            (("--readers", "none", archive), 2, f"symarch-server: {self.folder}/none: No such file or directory"),
            (("--uploads", str(CRASH / "spool.c"), archive), 2, f"symarch-server: {CRASH}/spool.c: line 1 is not NAME "
             "SHA256-OF-TOKEN"),
        ):
            same(" ".join(words), self.came(*words), (status, said))

    def test_an_address_that_is_taken(self) -> None:
        server = self.serve()
        address = f"127.0.0.1:{server.port}"
        same("status", self.came("--listen", address, str(self.room.archive)),
             (2, f"symarch-server: {address}: Address already in use"))

    def test_without_libraries(self) -> None:
        """What is missing is said in a line."""
        tool = TOP / "tools" / "symarch-server"
        came = call([sys.executable, "-BIS", tool, self.room.archive], environment={"SYMARCH": lifted(self.folder)})
        same("said", (came.status, came.error_lines), (126, [
            "symarch-server: there is no flask and no waitress: apt-get install python3-flask python3-waitress"]))

    def test_who_can_read_is_said(self) -> None:
        """Of an address that others reach, unless they need a token."""
        lines = (
            "import sys; sys.path.insert(0, sys.argv[1]); from symarch_server.settings import settings_of",
            "print(settings_of(['--listen', '10.0.0.5:80', 'a']).is_open(), settings_of(['a']).is_open())",
            "print(settings_of(['--listen', '[::1]:80', 'a']).hosts, settings_of(['--host', 'B', 'a']).hosts)",
            "print(settings_of(['--listen', '10.0.0.5:80', '--readers', 'r', 'a']).is_open())",
        )
        came = call([sys.executable, "-BI", "-c", "\n".join(lines), str(TOP / "tools")])
        same(came.errors.decode(), came.lines, ["True False", "('[::1]', 'localhost') ('b',)", "False"])

    def test_another_server(self) -> None:
        """The application is one of WSGI."""
        lines = (
            "import os, sys; sys.path.insert(0, sys.argv[1]); from symarch_server.wsgi import app",
            "came = app.test_client().get('/status', headers={'Host': '127.0.0.1'})",
            "print(came.status_code, came.text.splitlines()[0])",
        )
        words = {"SYMARCH_SERVER": str(self.room.archive), "SYMARCH": lifted(self.folder)}
        came = call([python(), "-BI", "-c", "\n".join(lines), str(TOP / "tools")], environment=words)
        same(came.errors.decode(), came.lines, ["200 images 4"])


class Rights(ServerCase):
    """A server that may write nothing beside the archive answers all the same."""

    def test_a_folder_that_is_not_its_own(self) -> None:
        self.room.file("secret", b"x")
        (self.folder / "secret").chmod(0o200)
        server = self.serve(before=powerless_over(self.folder / "secret"))
        self.folder.chmod(0o555)
        self.addCleanup(self.folder.chmod, 0o755)
        same("report", server.ask("/reports", REPORT.replace(b"4c4c4419", b"4c4c44ff")).status, 200)
        for path in ("/", "/builds", "/status", "/missing", f"/buildid/{HEX}/debuginfo", f"/builds/{FIRST}/dsym"):
            same(path, server.ask(path).status, 200)
        self.is_absent("site.sym.missing")
