"""symarch-server and its clients: curl, debuginfod's, llvm-symbolizer, lldb by the script of docs/OPERATING.md,
Chromium, Prometheus's parser, and wrk; nginx, Caddy, gunicorn and mod_wsgi in front of it; and the requests of
Symbolicator, Firefox Profiler and fastlane."""
import contextlib
import json
import os
import pathlib
import plistlib
import random
import re
import select
import shutil
import socket
import ssl
import subprocess
import sys
import zipfile
from typing import Dict, List

from .support.builds import DWARF
from .support.cases import Without, Wrong, same
from .support.llvm import tool
from .support.made_images import image, slices_in
from .support.program import MOST_SECONDS, TOP, Ended, call, is_done
from .support.rooms import keep
from .support.servers import CRASH, FIRST, FIRST_X86_64, Server, ServerCase, lifted, python, temporary, tokens
from .support.waits import wait_until

HEX = FIRST.replace("-", "")
# What stands in the document for the address of the server.
SITE = "https://builds.example.com"
# An address of the dSYM of spool-1, and what stands there.
ADDRESS, NAME, LINE = "0x100000410", "copy_body", "spool.c:9"
# What Chromium is asked, by selenium: the page of a report, what was alerted, and what a script of a report would have
# done.
BROWSER = """
import json, sys
from selenium import webdriver
from selenium.webdriver.chrome.service import Service
from selenium.webdriver.common.by import By
from selenium.webdriver.support.ui import WebDriverWait

options = webdriver.ChromeOptions()
options.binary_location = sys.argv[3]
for word in ("--headless=new", "--no-sandbox", "--disable-gpu", "--disable-dev-shm-usage", "--window-size=1200,900"):
    options.add_argument(word)
options.set_capability("goog:loggingPrefs", {"browser": "ALL"})
browser = webdriver.Chrome(service=Service(sys.argv[4]), options=options)
DROP = '''
const data = new DataTransfer();
data.items.add(new File([arguments[0]], "dropped.crash"));
document.dispatchEvent(new DragEvent("drop", {dataTransfer: data, bubbles: true, cancelable: true}));
'''
try:
    found = {}
    for way, path in (("dropped", sys.argv[2]), ("chosen", sys.argv[5])):
        browser.get(sys.argv[1])
        if way == "dropped":
            browser.execute_script(DROP, open(path).read())
        else:
            browser.find_element(By.ID, "file").send_keys(path)
        WebDriverWait(browser, 250).until(lambda it: it.find_elements(By.CLASS_NAME, "frames"))
        frames = browser.find_elements(By.CSS_SELECTOR, ".frames li")
        found[way] = [" ".join(one.text.split()) for one in frames]
        found[way + " scripts"] = len(browser.find_elements(By.CSS_SELECTOR, "main script"))
        found[way + " done"] = browser.execute_script("return window.hacked || null")
    browser.get(sys.argv[1])
    browser.find_element(By.NAME, "for").send_keys(sys.argv[6])
    browser.find_element(By.CSS_SELECTOR, ".search button").click()
    WebDriverWait(browser, 250).until(lambda it: it.find_elements(By.CSS_SELECTOR, "h1.uuid"))
    found["build"] = browser.find_element(By.TAG_NAME, "main").text
    found["log"] = [it["message"] for it in browser.get_log("browser")]
    print(json.dumps(found))
finally:
    browser.quit()
"""
# What a page of another origin is told, which asks as Firefox Profiler does.
FETCHING = """
import http.server, json, sys, threading
from selenium import webdriver
from selenium.webdriver.chrome.service import Service

class Empty(http.server.SimpleHTTPRequestHandler):
    def do_GET(self):
        self.send_response(200)
        self.end_headers()

    def log_message(self, *_):
        pass

pages = http.server.ThreadingHTTPServer(("127.0.0.1", int(sys.argv[4])), Empty)
threading.Thread(target=pages.serve_forever, daemon=True).start()
options = webdriver.ChromeOptions()
options.binary_location = sys.argv[1]
for word in ("--headless=new", "--no-sandbox", "--disable-gpu", "--disable-dev-shm-usage"):
    options.add_argument(word)
browser = webdriver.Chrome(service=Service(sys.argv[2]), options=options)
browser.set_script_timeout(250)
ASK = '''
const [url, body, done] = arguments;
fetch(url, {method: "POST", mode: "cors", body}).then((it) => it.text()).then(done, (fault) => done(String(fault)));
'''
try:
    browser.get(f"http://127.0.0.1:{sys.argv[4]}/")
    print(json.dumps([browser.execute_async_script(ASK, sys.argv[3] + path, sys.argv[5])
                      for path in ("/symbolicate/v5", "/reports")]))
finally:
    browser.quit()
"""
PARSED = """
import json, sys
from prometheus_client.parser import text_string_to_metric_families

families = text_string_to_metric_families(sys.stdin.read())
print(json.dumps({one.name: [one.type, [[it.name, it.labels, it.value] for it in one.samples]] for one in families}))
"""


def written(form: str) -> str:
    """The lines of docs/OPERATING.md that have a form, of which the first part counts."""
    found = re.search(form, (TOP / "docs" / "OPERATING.md").read_text(encoding="utf-8"), re.M)
    assert found, form
    return found[1]


def installed(name: str, package: str) -> str:
    found = shutil.which(name)
    if found is None:
        raise Without(f"no {name}: apt-get install {package}")
    return found


def python_with(module: str, package: str) -> str:
    """A Python that has a module."""
    for path in (sys.executable, "/usr/bin/python3"):
        if is_done([path, "-BI", "-c", f"import {module}"]):
            return path
    raise Without(f"no module {module}: apt-get install {package}")


class Curl(ServerCase):
    """The lines of docs/OPERATING.md."""

    def curl(self, *words: str) -> Ended:
        return call([installed("curl", "curl"), "--silent", "--show-error", "--fail", *words], cwd=self.folder)

    def test_a_report(self) -> None:
        server = self.serve()
        wanted = self.tool("symbolicate-report", CRASH / "arm64.crash", self.room.archive).out
        for words in (["--data-binary", f"@{CRASH}/arm64.crash"], ["--form", f"report=@{CRASH}/arm64.crash"]):
            same(" ".join(words), self.curl(*words, f"{server.url}/reports").out, wanted)

    def test_an_upload(self) -> None:
        """As a build phase and a step of GitHub Actions do it, by the script of the document."""
        path = tokens(self.room, "uploads", {"ci": "secret"})
        server = self.serve("--uploads", path)
        self.room.file(f"new/spool.dSYM/{DWARF}/spool", (CRASH / "spool-1.arm64").read_bytes())
        installed("zip", "zip")
        place = {"DWARF_DSYM_FOLDER_PATH": f"{self.folder}/new", "SYMARCH_TOKEN": "secret", "TMPDIR": str(self.folder)}
        line = written(r"^(\(cd \"\$DWARF_DSYM_FOLDER_PATH\" .*)$").replace(SITE, server.url)
        for shell, said in ((["/bin/sh", "-euc"], b'"type": "added"'), (["bash", "-ec"], b'"type": "known"')):
            came = call([*shell, line], environment=place, cwd=self.folder)
            same(came.errors.decode(), came.status, 0)
            self.assertIn(said, came.out)

    def test_an_upload_by_fastlane(self) -> None:
        """What its lane of the document calls for each zip file of dSYMs."""
        server = self.serve("--uploads", tokens(self.room, "uploads", {"ci": "secret"}))
        with zipfile.ZipFile(self.folder / "dSYMs.zip", "w") as packed:
            packed.writestr(f"spool.dSYM/{DWARF}/spool", (CRASH / "spool-1.arm64").read_bytes())
        words = re.findall(r'"([^"]*)"|\b(zip)\b', written(r"^  sh\((.*), log: false\)$"))
        line = [text.replace("#{ENV['SYMARCH_TOKEN']}", "secret").replace(SITE, server.url) if text else "dSYMs.zip"
                for text, _ in words]  # fmt: skip
        same("command", line[0], "curl")
        came = self.curl(*line[1:])
        same(came.errors.decode(), came.status, 0)
        self.assertIn(b'"type": "added"', came.out)


class Debuginfod(ServerCase):
    """Clients that ask by DEBUGINFOD_URLS, each with a cache of its own."""

    def asked(self, server: Server, name: str, *words: str) -> Ended:
        home = str(self.folder)
        places = {"DEBUGINFOD_URLS": server.url, "DEBUGINFOD_CACHE_PATH": f"{home}/cache", "HOME": home}
        return call([name, *words], environment=places, cwd=self.folder)

    def test_debuginfod_find(self) -> None:
        server, name = self.serve(), installed("debuginfod-find", "debuginfod")
        for kind, text, at in (("debuginfo", "spool-1.dSYM", 1), ("executable", "spool-1", 1)):
            came = self.asked(server, name, kind, HEX)
            same(came.errors.decode(), came.status, 0)
            same(kind, pathlib.Path(came.out.decode().strip()).read_bytes(), slices_in((CRASH / text).read_bytes())[at])
        absent = self.asked(server, name, "debuginfo", "00112233445566778899aabbccddeeff")
        self.assertEqual((absent.status, absent.out), (1, b""))

    def test_a_fetched_dsym_names(self) -> None:
        """By the symbolizer of LLVM, of a file that debuginfod-find fetched."""
        came = self.asked(self.serve(), installed("debuginfod-find", "debuginfod"), "debuginfo", HEX)
        said = call([tool("llvm-symbolizer"), f"--obj={came.out.decode().strip()}", ADDRESS]).out.decode()
        self.assertIn(NAME, said)
        self.assertIn(LINE, said)

    def test_llvm_symbolizer(self) -> None:
        """It fetches the dSYM itself."""
        said = self.asked(self.serve(), self.symbolizer(), f"--build-id={HEX}", ADDRESS).out.decode()
        self.assertIn(NAME, said)
        self.assertIn(LINE, said)

    @staticmethod
    def symbolizer() -> str:
        """An llvm-symbolizer that asks by build ids."""
        names = ["llvm-symbolizer", *(f"llvm-symbolizer-{number}" for number in range(30, 14, -1))]
        paths = [path for path in (shutil.which(name) for name in names) if path]
        for path in paths:
            if b"--build-id" in call([path, "--help"]).out:
                return path
        raise Without("no llvm-symbolizer that asks by build ids: apt-get install llvm-19")


class Lldb(ServerCase):
    """The script dsymForUUID that asks by curl."""

    def setUp(self) -> None:
        super().setUp()
        installed("curl", "curl")
        script = written(r"^```\n(#!/bin/sh\n(?:(?!```).*\n)*?.*curl (?:.*\n)+?)```")
        self.server = self.serve()
        path = self.folder / "dsymForUUID"
        path.write_text(script.replace(SITE, self.server.url))
        path.chmod(0o755)

    def asked(self, *words: str) -> Dict[str, Dict[str, str]]:
        """What the script prints, as a property list."""
        came = call(["./dsymForUUID", *words], environment={"HOME": f"{self.folder}/home"}, cwd=self.folder)
        same(f"status: {came.errors.decode()}", came.status, 0)
        found: Dict[str, Dict[str, str]] = plistlib.loads(came.out)
        return found

    def requests(self) -> List[str]:
        return re.findall(r" GET /builds/\S+ [0-9]+ ", self.server.said())

    def test_a_dsym_is_fetched_once(self) -> None:
        for number in (FIRST, FIRST.upper(), FIRST):
            (told,) = self.asked("--copyExecutable", number).values()
            wanted = slices_in((CRASH / "spool-1.dSYM").read_bytes())[1]
            same("bytes", pathlib.Path(told["DBGDSYMPath"]).read_bytes(), wanted)
        same("requests", len(self.requests()), 1)

    def test_a_uuid_that_is_not_there(self) -> None:
        absent = "00112233-4455-6677-8899-AABBCCDDEEFF"
        (told,) = self.asked(absent).values()
        self.assertIn("DBGError", told)
        self.assertNotIn("DBGDSYMPath", told)
        self.room.call("add", self.room.archive, "1")
        (told,) = self.asked(absent).values()
        self.assertIn("DBGError", told)

    def test_lldb_takes_it(self) -> None:
        (told,) = self.asked(FIRST_X86_64).values()
        words = [f"target create --arch x86_64-apple-macosx {self.folder}/1/spool.app/spool",
                 f"target symbols add '{told['DBGDSYMPath']}'", f"image lookup --address {ADDRESS}"]  # fmt: skip
        orders = [it for order in words for it in ("-o", order)]
        came = call([tool("lldb"), "--batch", "--no-lldbinit", *orders], cwd=self.folder)
        self.assertRegex(came.out.decode(), rf"Summary: spool`{NAME} \+ [0-9]+ at {re.escape(LINE)}")


class Browser(ServerCase):
    """Chromium, which drops a report into the page, reads a name and a line, and meets scripts in a name."""

    seconds = 20
    HOSTILE = "<script>window.hacked=1</script><img src=x onerror=window.hacked=2>"

    def test_pages(self) -> None:
        driver, chromium = installed("chromedriver", "chromium-driver"), installed("chromium", "chromium")
        module = python_with("selenium", "python3-selenium")
        head, _, rest = (CRASH / "arm64.ips").read_bytes().partition(b"\n")
        report = json.loads(rest)
        report["threads"][0]["frames"][-1]["symbol"] = self.HOSTILE
        report["procName"] = self.HOSTILE
        path = self.file("hostile.ips", head + b"\n" + json.dumps(report).encode())
        words = [self.serve().url, str(CRASH / "arm64.crash"), chromium, driver, str(path), FIRST]
        home = {"HOME": str(self.folder), "XDG_CONFIG_HOME": str(self.folder), "XDG_CACHE_HOME": str(self.folder)}
        came = call([module, "-BI", "-c", BROWSER, *words], environment=home, cwd=self.folder)
        same(came.errors.decode()[-2000:], came.status, 0)
        found = json.loads(came.out)
        for way in ("dropped", "chosen"):
            same(way, found[way][0], f"0 spool {NAME} + 12 {LINE}")
            same(f"scripts when {way}", (found[f"{way} scripts"], found[f"{way} done"]), (0, None))
        self.assertIn(self.HOSTILE, found["chosen"][-1])
        self.assertIn(FIRST, found["build"])
        same("log", found["log"], [])


def free_port() -> int:
    """A port of this machine at which nobody listens, and which no connection is given by the system."""
    while True:
        with contextlib.suppress(OSError), socket.socket() as one:
            one.bind(("127.0.0.1", random.randrange(10_000, 30_000)))
            return int(one.getsockname()[1])


class Behind(ServerCase):
    """The server behind those that stand before it: proxies by the lines of docs/OPERATING.md, and another server of
    WSGI. Each passes on reports, long bodies, parts of slices and pages."""

    seconds = 20
    NAME, TOKEN = "builds.example.com", "a-long-token"

    def setUp(self) -> None:
        super().setUp()
        self.port = free_port()
        of_nginx = r"(limit_conn_zone .*\nserver \{\n(?:.*\n)+?\}\n)"
        of_caddy = r"(builds\.example\.com \{\n(?:.*\n)+?\}\n)"
        self.of_nginx = written(rf"^```\n{of_nginx}```")
        self.of_caddy = written(rf"^```\n{of_caddy}```")
        self.words = ["--host", self.NAME, "--uploads", tokens(self.room, "uploads", {"ci": self.TOKEN})]

    def begin(self, *words: object, environment: Dict[str, str] = {}) -> "subprocess.Popen[bytes]":
        """A process that is ended after the case. It listens once this returns."""
        log = open(self.folder / "before.log", "ab")
        self.addCleanup(log.close)
        how = {"stdin": subprocess.DEVNULL, "stdout": log, "stderr": log, "cwd": self.folder}
        env = {**os.environ, "HOME": str(self.folder), "XDG_DATA_HOME": str(self.folder), **environment}
        process: "subprocess.Popen[bytes]" = subprocess.Popen(list(map(str, words)), env=env, **how)  # type: ignore
        self.addCleanup(process.wait)
        self.addCleanup(process.terminate)
        try:
            wait_until(self.is_listened_to, process)
        except Wrong as wrong:
            raise Wrong((self.folder / "before.log").read_text()) from wrong
        return process

    def is_listened_to(self) -> bool:
        with contextlib.suppress(OSError), socket.create_connection(("127.0.0.1", self.port)):
            return True
        return False

    def curl(self, path: str, *words: str) -> bytes:
        name = f"{self.NAME}:{self.port}"
        how = ["--silent", "--show-error", "--fail", "--insecure", "--resolve", f"{name}:127.0.0.1"]
        came = call([installed("curl", "curl"), *how, *words, f"{self.scheme}://{name}{path}"], cwd=self.folder)
        log = (self.folder / "before.log").read_text(errors="replace")[-1000:]
        same(f"{path}: {came.errors.decode()}{log}", came.status, 0)
        return came.out

    scheme = "https"

    def is_as_alone(self) -> None:
        """Fails unless it answers as it does by itself."""
        wanted = self.tool("symbolicate-report", CRASH / "arm64.crash", self.room.archive).out
        same("report", self.curl("/reports", "--data-binary", f"@{CRASH}/arm64.crash"), wanted)
        chunked = ["--header", "Transfer-Encoding: chunked", "--data-binary", f"@{CRASH}/arm64.crash"]
        same("in chunks", self.curl("/reports", *chunked), wanted)
        long = self.file("long", (CRASH / "arm64.crash").read_bytes() + b"x" * 5_000_000)
        same("long", self.curl("/reports", "--data-binary", f"@{long}")[: len(wanted)], wanted)
        dsym = slices_in((CRASH / "spool-1.dSYM").read_bytes())[1]
        same("slice", self.curl(f"/buildid/{HEX}/debuginfo"), dsym)
        same("a part", self.curl(f"/buildid/{HEX}/debuginfo", "--range", "10-99"), dsym[10:100])
        page = self.curl("/reports", "--header", "Accept: text/html", "--header",
                         f"Origin: {self.scheme}://{self.NAME}:{self.port}", "--form", f"r=@{CRASH}/arm64.crash")
        self.assertIn(b'<span class="function">copy_body</span>', page)
        made = self.file("large.dylib", image(90, more=bytes(3_000_000)))
        said = self.curl("/images/", "--upload-file", str(made), "--header", f"Authorization: Bearer {self.TOKEN}")
        self.assertIn(b'"type": "added"', said)

    def test_nginx(self) -> None:
        nginx, openssl = installed("nginx", "nginx-light"), installed("openssl", "openssl")
        call([openssl, "req", "-x509", "-newkey", "rsa:2048", "-nodes", "-days", "2", "-subj", f"/CN={self.NAME}",
              "-keyout", "key.pem", "-out", "cert.pem"], cwd=self.folder)  # fmt: skip
        lines = self.of_nginx.replace("/etc/ssl/builds.pem", f"{self.folder}/cert.pem")
        lines = lines.replace("/etc/ssl/builds.key", f"{self.folder}/key.pem")
        lines = lines.replace("listen 443", f"listen 127.0.0.1:{self.port}")
        lines = lines.replace("http://127.0.0.1:8080", self.serve(*self.words).url)
        paths = "".join(f"{it}_temp_path {self.folder}/{it};" for it in ("proxy", "fastcgi", "uwsgi", "scgi"))
        around = f"access_log off; client_body_temp_path {self.folder}/body; {paths}"
        # Its workers write what a client does not read yet into the folder of the case, which root alone may enter.
        user = "user root; " if os.getuid() == 0 else ""
        lines = f"{user}daemon off; pid {self.folder}/pid; events {{}} http {{ {around}\n{lines} }}\n"
        self.file("conf", lines.encode())
        self.begin(nginx, "-p", self.folder, "-e", "stderr", "-c", self.folder / "conf")
        self.is_as_alone()
        self.is_for_others_too()

    def is_for_others_too(self) -> None:
        """Fails if one address may begin more requests at once than the lines say, or others are kept out by them."""
        with contextlib.ExitStack() as ends:
            begun = [ends.enter_context(self.unended("127.0.0.1")) for _ in range(100)]
            self.assertIn(b" 503 ", self.unended("127.0.0.1").recv(100))
            other = ends.enter_context(self.unended("127.0.0.2"))
            same("asks", [one.fileno() for one in (*begun, other) if select.select([one], [], [], 0)[0]], [])
            other.sendall(b"x")
            self.assertIn(b" 422 ", other.recv(100))

    def unended(self, address: str) -> ssl.SSLSocket:
        """A request that lacks a byte of its body, from an address of this machine."""
        context = ssl.SSLContext(ssl.PROTOCOL_TLS_CLIENT)
        context.check_hostname, context.verify_mode = False, ssl.CERT_NONE
        bare = socket.create_connection(("127.0.0.1", self.port), MOST_SECONDS, (address, 0))
        made = context.wrap_socket(bare, server_hostname=self.NAME)
        made.sendall(f"POST /reports HTTP/1.1\r\nHost: {self.NAME}\r\nContent-Length: 2\r\n\r\nx".encode())
        return made

    def test_caddy(self) -> None:
        caddy = installed("caddy", "caddy")
        lines = self.of_caddy.replace(self.NAME, f"{self.NAME}:{self.port}")
        lines = lines.replace("127.0.0.1:8080", f"127.0.0.1:{self.serve(*self.words).port}")
        own = "{\n admin off\n local_certs\n skip_install_trust\n auto_https disable_redirects\n}\n"
        self.file("Caddyfile", f"{own}{lines}".encode())
        self.begin(caddy, "run", "--adapter", "caddyfile", "--config", "Caddyfile")
        self.is_as_alone()

    def test_gunicorn(self) -> None:
        """It runs the application itself, and leaves nothing."""
        module, self.scheme = python_with("gunicorn", "gunicorn"), "http"
        python()
        words = [*self.words, "--workers", "2", self.room.archive]
        environment = {
            "SYMARCH": lifted(self.folder), "TMPDIR": str(temporary(self.folder)), "PYTHONPATH": str(TOP / "tools"),
            "SYMARCH_SERVER": " ".join(map(str, words)), "PYTHONDONTWRITEBYTECODE": "1",
        }  # fmt: skip
        options = ["--bind", f"127.0.0.1:{self.port}", "--threads", "8", "--timeout", "600"]
        process = self.begin(module, "-m", "gunicorn", *options, "symarch_server.wsgi:app", environment=environment)
        self.is_as_alone()
        process.terminate()
        same("status", process.wait(timeout=MOST_SECONDS), 0)
        same("rooms that are left", os.listdir(temporary(self.folder)), [])


    def test_mod_wsgi(self) -> None:
        """By the lines of the document, as another user where root begins it."""
        apache, modules = installed("apache2", "apache2"), pathlib.Path("/usr/lib/apache2/modules")
        if not (modules / "mod_wsgi.so").exists():
            raise Without("no mod_wsgi: apt-get install libapache2-mod-wsgi-py3")
        self.scheme, program = "http", shutil.copy(lifted(self.folder), self.folder / "program")
        script = written(r'^```\n(import os\n\nos\.environ\["SYMARCH_SERVER"\] = .*\n(?:.*\n)+?)```')
        words = " ".join(map(str, [*self.words, self.room.archive]))
        script = re.sub(r'(?<= = )".*"', repr(words), script)
        script += f"os.environ.update(SYMARCH={str(program)!r}, TMPDIR={str(temporary(self.folder))!r})\n"
        self.file("symarch.wsgi", script)
        user = "user=www-data" if os.getuid() == 0 else ""
        lines = written(r"^```\n(WSGIDaemonProcess .*\n(?:.*\n)+?)```").replace("user=symarch", user)
        lines = lines.replace("/usr/lib/symarch", str(pathlib.Path(keep).parent))
        lines = lines.replace("/srv/symarch", str(self.folder))
        names = "mpm_event", "authz_core", "wsgi"
        loaded = "".join(f"LoadModule {name}_module {modules}/mod_{name}.so\n" for name in names)
        around = f"{loaded}Listen 127.0.0.1:{self.port}\nServerName {self.NAME}\nPidFile {self.folder}/pid\n"
        around += f"ErrorLog {self.folder}/before.log\nWSGISocketPrefix {self.folder}/socket\n"
        around += "User www-data\nGroup www-data\n" if user else ""
        self.file("conf", around + lines)
        if user:
            call(["chown", "-R", "www-data:www-data", self.folder])
        process = self.begin(apache, "-X", "-d", self.folder, "-f", self.folder / "conf")
        self.is_as_alone()
        process.terminate()
        process.wait(timeout=MOST_SECONDS)
        same("rooms that are left", os.listdir(temporary(self.folder)), [])


class Sources(ServerCase):
    """The requests that Symbolicator and Firefox Profiler make, by the lines of docs/OPERATING.md."""

    def test_symbolicator(self) -> None:
        """It asks for both kinds of a UUID by the unified layout, and for parts, with the headers of the source."""
        server = self.serve("--readers", tokens(self.room, "readers", {"symbolicator": "TOKEN"}))
        source = written(r"^```\n(sources:\n(?:.*\n)+?)```")
        self.assertIn("layout: {type: unified, casing: lowercase}", source)
        self.assertIn(f"url: {SITE}/\n", source)
        name, value = re.findall(r"headers: \{(\S+): (.*)\}", source)[0]
        how = {name: value, "User-Agent": "symbolicator/25.1.0", "Accept-Encoding": "gzip, br"}
        for kind, file in (("debuginfo", "spool-1.dSYM"), ("executable", "spool-1")):
            path, whole = f"/{HEX[:2]}/{HEX[2:]}/{kind}", slices_in((CRASH / file).read_bytes())[1]
            same(path, (server.ask(path).status, server.ask(path, headers=how).body), (401, whole))
            part = server.ask(path, headers={**how, "Range": f"bytes=0-{len(whole) * 2}"})
            about = part.status, part.headers["content-range"]
            same("a part", (*about, part.body), (206, f"bytes 0-{len(whole) - 1}/{len(whole)}", whole))
            head = server.ask(path, method="HEAD", headers=how)
            same("head", (head.status, head.headers["content-length"], head.body), (200, str(len(whole)), b""))
        for kind in ("breakpad", "sourcebundle", "uuidmap", "bcsymbolmap"):
            same(kind, server.ask(f"/{HEX[:2]}/{HEX[2:]}/{kind}", headers=how).status, 404)

    def test_firefox_profiler(self) -> None:
        """A page of another origin asks by `fetch`; before that its browser asks whether it may, if the server is in a
        private network."""
        origin = written(r"`--origin (https://\S+)`")
        server = self.serve("--origin", origin)
        fetched = {"Origin": origin, "Sec-Fetch-Site": "cross-site", "Sec-Fetch-Mode": "cors"}
        asked = {"Access-Control-Request-Method": "POST", "Access-Control-Request-Headers": "content-type",
                 "Access-Control-Request-Private-Network": "true"}  # fmt: skip
        came = server.ask("/symbolicate/v5", method="OPTIONS", headers={**fetched, **asked})
        allowed = [came.headers[f"access-control-allow-{one}"] for one in ("origin", "methods", "private-network")]
        same("asked before", (came.status, allowed), (204, [origin, "POST", "true"]))
        self.assertIn("content-type", came.headers["access-control-allow-headers"].lower())
        job = {"memoryMap": [["spool", f"{HEX.upper()}0"]], "stacks": [[[0, 0x410]]]}
        how = {**fetched, "Content-Type": "text/plain;charset=UTF-8", "Referer": f"{origin}/"}
        came = server.ask("/symbolicate/v5", json.dumps({"jobs": [job]}).encode(), headers=how)
        same("allowed", (came.status, came.headers["access-control-allow-origin"]), (200, origin))
        ((frame,),) = came.json()["results"][0]["stacks"]
        same("frame", (frame["function"], frame["line"]), (NAME, 9))

    def test_a_page_of_another_origin(self) -> None:
        """Chromium gives a page of a named origin what names have, and nothing else; another page nothing."""
        driver, chromium = installed("chromedriver", "chromium-driver"), installed("chromium", "chromium")
        module = python_with("selenium", "python3-selenium")
        home = {"HOME": str(self.folder), "XDG_CONFIG_HOME": str(self.folder), "XDG_CACHE_HOME": str(self.folder)}
        job = {"memoryMap": [["spool", f"{HEX.upper()}0"]], "stacks": [[[0, 0x410]]]}
        for is_named in (True, False):
            port = free_port()
            server = self.serve("--origin", f"http://127.0.0.1:{port if is_named else 9}")
            words = [chromium, driver, server.url, str(port), json.dumps(job)]
            came = call([module, "-BI", "-c", FETCHING, *words], environment=home, cwd=self.folder)
            same(came.errors.decode()[-2000:], came.status, 0)
            names, other = json.loads(came.out)
            same(f"{is_named}: names", NAME in names, is_named)
            same("other", other, "TypeError: Failed to fetch")


class Others(ServerCase):
    """Those that read numbers, and those that ask often."""

    def test_prometheus(self) -> None:
        module = python_with("prometheus_client", "python3-prometheus-client")
        server = self.serve()
        server.ask("/reports", (CRASH / "arm64.ips").read_bytes())
        server.ask("/nothing/\"'\n".replace("\n", "%0a"))
        came = call([module, "-BI", "-c", PARSED], stdin=server.ask("/metrics").body)
        same(came.errors.decode(), came.status, 0)
        found = json.loads(came.out)
        samples = {(name, *sorted(labels.values())): value for _, its in found.values() for name, labels, value in its}
        same("named", samples["symarch_frames_total", "named"], 4)
        same("reports", samples["symarch_requests_total", "/reports", "200", "POST"], 1)
        same("companions", samples[("symarch_archive_companions",)], 4)
        same("kind", found["symarch_request_seconds"][0], "histogram")
        same("counted", samples["symarch_request_seconds_count", "/reports"], 1)

    def test_wrk(self) -> None:
        """No answer but 2xx, and no connection is refused."""
        wrk, server, text = installed("wrk", "wrk"), self.serve(), ""
        # A slow machine gets more time for the first ones.
        for seconds in (2, 20, 200):
            if not re.search("[1-9][0-9]* requests in ", text):
                words = ["--threads", "2", "--connections", "50", "--duration", f"{seconds}s", "--timeout", "300s"]
                text = call([wrk, *words, f"{server.url}/status"]).out.decode()
                self.assertNotRegex(text, "Non-2xx|Socket errors")
        self.assertRegex(text, "[1-9][0-9]* requests in ")
        same("status", server.ask("/status").status, 200)
