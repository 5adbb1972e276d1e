"""PostgreSQL servers of one's own: each in a folder of its own, on a socket there, stopped when they are left.

The servers run as a user who isn't root, listen on no network, trust whoever gets to the socket (whose folder is closed to
others), and care for speed and not for the data. They are stopped also if the program that started them is killed.
"""

import os
import pwd
import shutil
import signal
import subprocess
import tempfile
import time
from pathlib import Path

USERS = ("postgres", "nobody")  # for whom a server runs if root starts it
PATIENCE = 60  # seconds, for a server to start or stop
SETTINGS = {"listen_addresses": "", "fsync": "off", "synchronous_commit": "off", "full_page_writes": "off"}


class ServerError(Exception):
    """A server isn't there, or doesn't start."""


def program(name: str) -> str:
    """The path of one of PostgreSQL's programs: the newest of Debian's package, else that of the PATH."""
    places = sorted(Path("/usr/lib/postgresql").glob(f"*/bin/{name}"), key=lambda place: int(place.parts[-3].split(".")[0]))
    found = str(places[-1]) if places else shutil.which(name)
    if not found:
        raise ServerError(f"no {name}: PostgreSQL isn't installed")
    return found


def is_installed() -> bool:
    """Whether servers can be started and asked."""
    try:
        return all(map(program, ("initdb", "postgres", "psql"))) and shutil.which("setpriv") is not None
    except ServerError:
        return False


def runner() -> pwd.struct_passwd:
    """The user for whom servers run."""
    if os.geteuid() != 0:
        return pwd.getpwuid(os.geteuid())
    for name in USERS:
        try:
            return pwd.getpwnam(name)
        except KeyError:
            continue
    raise ServerError(f"a server doesn't run as root, and there is no user {' or '.join(USERS)}")


def as_user(user: pwd.struct_passwd, *words: str) -> list[str]:
    """A command for that user, which ends when this process does."""
    change = [f"--reuid={user.pw_uid}", f"--regid={user.pw_gid}", "--clear-groups"] if os.geteuid() == 0 else []
    return ["setpriv", *change, "--pdeathsig", "INT", "--", *words]


class Servers:
    """So many servers, as a context: `with Servers(2) as servers: subprocess.run(.., env=servers.environment())`."""

    def __init__(self, count: int = 1) -> None:
        self.ports = [str(5432 + place) for place in range(count)]
        self.user = runner()
        self.running: list[subprocess.Popen] = []

    def environment(self) -> dict[str, str]:
        """The environment in which psql is that of the servers and finds the first, and recipes find the second."""
        kept = {name: value for name, value in os.environ.items() if not name.startswith(("PG", "SECOND_PG"))}
        kept["PATH"] = f"{Path(program('psql')).parent}:{kept.get('PATH', os.defpath)}"
        first = {"PGHOST": str(self.folder), "PGPORT": self.ports[0], "PGUSER": "postgres", "PGDATABASE": "postgres"}
        second = {f"SECOND_{name}": value for name, value in first.items()} if len(self.ports) > 1 else {}
        return kept | first | second | ({"SECOND_PGPORT": self.ports[1]} if second else {})

    def __enter__(self) -> "Servers":
        # A socket's path has at most some hundred bytes, so it isn't put where TMPDIR may say.
        self.folder = Path(tempfile.mkdtemp(prefix="olap-pg-", dir="/tmp"))
        try:
            os.chown(self.folder, self.user.pw_uid, self.user.pw_gid)
            self.make()
            for port in self.ports:
                self.start(port)
            for port in self.ports:
                self.wait_for(port)
        except BaseException:
            self.__exit__()
            raise
        return self

    def __exit__(self, *_: object) -> None:
        for server in self.running:
            server.send_signal(signal.SIGINT)  # a fast shutdown
        for server in self.running:
            try:
                server.wait(PATIENCE)
            except subprocess.TimeoutExpired:
                server.send_signal(signal.SIGQUIT)
                server.wait()
        shutil.rmtree(self.folder, ignore_errors=True)

    def make(self) -> None:
        """The data of each server, made side by side."""
        words = ["--username=postgres", "--auth=trust", "--encoding=UTF8", "--locale=C.UTF-8", "--no-sync"]
        initdb = program("initdb")
        made = [
            subprocess.Popen(
                as_user(self.user, initdb, *words, "-D", str(self.folder / port)),
                cwd=self.folder, stdin=subprocess.DEVNULL, stdout=subprocess.DEVNULL, stderr=subprocess.PIPE, text=True,
            )
            for port in self.ports
        ]
        faults = [(each.communicate()[1], each.returncode) for each in made]
        for said, status in faults:
            if status != 0:
                raise ServerError(f"initdb: {(said.strip().splitlines() or [f'status {status}'])[-1]}")

    def start(self, port: str) -> None:
        """A server on that port of the folder's sockets."""
        settings = SETTINGS | {"unix_socket_directories": str(self.folder)}
        words = [word for name, value in settings.items() for word in ("-c", f"{name}={value}")]
        with open(self.folder / f"{port}.log", "wb") as log:
            self.running.append(
                subprocess.Popen(
                    as_user(self.user, program("postgres"), "-D", str(self.folder / port), "-p", port, *words),
                    cwd=self.folder, stdin=subprocess.DEVNULL, stdout=log, stderr=log,
                    start_new_session=True,  # a Ctrl-C at the terminal is for us, and we stop the server
                )
            )

    def wait_for(self, port: str) -> None:
        """Until the server answers."""
        server = self.running[self.ports.index(port)]
        words = [program("psql"), "-X", "-q", "-c", "select", "-o", "/dev/null"]
        until = time.monotonic() + PATIENCE
        while server.poll() is None and time.monotonic() < until:
            asked = subprocess.run(words, env=self.environment() | {"PGPORT": port}, capture_output=True, check=False)
            if asked.returncode == 0:
                return
            time.sleep(0.05)
        log = (self.folder / f"{port}.log").read_text(errors="replace").strip().splitlines()
        raise ServerError(f"a server doesn't start: {log[-1] if log else 'no word of why'}")
