#!/usr/bin/env python3
"""Asks the parts of a dump by engines that run them on several machines, some of which are lost in the middle.

usage: tests/package/engines.py [MEGABYTES]     The last line is 'N passed, M failed'. Without a number the dump has 20 megabytes.

The scripts are those of examples, as docs/LARGE.md shows them. What they print must be what one run over the whole dump prints, byte for
byte. The dump has values of mixed kinds with many ties; the request has a filter, a sort, a skip and a limit. Machines are processes of
this one:

- Dask has a scheduler and three workers. One is killed while it asks its second part. Then another one no longer answers.
- GNU parallel reaches three sshd, on 127.0.0.2, 127.0.0.3 and 127.0.0.4. One is killed while it asks its second part, and is back.
  Then another one no longer answers. Then all are killed, and the same command is run again once they are back.
- A part with a fault makes each engine fail, and a query that is refused is refused once.

An engine whose packages are missing is named and skipped; nothing is installed. All files are in a temporary folder. At the end, and
after a failure or Ctrl-C, no process is left.
"""

import ctypes
import getpass
import json
import os
import random
import shutil
import signal
import socket
import subprocess
import sys
import tempfile
import time
from collections.abc import Callable, Iterable
from functools import partial
from pathlib import Path
from types import FrameType
from typing import NamedTuple, NoReturn

sys.path[:0] = [str(Path(__file__).resolve().parents[1]), str(Path(__file__).resolve().parents[2] / "python")]

from bsonfind import plan
from support import PROGRAM, ROOT, Tests

# How many seconds anything may take.
PATIENCE = 300.0
# Into how many parts a dump is cut, or one more.
PARTS = 12
PR_SET_CHILD_SUBREAPER = 36
ENDING = (signal.SIGINT, signal.SIGTERM, signal.SIGHUP)

# Values of mixed kinds, equal ones of other types among them; None is a field that is missing.
VALUES = [None, "null", "1", "2", '{"$numberLong":"2"}', '"2"', '{"$symbol":"2"}', '[1,"2"]', "[]", '{"b":1}', '{"$minKey":1}']
# Each part has more of the first 1,050 documents than the limit, and many more that match.
QUERY, SORT, SKIP, LIMIT = '{"$or":[{"a":{"$gte":1}},{"b":null},{"c":{"$type":"string"}}]}', '{"b":-1,"a":1}', 1000, 50
# A query that is refused, and what is told then.
REFUSED, REFUSAL = '{"a":1.5}', "json: byte 5: not in the profile"
# How many documents are packed at once.
PIECE = 20_000


class Failed(Exception):
    """A machine or a script that does not do what the tests wait for."""


class Ran(NamedTuple):
    """How a script ended, what it printed, and the seconds it took."""

    status: int
    out: bytes
    err: str
    seconds: float

    def __str__(self) -> str:
        """What a failure shows of it."""
        return f"status {self.status}, {len(self.out)} bytes, {self.err[-1500:]}"


class Dump(NamedTuple):
    """A dump, how many bytes a part of it has at most, how many parts that makes, and what one run prints of it."""

    path: Path
    most: int
    parts: int
    whole: Ran

    def words(self, query: str = QUERY, sort: str = SORT) -> list[str]:
        """The arguments of a script for it."""
        return [str(self.path), str(self.most), query, sort, str(SKIP), str(LIMIT)]


def descendants(root: int) -> list[int]:
    """The processes below one."""
    children: dict[int, list[int]] = {}
    for stat in Path("/proc").glob("[0-9]*/stat"):
        try:
            parent = int(stat.read_text(errors="replace").rpartition(")")[2].split()[1])
        except OSError:
            continue  # It has ended.
        children.setdefault(parent, []).append(int(stat.parent.name))
    below = list(children.get(root, ()))
    for pid in below:
        below += children.get(pid, ())
    return below


def send(pids: Iterable[int], number: int) -> None:
    """Sends a signal to processes, some of which may have ended."""
    for pid in pids:
        try:
            os.kill(pid, number)
        except ProcessLookupError:
            pass


def stop(root: int) -> list[int]:
    """Stops a process and those below it, which can start no other ones then, and gives them."""
    stopped: list[int] = []
    while new := [pid for pid in (root, *descendants(root)) if pid not in stopped]:
        send(new, signal.SIGSTOP)
        stopped += new
    return stopped


def end_all() -> None:
    """Ends all that was started here. What lost its parent is a child of this process."""
    while below := descendants(os.getpid()):
        send(below, signal.SIGKILL)
        try:
            os.waitpid(-1, 0)
        except ChildProcessError:
            pass


class Script:
    """A script of the guide, in a folder for what it writes."""

    def __init__(self, words: list[str], folder: Path, env: dict[str, str]) -> None:
        self.files = [folder / "printed", folder / "told"]
        self.started = time.monotonic()
        with self.files[0].open("wb") as out, self.files[1].open("wb") as err:
            self.process = subprocess.Popen(words, cwd=folder, env=env, stdin=subprocess.DEVNULL, stdout=out, stderr=err)

    def ran(self) -> Ran:
        """Waits for its end."""
        try:
            status = self.process.wait(PATIENCE)
        except subprocess.TimeoutExpired:
            send(stop(self.process.pid), signal.SIGKILL)
            status = self.process.wait()
        seconds = time.monotonic() - self.started
        out, err = (file.read_bytes() for file in self.files)
        return Ran(status, out, err.decode(errors="replace"), seconds)


class Machine:
    """A folder with programs, and a process; what runs there is below that process, and is lost with it.

    A machine that is marked answers one part, and is stuck in the next one.
    """

    def __init__(self, room: Path, name: str) -> None:
        self.name, self.folder = name, room / name
        programs = self.folder / "bin"
        programs.mkdir(parents=True)
        # Of each part one answer is packed.
        stuck = f'mkdir {self.folder}/one 2>/dev/null || {{ mkdir {self.folder}/stuck; exec sleep 3600; }}'
        script = f'#!/bin/sh\n[ "$1" = pack ] && [ -e {self.folder}/marked ] && {{ {stuck}; }}\nexec "{PROGRAM}" "$@"\n'
        (programs / "bsonfind").write_text(script)
        (programs / "bsonfind").chmod(0o755)
        self.env = {"PATH": f"{programs}:{os.environ['PATH']}", "PYTHONPATH": f"{ROOT}/python", "HOME": str(self.folder)}

    def start(self, words: list[str]) -> None:
        """Starts its process."""
        with (self.folder / "told").open("ab") as told:
            env = {**os.environ, **self.env}
            self.process = subprocess.Popen(words, env=env, cwd=self.folder, stdin=subprocess.DEVNULL, stdout=told, stderr=told)

    def told(self) -> str:
        """What its process told."""
        return (self.folder / "told").read_text(errors="replace")

    def wait_until(self, holds: Callable[[], bool]) -> None:
        """Waits until something holds, as long as its process runs."""
        until = time.monotonic() + PATIENCE
        while not holds():
            if self.process.poll() is not None or time.monotonic() > until:
                raise Failed(f"{self.name}: {self.told()[-1500:]}")
            time.sleep(0.05)

    def mark(self) -> None:
        """It is to be stuck."""
        (self.folder / "marked").mkdir()

    def wait_until_stuck(self, script: Script) -> None:
        """Waits for it, as long as the script runs."""
        stuck = self.folder / "stuck"
        self.wait_until(lambda: stuck.exists() or script.process.poll() is not None)
        if not stuck.exists():
            raise Failed(f"the script ended before {self.name} was lost: {script.ran()}")

    def lose(self) -> None:
        """All that runs there is killed."""
        send(stop(self.process.pid), signal.SIGKILL)

    def freeze(self) -> None:
        """All that runs there is stopped, so that it answers no longer."""
        stop(self.process.pid)

    def mend(self) -> None:
        """What runs there is killed, and it is stuck no longer."""
        self.lose()
        for name in ("marked", "one", "stuck"):
            (self.folder / name).rmdir()


def lines(count: int, chosen: random.Random) -> bytes:
    """Lines of documents of mixed kinds, many of which are equal for a sort."""
    made = []
    for _ in range(count):
        fields = [(name, chosen.choice(VALUES)) for name in "abc"]
        texts = ",".join(f'"{name}":{value}' for name, value in fields if value)
        made.append(f'{{"_id":{chosen.getrandbits(31)},{texts}{"," if texts else ""}"pad":"{"x" * chosen.randrange(1000)}"}}\n')
    return "".join(made).encode()


def make_dump(path: Path, size: int) -> Dump:
    """Makes a dump of so many bytes, and asks it by one run."""
    chosen, documents = random.Random(7), 0
    with path.open("wb") as file:
        while file.tell() < size:
            some = min(PIECE, (size - file.tell()) // 550 + 1)
            packed = subprocess.run([PROGRAM, "pack", "-"], input=lines(some, chosen), capture_output=True, check=True).stdout
            file.write(packed)
            documents += some
    most = size // PARTS
    dump = Dump(path, most, len(plan(path, most)), ask_whole(path))
    print(f"{documents} documents, {path.stat().st_size} bytes, {dump.parts} parts; one run takes {dump.whole.seconds:.2f} s and prints {len(dump.whole.out)} bytes")
    return dump


def ask_whole(path: Path, sort: str = SORT) -> Ran:
    """What one run prints."""
    words = [str(PROGRAM), "find", str(path), "--query", QUERY, "--sort", sort, "--skip", str(SKIP), "--limit", str(LIMIT)]
    return Script(words, path.parent, dict(os.environ)).ran()


def make_faulty(dump: Dump) -> Dump:
    """A copy with a fault in one of its parts."""
    path = dump.path.with_name("faulty.bson")
    shutil.copyfile(dump.path, path)
    with path.open("r+b") as file:
        file.seek(path.stat().st_size * 2 // 3)
        at = file.tell() + file.read(100_000).index(b"\x02pad\0") + 9
        file.seek(at)
        file.write(b"\xff")
    return dump._replace(path=path, whole=ask_whole(path))


class Bench(NamedTuple):
    """The counts, the folder for all files, the one of the guide's scripts, and two dumps, of which one has a fault."""

    tests: Tests
    room: Path
    scripts: Path
    dump: Dump
    faulty: Dump

    def want_whole(self, name: str, ran: Ran, wanted: Ran | None = None) -> None:
        """The answer is that of one run."""
        wanted = wanted or self.dump.whole
        self.tests.want(name, ran.status == 0 and wanted.status == 0 and bool(ran.out) and ran.out == wanted.out, ran)
        print(f"{name}: {ran.seconds:.2f} s")

    def want_refused(self, name: str, ran: Ran, text: str) -> None:
        """It failed, prints nothing, and tells this."""
        shown = ran.status != 0 and not ran.out and text in ran.err and "Traceback" not in ran.err
        self.tests.want(name, shown, f"in place of {text!r}: {ran}")

    def fault(self) -> str:
        """What one run tells of the faulty dump."""
        return self.faulty.whole.err.removeprefix("bsonfind: ").strip()


def has_dask(python: str, env: dict[str, str]) -> bool:
    """Whether a Python has the modules of Dask."""
    words = [python, "-c", "import distributed.cli.dask_worker"]
    return shutil.which(python) is not None and subprocess.run(words, env=env, stderr=subprocess.DEVNULL).returncode == 0


def ask_by_dask(bench: Bench) -> str | None:
    """Dask. Gives what is missing for it."""
    folder = bench.room / "dask"
    folder.mkdir()
    env = {**os.environ, "PATH": f"{ROOT}:{os.environ['PATH']}", "PYTHONPATH": f"{ROOT}/python", "HOME": str(folder)}
    # A package of Debian is for Debian's own Python.
    python = next((it for it in ("/usr/bin/python3", sys.executable) if has_dask(it, env)), None)
    if not python:
        return "python3-distributed"
    scheduler, *workers = (Machine(folder, name) for name in ("scheduler", "worker1", "worker2", "worker3"))
    # It waits so long for a worker that does not answer.
    scheduler.env["DASK_DISTRIBUTED__SCHEDULER__WORKER_TTL"] = "8s"
    place = folder / "scheduler.json"
    local = ["--scheduler-file", str(place), "--no-dashboard"]
    scheduler.start([python, "-m", "distributed.cli.dask_scheduler", "--host", "127.0.0.1", "--port", "0", *local])
    for worker in workers:
        worker.start([python, "-m", "distributed.cli.dask_worker", "--nthreads", "1", "--no-nanny", "--local-directory", str(worker.folder), *local])
    for worker in workers:
        worker.wait_until(partial(is_registered, worker))
    script = [python, str(bench.scripts / "on_dask.py"), json.loads(place.read_text())["address"]]

    def ask(dump: Dump, **request: str) -> Script:
        return Script([*script, *dump.words(**request)], folder, env)

    bench.want_whole("Dask, three workers", ask(bench.dump).ran())
    losses = {"one of three workers is killed": Machine.lose, "one of two workers does not answer": Machine.freeze}
    for worker, (what, lose) in zip(workers, losses.items()):
        worker.mark()
        asked = ask(bench.dump)
        worker.wait_until_stuck(asked)
        lose(worker)
        bench.want_whole(f"Dask, {what}", asked.ran())
    bench.want_refused("Dask, a fault", ask(bench.faulty).ran(), bench.fault())
    bench.want_refused("Dask, a query that is refused", ask(bench.dump, query=REFUSED).ran(), REFUSAL)
    return None


def is_registered(worker: Machine) -> bool:
    """Whether the scheduler of Dask knows a worker."""
    return "Registered to" in worker.told()


class Hosts:
    """Three sshd with keys of their own, and what ssh needs to reach them by the names db1, db2 and db3."""

    NAMES = ["db1", "db2", "db3"]

    def __init__(self, folder: Path, sshd: str) -> None:
        self.folder, self.sshd = folder, sshd
        self.machines = {name: Machine(folder, name) for name in self.NAMES}
        self.places = {name: (f"127.0.0.{number}", free_port(f"127.0.0.{number}")) for number, name in enumerate(self.NAMES, 2)}
        make_key(folder / "key")
        hosts, known = [], []
        for name, (address, port) in self.places.items():
            make_key(folder / name / "key")
            known.append(f"{name} {(folder / name / 'key.pub').read_text()}")
            hosts.append(f"Host {name}\n  HostName {address}\n  Port {port}\n  HostKeyAlias {name}\n")
            self.configure(name, address, port)
        (folder / "known").write_text("".join(known))
        (folder / "config").write_text("".join(hosts) + self.client())
        work = folder / "work"
        work.mkdir()
        own = {"PARALLEL_SSH": f"ssh -F {folder}/config", "PARALLEL_HOME": str(work), "HOME": str(work), "XDG_CACHE_HOME": str(work)}
        self.work, self.env = work, {**os.environ, "PATH": f"{ROOT}:{os.environ['PATH']}", "PYTHONPATH": f"{ROOT}/python", **own}

    def client(self) -> str:
        """What ssh does with each of them. One that does not answer is given up after some seconds."""
        return (
            f"Host *\n  User {getpass.getuser()}\n  IdentityFile {self.folder}/key\n  IdentitiesOnly yes\n  IdentityAgent none\n"
            f"  UserKnownHostsFile {self.folder}/known\n  GlobalKnownHostsFile none\n  StrictHostKeyChecking yes\n  BatchMode yes\n"
            "  ConnectTimeout 5\n  ServerAliveInterval 2\n  ServerAliveCountMax 3\n  LogLevel ERROR\n"
        )

    def configure(self, name: str, address: str, port: int) -> None:
        """Writes the configuration of an sshd, with the environment of its machine."""
        env = " ".join(f'"{name}={value}"' for name, value in self.machines[name].env.items())
        text = (
            f"ListenAddress {address}\nPort {port}\nHostKey {self.folder}/{name}/key\nAuthorizedKeysFile {self.folder}/key.pub\nPidFile none\n"
            "StrictModes no\nUsePAM no\nPasswordAuthentication no\nKbdInteractiveAuthentication no\nPermitRootLogin prohibit-password\n"
            f"PermitUserRC no\nUseDNS no\nPrintMotd no\nMaxStartups 100\nSetEnv {env}\n"
        )
        (self.folder / name / "sshd_config").write_text(text)

    def start(self, *names: str) -> None:
        """Starts sshd on machines, and waits until they listen."""
        for name in names:
            words = [self.sshd, "-D", "-e", "-f", str(self.folder / name / "sshd_config")]
            if os.geteuid() == 0 and not Path("/run/sshd").exists():
                # For root it wants this folder; here it alone sees it.
                own = 'mount -t tmpfs tmpfs /run && mkdir /run/sshd && exec "$@"'
                words = ["unshare", "--mount", "sh", "-c", own, "sh", *words]
            self.machines[name].start(words)
        for name in names:
            self.machines[name].wait_until(partial(listens, self.places[name]))

    def ask(self, dump: Dump, **request: str) -> Script:
        """Starts the script of the guide."""
        names = ",".join(f"1/{name}" for name in self.NAMES)
        return Script(["bash", "on_hosts.sh", names, *dump.words(**request)], self.work, self.env)

    def last_log(self) -> Path:
        """The log of GNU parallel that was written last."""
        logs = sorted(self.work.glob("*.log"), key=lambda file: file.stat().st_mtime)
        if not logs:
            raise Failed("GNU parallel wrote no log")
        return logs[-1]

    def log(self) -> list[dict[str, str]]:
        """Its lines."""
        names, *rows = (line.split("\t") for line in self.last_log().read_text().splitlines())
        return [dict(zip(names, row)) for row in rows]

    def print_seconds(self) -> None:
        """Prints what the parts and the join took, which is made once more."""
        print("  parts take", ", ".join(f"{float(row['JobRuntime']):.2f}" for row in self.log()), "s")
        joined = self.last_log().with_suffix("") / "all"
        request = {"DUMP": str(joined), "BYTES": "1", "QUERY": QUERY, "SORT": SORT, "SKIP": str(SKIP), "LIMIT": str(LIMIT)}
        size = joined.stat().st_size
        ran = Script(["python3", "part.py", f"0 {size} 0"], self.work, {**self.env, **request}).ran()
        print(f"  the answers of the parts, {size} bytes, are asked in {ran.seconds:.2f} s")


def make_key(path: Path) -> None:
    """Makes a pair of keys."""
    subprocess.run(["ssh-keygen", "-q", "-t", "ed25519", "-N", "", "-C", "engines", "-f", path], check=True, stdin=subprocess.DEVNULL)


def free_port(address: str) -> int:
    """A port of an address that no one listens on."""
    with socket.socket() as it:
        it.bind((address, 0))
        return int(it.getsockname()[1])


def listens(place: tuple[str, int]) -> bool:
    """Whether someone listens there."""
    with socket.socket() as it:
        return it.connect_ex(place) == 0


def missing_for_parallel() -> tuple[str | None, list[str]]:
    """The program sshd, and the packages that are missing."""
    sshd = shutil.which("sshd", path=f"{os.environ['PATH']}:/usr/sbin")
    missing = [] if sshd else ["openssh-server"]
    if not (shutil.which("ssh") and shutil.which("ssh-keygen")):
        missing.append("openssh-client")
    # Another program has that name too.
    if not shutil.which("parallel") or "GNU parallel" not in subprocess.run(["parallel", "--version"], capture_output=True, text=True).stdout:
        missing.append("parallel")
    return sshd, missing


def ask_by_parallel(bench: Bench) -> str | None:
    """GNU parallel over ssh. Gives what is missing for it."""
    sshd, missing = missing_for_parallel()
    if missing or not sshd:
        return ", ".join(missing)
    folder = bench.room / "hosts"
    folder.mkdir()
    hosts = Hosts(folder, sshd)
    for name in ("part.py", "on_hosts.sh"):
        shutil.copy(bench.scripts / name, hosts.work)
    hosts.start(*hosts.NAMES)

    bench.want_whole("GNU parallel, three hosts", hosts.ask(bench.dump).ran())
    hosts.print_seconds()
    lose_one(bench, hosts, "db1", '{"c":1,"a":-1}', Machine.lose, "GNU parallel, one of three hosts is killed")
    lose_one(bench, hosts, "db2", '{"a":-1,"c":-1,"b":1}', Machine.freeze, "GNU parallel, one of three hosts does not answer")
    lose_all(bench, hosts, '{"a":1}')
    bench.want_refused("GNU parallel, a fault", hosts.ask(bench.faulty).ran(), bench.fault())
    bench.want_refused("GNU parallel, a query that is refused", hosts.ask(bench.dump, query=REFUSED).ran(), REFUSAL)
    return None


def lose_one(bench: Bench, hosts: Hosts, name: str, sort: str, lose: Callable[[Machine], None], what: str) -> None:
    """One is lost while it asks its second part."""
    machine = hosts.machines[name]
    machine.mark()
    asked = hosts.ask(bench.dump, sort=sort)
    machine.wait_until_stuck(asked)
    lose(machine)
    bench.want_whole(what, asked.ran(), ask_whole(bench.dump.path, sort))
    done = [row for row in hosts.log() if row["Exitval"] == "0"]
    answered = sum(row["Host"] == name for row in done)
    bench.tests.want(f"{what}: it had answered one part", answered == 1 and len(done) == bench.dump.parts, hosts.log())
    machine.mend()
    hosts.start(name)


def lose_all(bench: Bench, hosts: Hosts, sort: str) -> None:
    """All are lost while they ask their second parts; then they are back, and the command is run again."""
    what = "GNU parallel, all hosts are killed"
    for machine in hosts.machines.values():
        machine.mark()
    asked = hosts.ask(bench.dump, sort=sort)
    for machine in hosts.machines.values():
        machine.wait_until_stuck(asked)
    for machine in hosts.machines.values():
        machine.lose()
    ran = asked.ran()
    bench.tests.want(f"{what}: that fails", ran.status != 0 and not ran.out, ran)
    done = [row for row in hosts.log() if row["Exitval"] == "0"]
    bench.tests.want(f"{what}: each had answered one part", len(done) == len(hosts.NAMES), hosts.log())
    for machine in hosts.machines.values():
        machine.mend()
    hosts.start(*hosts.NAMES)
    bench.want_whole(f"{what}, and the command is run again", hosts.ask(bench.dump, sort=sort).ran(), ask_whole(bench.dump.path, sort))
    numbers = [row["Seq"] for row in done]
    bench.tests.want(f"{what}: what was answered is not asked again", [row for row in hosts.log() if row["Seq"] in numbers] == done, hosts.log())


def run_all(tests: Tests, room: Path, size: int) -> int:
    """Asks by each engine, and gives how many were skipped."""
    dump = make_dump(room / "mixed.bson", size)
    bench = Bench(tests, room, ROOT / "examples", dump, make_faulty(dump))
    skipped = 0
    for name, ask in {"Dask": ask_by_dask, "GNU parallel": ask_by_parallel}.items():
        try:
            missing = ask(bench)
        except (Failed, OSError, subprocess.SubprocessError) as error:
            tests.want(name, False, error)
        else:
            if missing:
                print(f"skipped: {name}, for want of {missing}")
                skipped += 1
        end_all()
    return skipped


def interrupt(_number: int, _frame: FrameType | None) -> NoReturn:
    raise KeyboardInterrupt


def main() -> int:
    if len(sys.argv) > 2 or not all(it.isdecimal() for it in sys.argv[1:]):
        print(__doc__, file=sys.stderr)
        return 2
    ctypes.CDLL(None).prctl(PR_SET_CHILD_SUBREAPER, 1, 0, 0, 0)
    for number in ENDING:
        signal.signal(number, interrupt)
    tests = Tests()
    # The folder is there as long as any process.
    with tempfile.TemporaryDirectory() as room:
        try:
            skipped = run_all(tests, Path(room), int(*sys.argv[1:] or [20]) * 1_000_000)
        except KeyboardInterrupt:
            return 130
        finally:
            for number in ENDING:
                signal.signal(number, signal.SIG_IGN)
            end_all()
    if skipped:
        print(f"{skipped} skipped")
    print(f"{tests.passed} passed, {tests.failed} failed")
    return 1 if tests.failed else 0


if __name__ == "__main__":
    sys.exit(main())
