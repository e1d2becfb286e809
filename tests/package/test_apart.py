"""Tests of experiments/agent_host.py and agents.py, with agents that look around."""

import json
import os
import signal
import socket
import sys
import tempfile
import time
import unittest
from pathlib import Path
from typing import Any, Dict, List, Optional, Tuple
from unittest import mock

from geesefuton.experiments.agent_host import PORT
from geesefuton.experiments.agents import (AgentProcess, Agents, Job, Limits, folder_of, sandbox,
                                           why_not)
from geesefuton.experiments.entrants import Entrant, environment, read_entrants
from geesefuton.experiments.provenance import Agent, agent_of
from geesefuton.processes import Children

TAC = "/bin/true"
WHY_NOT = why_not()
# Prints what it can see and do, as JSON.
SPY = """
import ctypes, json, os, socket, sys
def tried(what):
    try:
        return what()
    except (OSError, MemoryError) as fault:
        return type(fault).__name__
def listed(folder):
    return sorted(os.listdir(folder))
def connected(port):
    with socket.create_connection(("127.0.0.1", port), 5) as link:
        link.sendall(b"hello\\n")
        return link.recv(10).decode()
def marked():
    places = {line.split()[4] for line in open("/proc/self/mountinfo")} | {"/etc", "/proc/sys"}
    return sorted(each for each in places if tried(lambda: os.utime(each, (1, 1))) is None)
def others():
    own = {"1", str(os.getpid()), str(os.getppid())}
    return len([name for name in listed("/proc") if name.isdigit() and name not in own])
given = json.loads(os.environ["SPY"])
print(json.dumps({
    "words": sys.argv[1:], "seed": os.environ.get("AGENT_SEED"),
    "run": tried(lambda: listed(given["run"])),
    "home": tried(lambda: listed(given["home"])),
    "own": tried(lambda: open(__file__).read(3)),
    "beside": tried(lambda: open(given["beside"]).read()),
    "written": tried(lambda: open(__file__, "a").close()),
    "temporary": tried(lambda: listed("/tmp") + listed("/dev/shm")),
    "left": tried(lambda: open("/tmp/spy-left", "w").write("x")),
    "memory": tried(lambda: len(bytearray(2 << 30)) if given["port"] != 1 else 0),
    "outside": tried(lambda: connected(given["port"])),
    "others": tried(others), "marked": tried(marked),
    "shared": [ctypes.CDLL(None).shmget(77, 4096, 0o600 | flag) >= 0 for flag in (0, 0o1000)],
    "key": ctypes.CDLL(None).syscall(248 if os.uname().machine == "x86_64" else 217, b"user",
                                     b"spy", b"x", 1, -3),
    "set": tried(lambda: open("/proc/sys/kernel/panic", "a").close()), "process": os.getpid(),
    "link": tried(lambda: connected(int(sys.argv[2]))),
}))
os.fork() or os.execvp("sleep", ["sleep", "600"])
sys.exit(3)
"""
# Tries what would tell of other games, or use more than its share. Prints the names of the faults.
CHEAT = """
import ctypes, errno, fcntl, json, os, socket
system = ctypes.CDLL(None, use_errno=True)
page = ctypes.create_string_buffer(8)
file = os.open(json.__file__, os.O_RDONLY)
def called(name, *words):
    return 0 if getattr(system, name)(*words) >= 0 else errno.errorcode[ctypes.get_errno()]
def tried(what, *words):
    try:
        return 0 * bool(what(*words))
    except OSError as fault:
        return errno.errorcode[fault.errno]
def many(what):
    while True:
        what() or os.execvp("sleep", ["sleep", "600"])
print(json.dumps({
    "mincore": called("mincore", 0, 4096, page), "fadvise": tried(os.posix_fadvise, file, 0, 1, 4),
    "no wait": tried(os.preadv, file, [bytearray(1)], 0, os.RWF_NOWAIT),
    "page out": called("madvise", 0, 4096, 21), "cachestat": called("syscall", 451, 0, 0, 0, 0),
    "readv": called("process_vm_readv", os.getpid(), None, 0, None, 0, 0),
    "trace": called("ptrace", 0, 0, 0, 0), "flock": [
        tried(fcntl.flock, os.open(json.__file__, os.O_RDONLY), 6) for _ in range(2)],
    "lease": tried(fcntl.fcntl, file, fcntl.F_SETLEASE, fcntl.F_RDLCK),
    "their lock": tried(fcntl.fcntl, file, 5, bytes(32)),
    "notes": tried(fcntl.fcntl, file, 1026, 1),
    "watch": called("inotify_add_watch", 0, b"/usr", 1), "ring": called("syscall", 425, 1, page),
    "vsock": tried(socket.socket, 40), "netlink": tried(socket.socket, 16, 3),
    "x32": called("syscall", 0x40000027),
    "own lock": tried(fcntl.lockf, os.open("/tmp/own", os.O_CREAT | os.O_RDWR), fcntl.LOCK_EX),
    "own link": tried(socket.socketpair), "six": tried(socket.socket, socket.AF_INET6),
    "folder": sorted(os.listdir(os.path.dirname(__file__))),
    "files": tried(many, lambda: os.open("/dev/null", os.O_RDONLY)),
    "processes": tried(many, os.fork)}))
"""
# What it comes to: calls that are missing, limits, and what a program may need.
MISSING = ("mincore", "fadvise", "page out", "cachestat", "readv", "trace", "lease", "their lock",
           "notes", "watch", "ring", "vsock", "netlink", "x32")
FOREIGN = """
import ctypes, mmap
code = mmap.mmap(-1, 4096, prot=7)
code.write(bytes.fromhex("b814000000cd80c3"))  # getpid as a call of 32 bits
ctypes.CFUNCTYPE(ctypes.c_int)(ctypes.addressof(ctypes.c_char.from_buffer(code)))()
"""


# The folder in /tmp that each sandbox shows, if the Python that runs the tests is installed there.
HELD = {Path(sys.prefix).parts[2]} if sys.prefix.startswith("/tmp/") else set()


class Places(unittest.TestCase):
    """A folder of a run, and one with two agents."""

    def setUp(self) -> None:
        folder = tempfile.TemporaryDirectory(dir="/var/tmp")
        self.addCleanup(folder.cleanup)
        place = Path(folder.name).resolve()
        self.run_folder, self.own = place / "run", place / "agents"
        for each in (self.run_folder, self.own):
            each.mkdir()
        (self.run_folder / "1.game").write_text("secret")
        (self.own / "spy.py").write_text(SPY)
        (self.own / "other.py").write_text("import sys\nsys.exit(len(sys.argv))\n")
        (self.own / "data.txt").write_text("data")
        self.spy, self.other = read_entrants([str(self.own / "spy.py"), str(self.own / "other.py")])
        self.children = Children()
        self.addCleanup(self.children.close)
        self.agents = Agents(self.children)
        self.addCleanup(self.agents.close)
        tac = mock.patch.dict(os.environ, {"TAC": TAC})
        tac.start()
        self.addCleanup(tac.stop)

    def seated(self, *entrants: Entrant, limits: Optional[Limits] = None) -> List[AgentProcess]:
        """The processes of agents, in one game after another."""
        sandboxes = {each: sandbox(each, agent_of(each), self.children.folder())
                     for each in entrants if limits}
        job = Job("1.0", self.run_folder / "games", "", entrants, (), (), (), limits, sandboxes)
        return self.agents.seated(job)

    def variables(self, port: int, **more: str) -> Dict[str, str]:
        """The environment of an agent that is told where to look, and a port of this machine."""
        where = {"run": str(self.run_folder), "home": str(Path.home()), "port": port,
                 "beside": str(self.own / "data.txt")}
        return {**environment(TAC, Path("/tmp")), "SPY": json.dumps(where), **more}

    def play(self, process: AgentProcess, listener: Optional[socket.socket] = None,
             port: int = PORT, outside: int = 1) -> Tuple[int, Dict[str, Any]]:
        """Runs the spy in a game at a listener, or in a sandbox. Its status, and what it saw."""
        with tempfile.TemporaryFile() as out:
            limits = {"FSIZE": 1 << 20, **({} if listener else Limits().by_name())}
            process.begin(["localhost", str(port), "red"], self.variables(outside, AGENT_SEED="5"),
                          limits, out)
            listener = listener or process.listener()
            listener.settimeout(60)
            link, _ = listener.accept()
            with link, listener:
                self.assertEqual(link.recv(10), b"hello\n")
                link.sendall(b"hi")
                status = waited(process)
            out.seek(0)
            return status, json.loads(out.read())


def waited(process: AgentProcess) -> int:
    """The status of an agent's process, once it has ended."""
    while True:
        status = process.poll()
        if status is not None:
            return status
        time.sleep(0.005)


class Shared(Places):
    """Agents that are not kept apart."""

    def test_an_agent_is_run_again_and_again_by_one_process(self) -> None:
        process, = self.seated(self.spy)
        for _ in range(2):
            with socket.create_server(("127.0.0.1", 0)) as listener:
                status, seen = self.play(process, listener, listener.getsockname()[1])
            self.assertEqual((status, seen["words"][2], seen["seed"], seen["own"], seen["link"]),
                             (3, "red", "5", SPY[:3], "hi"))

    def test_an_agent_that_does_not_end_is_killed_with_all_that_it_has_started(self) -> None:
        (self.own / "spy.py").write_text("import os, time\nif os.fork() == 0:\n"
                                         "    time.sleep(600)\nprint(os.getpgid(0), flush=True)\n"
                                         "time.sleep(600)\n")
        process, = self.seated(self.spy)
        reading, writing = os.pipe()
        with open(reading, "rb") as printed, open(writing, "wb") as out:
            process.begin([], self.variables(1), {}, out)
            group = int(printed.readline())
        self.assertIsNone(process.poll())
        self.assertEqual(process.end(), -9)
        with self.assertRaises(ProcessLookupError):
            while True:  # until the last one is waited for
                os.killpg(group, 0)
                time.sleep(0.005)

    def test_a_program_that_is_no_python_file_is_executed(self) -> None:
        entrant, = read_entrants(["sh -c 'exit 7'"])
        process, = self.seated(entrant)
        with tempfile.TemporaryFile() as out:
            process.begin(["localhost", "1", "red"], self.variables(1), {}, out)
            self.assertEqual(waited(process), 7)

    def test_two_seats_of_an_agent_have_two_processes_and_the_next_game_the_same(self) -> None:
        first = self.seated(self.spy, self.other, self.spy)
        self.assertEqual(len(set(first)), 3)
        self.assertEqual(self.seated(self.spy, self.other, self.spy), first)

    def test_a_host_that_was_killed_counts_as_killed_and_is_replaced(self) -> None:
        (self.own / "spy.py").write_text("import os, time\nprint(os.getppid(), flush=True)\n"
                                         "time.sleep(600)\n")
        process, = self.seated(self.spy)
        reading, writing = os.pipe()
        with open(reading, "rb") as printed, open(writing, "wb") as out:
            process.begin([], self.variables(1), {}, out)
            host = int(printed.readline())
        self.assertEqual(host, process._host.pid)  # so that no other process is killed
        os.kill(host, signal.SIGKILL)
        self.assertEqual(waited(process), -9)
        self.assertNotEqual(self.seated(self.spy), [process])


@unittest.skipIf(WHY_NOT, WHY_NOT)
class Apart(Places):
    """Agents that are kept apart."""

    def test_an_agent_sees_its_folder_and_its_link_and_nothing_else(self) -> None:
        process, = self.seated(self.spy, limits=Limits())
        with socket.create_server(("127.0.0.1", 0)) as outside:
            for _ in range(2):  # nothing is left of the first game in the second
                status, seen = self.play(process, outside=outside.getsockname()[1])
                self.assertEqual(status, 3)
                self.assertEqual(
                    {name: seen[name] for name in ("run", "own", "beside", "temporary", "memory",
                                                   "outside", "process", "others", "link",
                                                   "marked", "shared", "set", "key")},
                    {"run": "FileNotFoundError", "own": SPY[:3], "beside": "data",
                     "temporary": sorted(HELD),
                     "memory": "MemoryError", "outside": "ConnectionRefusedError",
                     "process": 2, "others": 0, "link": "hi", "marked": ["/dev/shm", "/tmp"],
                     "shared": [False, True], "set": "OSError", "key": -1})
                self.assertNotIn(".bashrc", seen["home"])
                self.assertIn("Error", str(seen["written"]))

    def test_an_agent_lacks_the_calls_that_tell_of_others_and_has_limits(self) -> None:
        (self.own / "spy.py").write_text(CHEAT)
        for folder in (".hidden", "__pycache__", "below/.hidden"):
            (self.own / folder).mkdir(parents=True)
            (self.own / folder / "code.py").touch()
        process, = self.seated(self.spy, limits=Limits())
        with tempfile.TemporaryFile() as out:
            process.begin([], self.variables(1), Limits().by_name(), out)
            process.listener().close()
            self.assertEqual(waited(process), 0)
            out.seek(0)
            self.assertEqual(json.loads(out.read()), {
                **dict.fromkeys(MISSING, "ENOSYS"), "no wait": "ENOTSUP", "flock": [0, 0],
                "own lock": 0, "own link": 0, "six": 0, "files": "EMFILE", "processes": "EAGAIN",
                "folder": ["data.txt", "other.py", "spy.py"]})

    @unittest.skipUnless(os.uname().machine == "x86_64", "it has calls in one form alone")
    def test_a_call_in_the_form_of_another_machine_kills_its_process(self) -> None:
        (self.own / "spy.py").write_text(FOREIGN)
        process, = self.seated(self.spy, limits=Limits())
        with tempfile.TemporaryFile() as out:
            process.begin([], self.variables(1), {}, out)
            process.listener().close()
            self.assertEqual(waited(process), 128 + signal.SIGSYS)

    def test_an_agent_that_ends_all_that_it_can_has_only_crashed(self) -> None:
        (self.own / "spy.py").write_text("import os\nos.fork()\nfor one in (1, -1, os.getpid()):\n"
                                         "    os.kill(one, 9)\n")
        process, = self.seated(self.spy, limits=Limits())
        for _ in range(2):
            with tempfile.TemporaryFile() as out:
                process.begin([], self.variables(1), {}, out)
                process.listener().close()
                self.assertEqual(waited(process), 128 + signal.SIGKILL)

    def test_an_agent_in_a_folder_for_temporary_files_sees_its_own(self) -> None:
        with tempfile.TemporaryDirectory(dir="/tmp") as place:
            file = Path(place, "my team", "agent.py")
            file.parent.mkdir()
            file.write_text("import os, sys\nsys.exit(len(os.listdir('/tmp')) + 10 * len("
                            "os.listdir(os.path.dirname(__file__))))\n")
            process, = self.seated(*read_entrants([str(file)]), limits=Limits())
            with tempfile.TemporaryFile() as out:
                process.begin([], self.variables(1), {}, out)
                process.listener().close()
                self.assertEqual(waited(process), 10 + len(HELD | {Path(place).name}))

    def test_an_agent_that_does_not_end_is_killed(self) -> None:
        (self.own / "spy.py").write_text("import os, time\nprint(os.fork(), flush=True)\n"
                                         "os.setsid()\ntime.sleep(600)\n")
        process, = self.seated(self.spy, limits=Limits())
        reading, writing = os.pipe()
        with open(reading, "rb") as printed:
            with open(writing, "wb") as out:
                process.begin([], self.variables(1), {}, out)
            process.listener().close()
            printed.readline()
            self.assertEqual(process.end(), 128 + signal.SIGKILL)
            printed.read()  # until no process has the other end

    def test_agents_do_not_see_one_another(self) -> None:
        (self.own / "other.py").write_text("import time\nprint(1, flush=True)\n"
                                           "time.sleep(600)\n")
        one, two = self.seated(self.other, self.spy, limits=Limits())
        reading, writing = os.pipe()
        with open(reading, "rb") as printed, open(writing, "wb") as out:
            one.begin([], self.variables(1), {}, out)
            self.assertEqual(printed.readline(), b"1\n")
            one.listener().close()
            status, seen = self.play(two)
            self.assertEqual((status, seen["others"]), (3, 0))
            self.assertIsNone(one.poll())
            one.end()

    def test_a_folder_that_holds_the_run_or_the_home_folder_is_refused(self) -> None:
        for secret in ([self.own], [self.own / "below"], [self.own.parent, self.own / "spy.py"]):
            with self.assertRaisesRegex(ValueError, "put it into a folder of its own"):
                folder_of(self.spy, secret)
        self.assertEqual(folder_of(self.spy, [self.run_folder]), self.own)

    def test_a_sandbox_that_does_not_start_is_told_in_a_line(self) -> None:
        missing = Entrant("gone", (sys.executable, "/nowhere/gone.py"), "gone", "gone")
        words = ["--ro-bind", "/nowhere", "/nowhere",
                 *sandbox(missing, Agent("", "", (), {}), Path())]
        process = AgentProcess(self.children, missing, dict(os.environ), words)
        self.addCleanup(process.close)
        with self.assertRaisesRegex(OSError, "the process of gone did not start: .*nowhere"):
            process.wait()
