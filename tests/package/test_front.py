"""The command `geesefuton`, and what it says of the program and of this machine."""

import contextlib
import io
import json
import os
import re
import shutil
import socket
import subprocess
import sys
import unittest
from typing import Any, List, Tuple
from unittest import mock

import geesefuton
from geesefuton import arguments, doctor, front, program
from geesefuton.processes import free_port

from .cases import Case, fake_program
from .helpers import PACKAGE, TOP

sys.path.insert(0, str(TOP / "packaging"))

import debian  # noqa: E402

# A toolchain that builds a program if there is one.
RT = """#!/bin/sh
[ "$*" = "run -- make 42" ] || exit 9
echo proving
[ -e built ] || { echo 'no proof of main'; exit 3; }
mkdir out && mv built out/tacd
"""


class FrontCase(Case):
    """A command `./geesefuton` that is run from another folder, by a symbolic link."""

    def setUp(self) -> None:
        super().setUp()
        self.link = self.folder / "linked"
        self.link.symlink_to(TOP / "geesefuton")

    def check(self, due: Tuple[int, str, str], *words: str, **more: str) -> None:
        """Runs it, where `more` are further variables: its status, its output and its errors."""
        kept = {key: value for key, value in os.environ.items() if key not in ("TAC", "PYTHONPATH")}
        done = subprocess.run([self.link, *words], cwd=self.folder, text=True, check=False,
                              stdin=subprocess.DEVNULL, stdout=subprocess.PIPE,
                              stderr=subprocess.PIPE, env={**kept, **more})
        self.assertEqual((done.returncode, done.stdout, done.stderr), due)

    def refused(self, status: int, told: str, *words: str, **more: str) -> None:
        """It ends with a status and one line."""
        self.check((status, "", told + "\n"), *words, **more)


class Front(FrontCase):
    """Parts by their names."""

    def test_tac_passes_words_output_and_status_on(self) -> None:
        tac = fake_program(self.folder, 'echo "$#:$1:$2"; echo told >&2; exit 9')
        self.check((9, "2:audit:--help\n", "told\n"), "tac", "audit", "--help", TAC=tac)

    def test_a_part_runs_also_where_a_file_is_called_as_a_module(self) -> None:
        self.write("argparse.py", "raise SystemExit('what stands here is no module')")
        self.refused(2, "doctor: unrecognized arguments: --fix (see --help)", "doctor", "--fix")

    def test_programs_that_are_none(self) -> None:
        file = self.folder / "tac"
        file.write_bytes(b"\x7fELF\x02\x01\x01" + bytes(57))
        file.chmod(0o755)
        for tac, told in (
                (file, f"{file} is not a program for this system: tac needs x86-64 Linux; set TAC "
                       "to its file"),
                ("/nowhere/tac", "there is no program /nowhere/tac: set TAC to the file of tac")):
            self.refused(1, f"geesefuton: {told}", "tac", "make", "1", TAC=str(tac))

    def test_a_name_that_is_no_part(self) -> None:
        for name, meant in (("lobbby", "; `geesefuton lobby`?"), ("qwxz", ""),
                            ("make", "; `geesefuton tac make`?"), ("", "")):
            self.refused(2, f"geesefuton: there is no part {name!r}{meant} (--help lists them)",
                         name)

    def test_words_that_are_no_command_of_the_program_do_not_run_it(self) -> None:
        tac = fake_program(self.folder, "exit 9")
        for words, meant in ((["lobby"], "; `geesefuton lobby`?"), ([], ""),
                             (["mak"], "; `geesefuton tac make`?")):
            self.refused(1, f"geesefuton: tac has no command {''.join(words)!r}{meant} (it has "
                         f"{', '.join(front.COMMANDS)})", "tac", *words, TAC=tac)

    def test_python_that_is_missing_or_too_old(self) -> None:
        for name in ("dirname", "readlink"):
            (self.folder / name).symlink_to(f"/usr/bin/{name}")
        for is_there in (False, True):
            if is_there:
                self.write("python3", "#!/bin/sh\nexit 1\n").chmod(0o755)
            self.refused(1, "geesefuton: it needs Python 3.9 or later (sudo apt install python3); "
                         "the program tac does not need Python", "doctor", PATH=str(self.folder))


class Helps(unittest.TestCase):
    """Each fits a screen of 80 columns, and of 24 lines but for two that have thirty options."""

    def help_of(self, *words: str) -> List[str]:
        """The lines of a help."""
        out = io.StringIO()
        with mock.patch.object(sys, "argv", ["geesefuton", *words]), \
                mock.patch.dict(os.environ, {"COLUMNS": "80"}), contextlib.redirect_stdout(out), \
                mock.patch.object(arguments.Parser, "before", ""), \
                mock.patch("geesefuton.processes.stop_on_signals"):
            self.assertEqual(front.main(), 0)
        return out.getvalue().splitlines()

    def test_that_of_the_command(self) -> None:
        for words in ((), ("-h",), ("--help",), ("help",)):
            lines = self.help_of(*words)
            self.assertLessEqual(len(lines), 24)
            self.assertLessEqual(max(map(len, lines)), 80)
            self.assertEqual([line.split()[0] for line in lines if line.startswith("  ")],
                             [*front.PARTS])

    def test_that_of_each_part(self) -> None:
        for name in front.PARTS.keys() - {"tac"}:
            with self.subTest(name=name):
                lines = self.help_of(name, "--help")
                self.assertRegex(lines[0], f"^usage: geesefuton {name}( |$)")
                self.assertLessEqual(len(lines), 41 if name in ("tournament", "profiles") else 24)
                self.assertLessEqual(max(map(len, lines)), 80)
                # Each option has one line.
                self.assertEqual([line for line in lines if line.startswith(13 * " ")], [])


class Texts(unittest.TestCase):
    """What a release makes of the table of parts."""

    def test_the_man_page_and_the_completion(self) -> None:
        page = debian.man_page((TOP / "packaging" / "geesefuton.1").read_text())
        self.assertEqual(re.findall(r"(?m)^\.B geesefuton ([a-z]+)", page), [*front.PARTS])
        text = debian.completion((TOP / "packaging" / "completion.bash").read_text())
        self.assertEqual([words.split() for words in re.findall('-W "(.*?)"', text)],
                         [[*front.PARTS, "--help"], [*front.COMMANDS]])

    def test_the_commands_are_those_of_the_program(self) -> None:
        specs = TOP / "crates" / "tac_commands" / "specs"
        text = "".join((specs / f"{name}.antt").read_text() for name in ("Commands", "Services"))
        found = re.findall(r'bytes_eq word \(codes "([a-z]+)"', text)
        self.assertEqual(sorted(set(found)), [*front.COMMANDS])

    def test_there_is_one_script(self) -> None:
        settings = (PACKAGE / "pyproject.toml").read_text()
        self.assertEqual(settings.split("[project.scripts]\n")[1].split("\n\n")[0],
                         'geesefuton = "geesefuton.front:main"')


class Building(FrontCase):
    """`geesefuton tac` in a clone whose program is not built."""

    def setUp(self) -> None:
        super().setUp()
        clone = self.folder / "clone"
        self.crate = clone / "crates" / "tacd"
        self.crate.mkdir(parents=True)
        shutil.copytree(PACKAGE / "geesefuton", clone / "python" / "geesefuton",
                        ignore=shutil.ignore_patterns("__pycache__", "bin"))
        self.link.unlink()
        self.link.symlink_to(shutil.copy(TOP / "geesefuton", clone))
        self.write("rt", RT)
        self.path = f"{self.folder}{os.pathsep}{os.environ['PATH']}"

    def test_it_is_built_once_with_a_line_that_says_so(self) -> None:
        (self.folder / "rt").chmod(0o755)
        os.rename(fake_program(self.crate, 'echo "$@"'), self.crate / "built")
        for told in (f"geesefuton: {front.BUILDING}\n", ""):
            self.check((0, "make 7\n", told), "tac", "make", "7", PATH=self.path)

    def test_a_build_that_fails(self) -> None:
        (self.folder / "rt").chmod(0o755)
        self.refused(1, f"geesefuton: {front.BUILDING}\ngeesefuton: {front.BUILD} ended with 3: no "
                     "proof of main", "tac", "make", "7", PATH=self.path)

    def test_without_a_toolchain_it_says_what_to_do(self) -> None:
        file = self.crate / "out" / "tacd"
        self.refused(1, f"geesefuton: there is no program {file}: install the toolchain, Rattle, "
                     "whose command rt builds it, or set TAC to the file of tac", "tac", "make",
                     "7", PATH=os.defpath)


class Doctor(Case):
    """What is installed, and what a machine lacks."""

    def setUp(self) -> None:
        super().setUp()
        self.tac = self.use_program("echo 'tac 1'")

    def released(self, digest: str) -> None:
        """Lets the package be of a release whose program has this hash."""
        self.patch("doctor.PROVENANCE", self.write("provenance.json", json.dumps({
            "commit": "c0ffee", "kit": "kit", "sha256": digest, "program": "proved and built"})))

    def tell(self, *, is_doctor: bool) -> Tuple[int, str]:
        """What `doctor` or `version` prints, and its status."""
        out = io.StringIO()
        words = ["doctor" if is_doctor else "version"]
        with mock.patch.object(sys, "argv", words), contextlib.redirect_stdout(out), \
                mock.patch.object(doctor, "Output", lambda number: mock.Mock(write=out.write)), \
                mock.patch("geesefuton.processes.stop_on_signals"):
            status = doctor.main() if is_doctor else doctor.version()
        return status, out.getvalue()

    def test_version_knows_the_released_program(self) -> None:
        self.released(doctor.hash_of(self.tac))
        status, text = self.tell(is_doctor=False)
        self.assertEqual(status, 0)
        for line in (f"geesefuton {geesefuton.__version__}", f"sha256 {doctor.hash_of(self.tac)}",
                     "as released, proved and built at commit c0ffee with kit"):
            self.assertIn(line + "\n", text)

    def test_a_hash_that_differs(self) -> None:
        self.released("0" * 64)
        self.assertIn("not the released one, whose hash is 000", self.tell(is_doctor=False)[1])
        status, text = self.tell(is_doctor=True)
        self.assertEqual(status, 1)
        self.assertIn("FIX  hash: differs from the released one: unpack or install it again", text)

    def test_what_doctor_tells_of_the_program(self) -> None:
        self.released(doctor.hash_of(self.tac))
        text = self.tell(is_doctor=True)[1]
        self.assertIn("ok   program runs: yes\n", text)
        self.assertIn("ok   hash: as released\n", text)
        self.use_program("echo something")
        self.assertIn("FIX  program runs: no: it makes no game; is it GNU tac?",
                      self.tell(is_doctor=True)[1])

    def test_the_status_is_0_only_if_nothing_is_missing(self) -> None:
        for findings, due in (([(True, "a"), (True, "b")], (0, "ok   a\nok   b\n")),
                              ([(False, "a"), (True, "b")], (1, "FIX  a\nok   b\n"))):
            looks = [lambda found=found: found for found in findings]
            with mock.patch.object(doctor, "FINDINGS", looks):
                self.assertEqual(self.tell(is_doctor=True), due)

    def test_what_each_look_finds(self) -> None:
        with socket.create_server(("", 0)) as taken, \
                mock.patch.object(doctor, "PORT", taken.getsockname()[1]):
            self.check(doctor._ports, False, f"port {doctor.PORT}: Address already in use; use "
                       "another, such as ")
        with mock.patch.object(doctor, "PORT", free_port()):
            self.check(doctor._ports, True, f"port {doctor.PORT}: free")
        for name, number, is_due, told in (
                ("glibc", "2.33", False, "glibc 2.33; the program needs glibc 2.34 or later"),
                ("glibc", "2.34", True, ""), ("glibc", "2.100", True, ""),
                ("glibc", "3.1", True, ""), ("", "", False, ""), ("musl", "9.9", False, "")):
            with mock.patch("platform.libc_ver", lambda: (name, number)):
                self.check(doctor._library, is_due, f"C library: {told}")
        for soft, is_due in ((255, False), (256, True), (-1, True)):
            with mock.patch("resource.getrlimit", return_value=(soft, soft)):
                self.check(doctor._files, is_due, f"open files: {soft} at most")
        for system, machine, count in (("Linux", "x86_64", 10), ("Linux", "aarch64", 4),
                                       ("Darwin", "x86_64", 4)):
            with mock.patch("platform.system", return_value=system), \
                    mock.patch("platform.machine", return_value=machine):
                text = self.tell(is_doctor=True)[1]
            self.assertEqual((text.count("\n"), "agents run here" in text), (count, count == 4))
            self.assertIn(f"ok   platform: {system} {machine}", text)
        for version, is_due in (((3, 8, 9), False), ((3, 9), True), ((4, 0), True)):
            with mock.patch("sys.version_info", version):
                self.check(doctor._python, is_due, "Python: ")
        for may_write in (False, True):
            with mock.patch("os.access", return_value=may_write):
                self.check(doctor._folder, may_write,
                           f"this folder: {'' if may_write else 'not '}writable")
        with mock.patch("socket.socket.connect", side_effect=OSError), \
                mock.patch("socket.getaddrinfo", side_effect=OSError):
            self.check(doctor._addresses, True, "addresses: none but this machine's own")
        with mock.patch.dict(os.environ, {"TAC": str(self.folder / "none")}):
            for look in (doctor._file, doctor._runs):
                self.check(look, False, "program")
            self.check(doctor._hash, True, "hash: nothing to compare with")
            self.released("0" * 64)
            self.check(doctor._hash, False, "hash: there is no program")

    def check(self, look: Any, is_due: bool, text: str) -> None:
        """What one look finds: whether all is as it should be, and the beginning of its line."""
        found, told = look()
        self.assertEqual((found, told[:len(text)]), (is_due, text))

    def test_a_program_that_does_not_start(self) -> None:
        self.use_program("exit 1")
        with self.assertRaisesRegex(program.ProgramError, "did not start: it needs glibc 2.34"):
            program.make(1)
