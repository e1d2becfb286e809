"""Where the log of a game goes: it is nowhere lost as long as one place takes it."""

import io
import os
import tempfile
from pathlib import Path
from typing import Any
from unittest import mock

from geesefuton.hosting.log_files import Kept, free_name, keep
from tests.package.cases import FolderCase

LOG = b"taclog 1\nend\n"


class Full(io.BytesIO):
    """A stream in memory that takes nothing."""

    def write(self, data: Any) -> int:
        raise OSError(28, "No space left on device")


class Keeping(FolderCase):
    def setUp(self) -> None:
        super().setUp()
        self.elsewhere = Path(self.enter(tempfile.TemporaryDirectory()))
        self.enter(mock.patch("tempfile.tempdir", str(self.elsewhere)))

    def files(self) -> "dict[str, bytes]":
        return {file.name: file.read_bytes() for folder in (self.folder, self.elsewhere)
                for file in folder.iterdir()}

    def test_a_name_that_is_free_is_taken_and_others_get_the_next_number(self) -> None:
        name = self.folder / "my.log"
        self.assertEqual(free_name(name), name)
        name.symlink_to(self.folder / "none")  # a link to nothing is there too
        self.assertEqual(free_name(name), self.folder / "my-2.log")
        for other in ("my-2.log", "my-4.log"):
            (self.folder / other).touch()
        self.assertEqual(free_name(name), self.folder / "my-3.log")

    def test_a_path_and_a_copy(self) -> None:
        target, beside = self.folder / "asked.log", self.folder / "my.log"
        target.write_bytes(b"an older and longer log of another game\n")
        self.assertEqual(keep(LOG, target, beside), Kept(None, target))
        self.assertEqual(self.files(), {"asked.log": LOG, "my.log": LOG})

    def test_a_copy_never_replaces_a_file(self) -> None:
        """Also where that has the output's content, and is not the output."""
        beside = self.folder / "my.log"
        beside.write_bytes(b"older\n")
        self.assertEqual(keep(LOG, None, beside), Kept("it is closed", self.folder / "my-2.log"))
        self.assertEqual(self.files(), {"my.log": b"older\n", "my-2.log": LOG})
        beside.write_bytes(b"")
        with (self.folder / "asked.log").open("wb") as output:
            self.assertEqual(keep(LOG, output, beside), Kept(None, self.folder / "my-3.log"))
        self.assertEqual(self.files(), {"asked.log": LOG, "my.log": b"", "my-2.log": LOG,
                                        "my-3.log": LOG})

    def test_the_output_itself_is_not_copied(self) -> None:
        target, other = self.folder / "my.log", self.folder / "other.log"
        target.touch()
        os.link(target, other)
        for beside in (target, other):
            self.assertEqual(keep(LOG, target, beside), Kept(None, target))
        self.assertEqual(self.files(), {"my.log": LOG, "other.log": LOG})
        with target.open("wb") as output:  # which stays open
            self.assertEqual(keep(LOG, output, target), Kept(None, None))
            output.write(b"more\n")
        self.assertEqual(target.read_bytes(), LOG + b"more\n")

    def test_no_file_stays_open(self) -> None:
        def free() -> int:
            number = os.dup(2)  # the least that is free
            os.close(number)
            return number

        least = free()
        keep(LOG, self.folder / "asked.log", self.folder / "my.log")
        keep(LOG, self.folder / "none" / "asked.log", None)
        keep(LOG, None, None)
        self.assertEqual((free(), len(self.files())), (least, 3))

    def test_a_stream_without_a_number_gets_all_at_once(self) -> None:
        raw = io.BytesIO()
        output = mock.Mock(wraps=raw, fileno=mock.Mock(side_effect=OSError))
        self.assertEqual(keep(LOG, output, self.folder / "my.log"),
                         Kept(None, self.folder / "my.log"))
        self.assertEqual((raw.getvalue(), self.files()), (LOG, {"my.log": LOG}))
        output.flush.assert_called_once_with()

    def test_a_fault_of_the_output_is_told_beside_the_copy(self) -> None:
        with open("/dev/full", "wb", buffering=0) as full:
            for target in (full, Full(), self.folder / "none" / "asked.log"):
                beside = self.folder / "my.log"
                kept = keep(LOG, target, beside)
                why = "No such file or directory" if isinstance(target, Path) else \
                    "No space left on device"
                self.assertEqual(kept, Kept(why, beside))
                self.assertEqual(self.files(), {"my.log": LOG})
                beside.unlink()

    def test_a_copy_that_is_not_whole_is_removed(self) -> None:
        real, count = os.write, []

        def write(number: int, data: bytes) -> int:
            """Takes the first bytes of the copy, and then finds the disk full."""
            count.append(number)
            if len(count) == 2:
                raise OSError(28, "No space left on device")
            return real(number, data[:4] if len(count) == 1 else data)

        with (self.folder / "asked.log").open("wb") as output, mock.patch("os.write", write):
            self.assertEqual(keep(LOG, output, self.folder / "my.log"), Kept(None, None))
        self.assertEqual(self.files(), {"asked.log": LOG})

    def test_a_log_that_nobody_asked_for_and_no_folder_takes(self) -> None:
        for target in (None, Full(), self.enter(open("/dev/full", "wb"))):
            kept = keep(LOG, target, self.folder / "none" / "my.log")
            assert kept.file is not None
            self.assertEqual((kept.file.parent, kept.file.suffix), (self.elsewhere, ".log"))
            self.assertIsNotNone(kept.fault)
            self.assertEqual(self.files(), {kept.file.name: LOG})
            kept.file.unlink()

    def test_a_log_that_its_output_has_is_not_written_there(self) -> None:
        for beside in (self.folder / "none" / "my.log", None):
            raw = io.BytesIO()
            self.assertEqual(keep(LOG, raw, beside), Kept(None, None))
            self.assertEqual((raw.getvalue(), self.files()), (LOG, {}))

    def test_a_path_that_takes_nothing_is_told_alone(self) -> None:
        nowhere = self.folder / "none" / "asked.log"
        for beside in (nowhere, None):
            self.assertEqual(keep(LOG, nowhere, beside), Kept("No such file or directory", None))
            self.assertEqual(self.files(), {})

    def test_no_place_at_all(self) -> None:
        full = self.enter(open("/dev/full", "wb"))
        for name in ("tempfile.mkstemp", "os.write"):
            for target, due in ((None, "it is closed"), (full, "the disk is full")):
                with mock.patch("os.write", side_effect=OSError(28, "the disk is full")), \
                        mock.patch(name, side_effect=OSError(28, "the disk is full")):
                    self.assertEqual(keep(LOG, target, None), Kept(due, None))
                self.assertEqual(self.files(), {})
