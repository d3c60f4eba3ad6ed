"""Where the shared library is looked for."""

from __future__ import annotations

import os
import subprocess
import sys
import tempfile
import unittest
from pathlib import Path
from unittest import mock

from trowelheath import LibraryNotFound, _library, is_proved

SOURCE = Path(_library.__file__).resolve().parent.parent


class Finding(unittest.TestCase):
    def test_the_environment_names_the_file(self) -> None:
        with mock.patch.dict(os.environ, {_library.ENVIRONMENT_VARIABLE: "some/lib.so"}):
            self.assertEqual(_library._places(), [os.path.abspath("some/lib.so")])

    def test_without_it_the_loader_looks(self) -> None:
        with mock.patch.dict(os.environ):
            os.environ.pop(_library.ENVIRONMENT_VARIABLE, None)
            self.assertEqual(_library._places()[-2:], ["libtrowelheath.so", "libgrb_c.so"])

    def test_a_file_in_the_package_comes_first(self) -> None:
        with tempfile.TemporaryDirectory() as folder, mock.patch.dict(os.environ):
            inside = Path(folder).resolve() / "libtrowelheath.so"
            inside.write_bytes(b"")
            with mock.patch.object(_library, "__file__", str(Path(folder) / "_library.py")):
                os.environ.pop(_library.ENVIRONMENT_VARIABLE, None)
                self.assertEqual(_library._places()[0], str(inside))
                os.environ[_library.ENVIRONMENT_VARIABLE] = "some/lib.so"
                self.assertEqual(_library._places(), [str(inside), os.path.abspath("some/lib.so")])

    def test_a_file_that_is_not_there_is_told(self) -> None:
        with self.assertRaises(LibraryNotFound) as caught:
            _library._open_first(["/no/such/lib.so"])
        self.assertIn("/no/such/lib.so", str(caught.exception))
        self.assertIn("TROWELHEATH_LIBRARY", str(caught.exception))
        self.assertIsInstance(caught.exception, OSError)

    def test_a_library_without_the_functions_is_told(self) -> None:
        with mock.patch.object(_library, "_places", return_value=[None]):
            with self.assertRaisesRegex(LibraryNotFound, "has no function trb_open"):
                _library.load.__wrapped__()

    def test_a_library_of_another_version_is_told(self) -> None:
        library = mock.Mock(_name="other.so")
        library.trb_version.return_value = 20_103
        with self.assertRaisesRegex(LibraryNotFound, r"other.so has the version 2.1.3, and the package 1\.0\.0"):
            _library._require_version(library)
        library.trb_version.return_value = 10_000
        _library._require_version(library)

    def test_the_library_says_whether_it_is_proved(self) -> None:
        wanted = os.environ.get("TROWELHEATH_PROVED") != "no"
        self.assertIs(is_proved(), wanted, "TROWELHEATH_PROVED is no where the library is not proved")

    def test_the_package_can_be_imported_without_it(self) -> None:
        program = (
            "import trowelheath\n"
            "try:\n"
            "    trowelheath.Store()\n"
            "except trowelheath.LibraryNotFound as fault:\n"
            "    print('/no/such/lib.so' in str(fault))\n"
        )
        environment = {**os.environ, _library.ENVIRONMENT_VARIABLE: "/no/such/lib.so", "PYTHONPATH": str(SOURCE)}
        ran = subprocess.run([sys.executable, "-c", program], env=environment, stdout=subprocess.PIPE, check=True)
        self.assertEqual(ran.stdout, b"True\n")

    def test_the_handle_is_as_c_has_it(self) -> None:
        self.assertEqual(_library.ctypes.sizeof(_library.PassHandle), 16)
        self.assertEqual(_library.ctypes.alignment(_library.PassHandle), 8)
        self.assertEqual(_library.ctypes.sizeof(_library.FactsRecord), 28)


if __name__ == "__main__":
    unittest.main()
