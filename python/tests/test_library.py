import os
import shutil
import subprocess
import sys
import tempfile
import unittest
from pathlib import Path

import velejume
from velejume._library import library

MODULE = Path(velejume.__file__).parent
SAY = "import velejume, velejume._library as it; print(it.library._name, velejume.phase(velejume.block_of('0:7')).cost)"


def run(module, **variables):
    """What a fresh Python says that imports the module from that folder, with these variables: its status, what it prints, its complaint."""
    environment = {name: value for name, value in os.environ.items() if name != "VELEJUME_LIBRARY"}
    environment.update({name: str(value) for name, value in variables.items()})
    environment["PYTHONPATH"] = str(module.parent)
    environment["PYTHONDONTWRITEBYTECODE"] = "1"
    done = subprocess.run([sys.executable, "-c", SAY], env=environment, cwd="/", stdout=subprocess.PIPE, stderr=subprocess.PIPE, text=True)
    return done.returncode, done.stdout.strip(), done.stderr


class Places(unittest.TestCase):
    def setUp(self):
        room = tempfile.TemporaryDirectory()
        self.addCleanup(room.cleanup)
        self.room = Path(room.name).resolve()
        self.module = self.room / "somewhere" / "else" / "velejume"
        shutil.copytree(MODULE, self.module, ignore=shutil.ignore_patterns("*.so", "__pycache__"))

    def test_beside_the_module(self):
        shutil.copy(library._name, self.module / "libvelejume.so")
        self.assertEqual(run(self.module)[:2], (0, f"{self.module / 'libvelejume.so'} 0"))

    def test_in_the_repository(self):
        shared = self.room / "somewhere" / "target" / "shared"
        shared.mkdir(parents=True)
        shutil.copy(library._name, shared / "libvelejume.so")
        self.assertEqual(run(self.module)[:2], (0, f"{shared / 'libvelejume.so'} 0"))

    def test_by_the_variable(self):
        named = self.room / "named.so"
        shutil.copy(library._name, named)
        shutil.copy(library._name, self.module / "libvelejume.so")
        self.assertEqual(run(self.module, VELEJUME_LIBRARY=named)[:2], (0, f"{named} 0"))

    @unittest.skipUnless(shutil.which("ld") and shutil.which("objdump"), "Python asks ld and objdump for libraries outside the system's folders")
    def test_in_the_system(self):
        folder = self.room / "folder"
        folder.mkdir()
        for name in ("libvelejume.so", "libvelejume.so.0"):
            shutil.copy(library._name, folder / name)
        self.assertEqual(run(self.module, LD_LIBRARY_PATH=folder)[:2], (0, "libvelejume.so.0 0"))

    def test_nowhere(self):
        status, printed, complaint = run(self.module)
        if status == 0:
            self.skipTest(f"the system has {printed}")
        self.assertIn("ImportError: there is no libvelejume.so: `make shared` makes it, VELEJUME_LIBRARY says where it is", complaint)
        self.assertIn(str(self.module / "libvelejume.so"), complaint)

    def test_not_the_library(self):
        empty = self.room / "empty.so"
        empty.write_bytes(b"")
        for wrong in (empty, self.room / "none.so", "libc.so.6"):
            with self.subTest(str(wrong)):
                status, _, complaint = run(self.module, VELEJUME_LIBRARY=wrong)
                self.assertNotEqual(status, 0)
                self.assertIn(f"ImportError: {wrong} is no velejume library for this machine", complaint)


if __name__ == "__main__":
    unittest.main()
