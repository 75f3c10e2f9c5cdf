"""Checks each record of a folder by piperun, with a test for each: python3 -m unittest test_records.py

RECORDS is the folder, without it records beside this file. PIPERUN is the program, without it piperun of the search path.
"""
import os
import pathlib
import re
import subprocess
import unittest

FOLDER = pathlib.Path(os.environ.get("RECORDS", pathlib.Path(__file__).resolve().parent / "records"))
PIPERUN = os.environ.get("PIPERUN", "piperun")


class Records(unittest.TestCase):
    """A test for each script of the folder is added below."""

    def check(self, script: pathlib.Path) -> None:
        """Fails with the lines that differ, each behind the name of the file."""
        done = subprocess.run([PIPERUN, "--check", "--all", script], capture_output=True, text=True, check=False)
        if done.returncode != 0:
            self.fail(f"{script}\n" + re.sub(r"^line (?=\d+$)", f"{script}:", done.stdout, flags=re.MULTILINE) + done.stderr)

    def test_there_are_records(self) -> None:
        self.assertTrue(list(FOLDER.glob("*.script")), f"there is no script in {FOLDER}")


for record in sorted(FOLDER.glob("*.script")):
    setattr(Records, f"test_{record.stem}", lambda self, script=record: self.check(script))

if __name__ == "__main__":
    unittest.main()
