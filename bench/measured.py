"""What a program takes, measured by a parent that takes less than a megabyte itself."""
import os
import pathlib
import subprocess

SOURCE = pathlib.Path(__file__).resolve().parent / "peak.c"


class Measure:
    """Runs programs; what it needs for that is in a folder."""

    def __init__(self, folder):
        self.parent = f"{folder}/peak"
        self.report = f"{folder}/report"
        subprocess.run(["cc", "-O2", "-o", self.parent, SOURCE], check=True)

    def run(self, words, table, document):
        """The exit status of a program that reads a table and writes a document, or below 0 the signal that ended it; its seconds of
        processor time; and the kilobytes of memory that it took at most."""
        with open(table, "rb") as source, open(document, "wb") as sink:
            subprocess.run([self.parent, self.report, *words], stdin=source, stdout=sink, check=True)
        status, seconds, kilobytes = pathlib.Path(self.report).read_text().split()
        return os.waitstatus_to_exitcode(int(status)), float(seconds), int(kilobytes)
