"""Copies of the model, queried in one process each."""
import os
import pickle
import subprocess
import sys

from differ.running import Program, Result


class Copy(Program):
    """A copy of the model in a directory, queried through its `serving.py`."""

    def __init__(self, top: str):
        self.process = subprocess.Popen([sys.executable, os.path.join(top, 'differ', 'serving.py')], stdin=subprocess.PIPE,
                                        stdout=subprocess.PIPE)

    def close(self) -> None:
        self.process.communicate()

    def run(self, graph: bytes, lines: 'list[bytes]', strict=False) -> Result:
        pickle.dump((graph, lines, strict), self.process.stdin)
        self.process.stdin.flush()
        return Result(*pickle.load(self.process.stdout))
