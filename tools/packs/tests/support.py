"""Runs the two programs in this process, on files in a folder of their own."""

import contextlib
import io
import os
import tempfile
import unittest

import asker
import maker
import printer
from problems import Wrong, print_some

ROOT = os.path.dirname(os.path.dirname(os.path.dirname(os.path.dirname(os.path.abspath(__file__)))))
EXAMPLES = os.path.join(ROOT, "examples")


class Files(unittest.TestCase):
    """A test in an empty current folder."""

    def setUp(self):
        folder = tempfile.TemporaryDirectory()
        self.addCleanup(folder.cleanup)
        self.addCleanup(os.chdir, os.getcwd())
        os.chdir(folder.name)

    def write(self, files):
        for name, contents in files.items():
            with open(name, "wb") as file:
                file.write(contents if isinstance(contents, bytes) else contents.encode())


def run(main, *arguments):
    """The exit status, standard output and standard error of a program."""
    out, err = (io.TextIOWrapper(io.BytesIO(), encoding="utf-8", write_through=True) for _ in range(2))
    with contextlib.redirect_stdout(out), contextlib.redirect_stderr(err):
        try:
            status = main(list(arguments))
        except Wrong as wrong:
            print_some(wrong.problems, err)
            status = 1
    return status, out.buffer.getvalue().decode(), err.buffer.getvalue().decode()


def make(*arguments):
    return run(maker.main, *arguments)


def show(*arguments):
    return run(printer.main, *arguments)


def certain(*arguments):
    return run(asker.main, *arguments)


def read(path):
    with open(path, "rb") as file:
        return file.read()
