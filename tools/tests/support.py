"""What the tests share: the program that they are tried on, and running a command."""

from __future__ import annotations

import contextlib
import io
import os
import runpy
import shutil
import subprocess
import sys
import tempfile
from concurrent.futures import ThreadPoolExecutor
from typing import Callable, Iterable, Sequence

sys.dont_write_bytecode = True
TESTS = os.path.dirname(os.path.abspath(__file__))
TOP = os.path.dirname(os.path.dirname(TESTS))
TOOLS = f"{TOP}/tools"
STAND_IN = f"{TESTS}/stand_in"
# The program as tools/test found it built, or the stand-in.
PROGRAM = os.environ.get("REC_PROGRAM") or STAND_IN
IS_BUILT = PROGRAM != STAND_IN
# The Python that runs the tests runs the tools too, without a search for one each time.
os.environ["PATH"] = f"{os.path.dirname(os.path.realpath(sys.executable))}:{os.environ['PATH']}"


def run(words: Sequence[str], given: bytes = b"", **variables: str) -> tuple[bytes, bytes, int]:
    """Runs a command at the top of the repository, and returns its output, its error output and its status."""
    names = {it: os.environ[it] for it in ("PATH", "HOME", "LANG") if it in os.environ}
    ran = subprocess.run(
        words, input=given, capture_output=True, cwd=TOP, env={**names, "REC_PROGRAM": PROGRAM, **variables}
    )
    return ran.stdout, ran.stderr, ran.returncode


def rec(words: Sequence[str], given: bytes = b"", **variables: str) -> tuple[bytes, bytes, int]:
    return run([f"{TOP}/rec", *words], given, **variables)


def call(tool: str, *words: str, given: bytes) -> tuple[str, str, int]:
    """Runs a tool of Python in this process on a file `input`; returns its outputs, without paths, and its status."""
    status, out, err, argv = 0, io.StringIO(), io.StringIO(), sys.argv
    with folder() as room, contextlib.redirect_stdout(out), contextlib.redirect_stderr(err):
        with open(f"{room}/input", "wb") as file:
            file.write(given)
        sys.argv = [tool, *words, f"{room}/input"]
        try:
            runpy.run_path(tool, run_name="__main__")
        except SystemExit as end:
            status = int(end.code or 0)
        finally:
            sys.argv = argv
    return out.getvalue(), err.getvalue().replace(f"{room}/", ""), status


def is_here(command: str) -> bool:
    return shutil.which(command) is not None


def folder() -> tempfile.TemporaryDirectory[str]:
    return tempfile.TemporaryDirectory(prefix="rec-tests-")


def script(folder: str, text: str) -> str:
    """Makes a program of its own, which stands for one that is slow or is ended."""
    path = f"{folder}/program"
    with open(path, "w") as file:
        file.write(f"#!/bin/sh\n{text}\n")
    os.chmod(path, 0o755)
    return path


def examples(ending: str) -> list[str]:
    """Returns the paths of all examples whose names end so."""
    found = [f"{at}/{name}" for at, _, names in os.walk(f"{TOP}/examples") for name in names if name.endswith(ending)]
    assert found
    return sorted(found)


def each(check: Callable, items: Iterable) -> None:
    """Calls a check with each item, some at a time: what a check raises is raised here."""
    with ThreadPoolExecutor(4) as pool:
        list(pool.map(check, items))
