"""RUNNER='replaycheck exec -q --error-exitcode=9' pytest test_gauge.py, after `make -f plain.mk programs`."""
import os
import pathlib
import shlex
import subprocess

import pytest

PROGRAMS = pathlib.Path(os.environ.get("BUILD", "build"))


def run(name, *arguments, given=""):
    command = [*shlex.split(os.environ.get("RUNNER", "qemu-riscv32")), PROGRAMS / name, *arguments]
    return subprocess.run(command, input=given, capture_output=True, text=True, timeout=20)


@pytest.mark.parametrize("name", ["crc", "leak", "overflow"])
def test_ok(name):
    done = run(name)
    assert (done.returncode, done.stdout, done.stderr) == (0, f"{name}: ok\n", "")


def test_undefined():
    done = run("undefined")
    assert (done.returncode, done.stdout) == (0, "10000 centimetres\n")


def test_arguments():
    done = run("arguments", "10", "20", "30")
    assert (done.returncode, done.stdout) == (0, "3 arguments, sum 60\n")


def test_filter():
    assert run("filter", given="123456789").stdout == "9 bytes, crc 29b1\n"
