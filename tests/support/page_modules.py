"""The page's modules without a browser, in node, for test-halves and test-page."""
from __future__ import annotations

import json
import pathlib
import subprocess
import tempfile
from typing import Any

from paging.folder import SOURCES, modules_of

NODE = "node"


def write_modules(folder: pathlib.Path, more: dict[str, str]) -> None:
    """Writes the page's modules to a folder, those that the build makes among them, and more files beside them."""
    for name, text in {**modules_of(b""), **more}.items():
        (folder / name).parent.mkdir(parents=True, exist_ok=True)
        (folder / name).write_text(text)


def answered(script: str) -> Any:
    """What a module beside those of the page prints, as JSON.

    # Errors

    `ValueError` with what node says, if it fails."""
    with tempfile.TemporaryDirectory() as name:
        folder = pathlib.Path(name)
        write_modules(folder, {"asked.js": script, "package.json": '{"type": "module"}'})
        done = subprocess.run([NODE, "asked.js"], cwd=folder, capture_output=True, text=True)
    if done.returncode:
        raise ValueError(f"{NODE}: status {done.returncode}: {done.stderr[-600:]}")
    return json.loads(done.stdout)


def debuginfo_faults() -> list[str]:
    """What the tests beside the modules that read debugging information find."""
    done = subprocess.run([NODE, "--test", "debuginfo/tests/"], cwd=SOURCES, capture_output=True, text=True)
    found = [line for line in done.stdout.splitlines() if line.lstrip().startswith("not ok")]
    return (found or [f"status {done.returncode}: {done.stderr[-600:]}"]) if done.returncode else []


def names_too_near() -> list[list[str]]:
    """Modules of one name, or of names that differ by an s only, in whichever folders they are."""
    paths = [pathlib.PurePath(it) for it in modules_of(b"")]
    key = {path: path.stem.removesuffix("s") for path in paths}
    return [[str(one), str(other)] for one in paths for other in paths if one < other and key[one] == key[other]]
