"""C libraries of Debian's, each with an input for its program in tests/libraries and with what that must write."""
import dataclasses
import json
import pathlib
import shutil
import zlib

import debian_sources

DATA = {"name": "harbour", "berths": [{"id": 7, "free": True, "depth": 11.5}, {"id": 8, "free": False, "ship": "Sea \u00e9toile"}],
        "tides": [1, 2, 3, -4, 5000000], "note": None, "text": "line\n\ttab \"quoted\" \\ end"}
MARKUP = """<?xml version="1.0"?>
<!-- berths --><harbour name="north"><berth id="7" depth="11.5">free &amp; swept</berth>
<berth id="8"><ship name="&quot;Etoile&quot;"/><![CDATA[<no markup>]]></berth><tide/></harbour>
"""
PACKED = b"".join(b"berth %d is %s\n" % (it, b"free" if it % 3 else b"taken") for it in range(24))


def values_in(data):
    """How many values JSON has, itself among them."""
    parts = data.values() if isinstance(data, dict) else data if isinstance(data, list) else ()
    return 1 + sum(map(values_in, parts))


@dataclasses.dataclass
class Library:
    """A library of Debian's, what is compiled of it, where its headers are, and an input with what its program must write of that."""

    name: str
    sources: str
    include: str
    given: bytes
    written: bytes
    options: tuple = ()


TEXT = json.dumps(DATA, ensure_ascii=False).encode()
LIBRARIES = [
    Library("cjson", "cJSON.c", ".", TEXT, json.dumps(DATA, ensure_ascii=False, separators=(",", ":")).encode()),
    Library("yajl", "src/yajl*.c", "src", TEXT, b"%d" % (values_in(DATA) % 10)),
    Library("expat", "expat/lib/xmlparse.c expat/lib/xmlrole.c expat/lib/xmltok.c", "expat/lib", MARKUP.encode(),
            b"harbournorthberth711.5berth8ship\"Etoile\"tide",
            ("-DXML_POOR_ENTROPY", "-DXML_NS", "-DXML_DTD", "-DXML_CONTEXT_BYTES=1024", "-DBYTEORDER=1234")),
    Library("zlib", "adler32.c crc32.c inf[flt]*.c uncompr.c zutil.c", ".", zlib.compress(PACKED), PACKED)]


def made_folder(library: Library, room: pathlib.Path) -> pathlib.Path:
    """The folder, below another one, of the headers that a library's own build makes."""
    return room / f"{library.name}-made"


def made_for(library: Library, room: pathlib.Path) -> pathlib.Path:
    """Makes that folder, of sources that were fetched. Returns its path."""
    folder = made_folder(library, room)
    folder.mkdir(parents=True, exist_ok=True)
    (folder / "expat_config.h").touch()
    if library.name == "yajl":
        (folder / "yajl").mkdir(exist_ok=True)
        for header in (debian_sources.ROOM / library.name / "src" / "api").glob("*.h"):
            shutil.copy(header, folder / "yajl")
        (folder / "yajl" / "yajl_version.h").write_text("#define YAJL_VERSION 20100\nint yajl_version(void);\n")
    return folder


def matched(package: str, patterns: str) -> list[pathlib.Path]:
    """The files of a package's sources that patterns name."""
    return [it for pattern in patterns.split() for it in sorted((debian_sources.ROOM / package).glob(pattern))]
