"""The programs of `test-verdicts` over picolibc and over libraries from Debian's sources: none of them has an error."""
import dataclasses
import pathlib
import struct
import zlib
from collections.abc import Container

import debian_sources
from debian_sources import PARTS, TOP
from library_cases import LIBRARIES, Library, made_folder, made_for, matched
from verdict_builds import BUILDS, BUILDS_PLUS, PLUS_WORDS, ROOM, WITH_HEAP, WITH_NEW, Build, built

BOTH = (BUILDS[1], BUILDS[3])
WIDE, HIGH = 12, 10


@dataclasses.dataclass
class Clean:
    """A program in tests/libraries, its inputs by their labels, the library that it is over, and what of that is compiled."""

    file: str
    inputs: dict[str, bytes]
    package: str = ""
    sources: str = ""
    include: tuple[str, ...] = ()
    options: tuple[str, ...] = ()
    builds: tuple[Build, ...] = BOTH

    @property
    def name(self) -> str:
        return pathlib.Path(self.file).stem

    @property
    def is_plus(self) -> bool:
        return self.file.endswith(".cpp")


def known(library: Library) -> Clean:
    """The program over a library that `test-libraries` has, too."""
    return Clean(f"{library.name}.c", {"an input": library.given}, library.name, library.sources,
                 (str(made_folder(library, ROOM)), library.include), library.options)


# ---- images


def pixels() -> list[list[tuple[int, int, int]]]:
    return [[(20 * column, 25 * row, (column * row * 7) % 256) for column in range(WIDE)] for row in range(HIGH)]


def chunk(name: bytes, content: bytes) -> bytes:
    """A part of a PNG."""
    return struct.pack(">I", len(content)) + name + content + struct.pack(">I", zlib.crc32(name + content))


def png() -> bytes:
    """An image whose rows are filtered in each of the five ways in turn."""
    lines, before = b"", bytes(3 * WIDE)
    for number, row in enumerate(pixels()):
        line, kind = bytes(value for pixel in row for value in pixel), number % 5
        lines += bytes([kind]) + bytes((value - guess(kind, line, before, at)) % 256 for at, value in enumerate(line))
        before = line
    header = struct.pack(">IIBBBBB", WIDE, HIGH, 8, 2, 0, 0, 0)
    return b"\x89PNG\r\n\x1a\n" + chunk(b"IHDR", header) + chunk(b"IDAT", zlib.compress(lines)) + chunk(b"IEND", b"")


def guess(kind: int, line: bytes, before: bytes, at: int) -> int:
    """What a filter of PNG takes off a byte."""
    left, corner = (line[at - 3], before[at - 3]) if at >= 3 else (0, 0)
    above = before[at]
    paeth = min((left, above, corner), key=lambda it: abs(left + above - corner - it))
    return (0, left, above, (left + above) // 2, paeth)[kind]


def bmp() -> bytes:
    rows = b"".join(bytes(value for pixel in row for value in reversed(pixel)) for row in reversed(pixels()))
    return struct.pack("<2sIHHIIiiHHIIiiII", b"BM", 54 + len(rows), 0, 0, 54, 40, WIDE, HIGH, 1, 24, 0, len(rows), 0, 0, 0, 0) + rows


def tga() -> bytes:
    """An image in runs: of each row half one colour, and half single pixels."""
    rows, half = b"", WIDE // 2
    for row in pixels():
        rows += bytes([127 + half, *reversed(row[0]), half - 1]) + bytes(value for pixel in row[half:] for value in reversed(pixel))
    return struct.pack("<BBBHHBHHHHBB", 0, 0, 10, 0, 0, 0, 0, 0, WIDE, HIGH, 24, 0x20) + rows


def pnm() -> bytes:
    return b"P6 %d %d 255\n" % (WIDE, HIGH) + bytes(value for row in pixels() for pixel in row for value in pixel)


# ---- the programs

TLS = ("aes base64 bignum chacha20 chachapoly cipher cipher_wrap constant_time gcm md5 platform_util poly1305 sha256").split()
TLS_TESTS = {"base64": b"b", "numbers": b"n", "ChaCha20": b"c", "Poly1305": b"p", "both of these": b"s", "GCM over AES": b"g", "MD5": b"m"}
LWIP = "init def inet_chksum ip mem memp netif pbuf udp ipv4/icmp ipv4/ip4 ipv4/ip4_addr ipv4/ip4_frag".split()
DROPPED = ("-ffunction-sections", "-Wl,--gc-sections")
CLEAN = [
    Clean("picolibc.c", {"all that it calls": b"tide\nquay"}, options=("-lm",), builds=BUILDS),
    Clean("plus.cpp", {"all that it calls": b""}, options=tuple(PLUS_WORDS), builds=BUILDS_PLUS),
    *map(known, LIBRARIES),
    Clean("stb_image.c", {"PNG": png(), "BMP": bmp(), "TGA": tga(), "PNM": pnm()}, "libstb", include=(".",), options=("-lm",)),
    Clean("nanopb.c", {"a message": b""}, "nanopb", "pb_*.c", (".",), ("-DPB_ENABLE_MALLOC",)),
    Clean("lwip.c", {"sums, buffers, packets": b""}, "lwip", " ".join(f"src/core/{it}.c" for it in LWIP), ("src/include",),
          (f"-I{TOP}/examples/case-study/lwip",)),
    Clean("mbedtls.c", TLS_TESTS, "mbedtls", " ".join(f"library/{it}.c" for it in TLS), ("include",),
          (f"-I{PARTS}", '-DMBEDTLS_CONFIG_FILE="mbedtls_config.h"', *DROPPED)),
]


def put_headers(missing: Container[str]) -> None:
    """Puts the headers that the builds of libraries make, but of those whose sources are missing."""
    for library in LIBRARIES:
        if library.name not in missing:
            made_for(library, ROOM)


def put_clean(clean: Clean, build: Build) -> pathlib.Path:
    """Builds a program. Returns its path."""
    include = [f"-I{debian_sources.ROOM / clean.package / it}" for it in clean.include]
    sources = [PARTS / clean.file, *matched(clean.package, clean.sources)]
    kit = WITH_NEW if clean.is_plus else WITH_HEAP
    return built(build.folder / f"library-{clean.name}.elf", [*sources, f"-I{PARTS}", *include], build, list(clean.options), kit)
