"""C libraries as Debian's source packages have them, without Debian's patches, and programs over them with the firmware kit."""
import os
import pathlib
import subprocess
import tarfile

TOP = pathlib.Path(__file__).resolve().parents[2]
FIRMWARE, PARTS, ROOM = TOP / "examples" / "firmware", TOP / "tests" / "libraries", TOP / "out" / "sources"
SCRIPT = FIRMWARE / "firmware.ld"
KIT = ["riscv64-unknown-elf-gcc", "-mabi=ilp32", "--specs=picolibc.specs", "-nostartfiles", "-g", "-w", "-I", FIRMWARE, "-I", PARTS,
       *(FIRMWARE / it for it in ("start.S", "system.c", "console.c", "heap_by_name.c"))]


def fetch(names):
    """Puts the sources of packages into the folder of each in ROOM, if they aren't there. Returns those that can't be fetched, with the
    reason."""
    missing = [it for it in dict.fromkeys(names) if not (ROOM / it).is_dir()]
    if missing:
        for folder in ("lists/partial", "cache"):
            (ROOM / "fetched" / folder).mkdir(parents=True, exist_ok=True)
        apt_get("update")
    whys = {name: fetched(name) for name in missing}
    return {name: why for name, why in whys.items() if why}


def fetched(name):
    """Fetches the sources of a package. Returns why they can't be, or nothing."""
    room = ROOM / "fetched"
    why = apt_get("source", "--download-only", name)
    archive = next(room.glob(f"{name}_*.orig.tar.*"), None)
    if why or archive is None:
        return why or "the package has no archive of sources"
    with tarfile.open(archive) as packed:
        folder = packed.getnames()[0].split("/")[0]
        packed.extractall(room, filter="data")
    (room / folder).rename(ROOM / name)
    return ""


def apt_get(*words):
    """Has apt-get do something with the sources of Debian 12, in a folder of its own. Returns why it can't, or nothing."""
    room = ROOM / "fetched"
    (room / "sources.list").write_text("deb-src [signed-by=/usr/share/keyrings/debian-archive-keyring.gpg] "
                                       "http://deb.debian.org/debian bookworm main\n")
    apt = ["apt-get", "-q", "-o", f"Dir::Etc::sourcelist={room}/sources.list", "-o", "Dir::Etc::sourceparts=-",
           "-o", f"Dir::State::lists={room}/lists", "-o", f"Dir::Cache={room}/cache", "-o", "APT::Sandbox::User=root"]
    try:
        done = subprocess.run([*apt, *words], cwd=room, env={**os.environ, "LC_ALL": "C.UTF-8"}, stdin=subprocess.DEVNULL,
                              stdout=subprocess.DEVNULL, stderr=subprocess.PIPE, text=True)
    except OSError as fault:
        return f"cannot run apt-get: {fault.strerror}"
    return (done.stderr.strip() or f"apt-get ended with status {done.returncode}") if done.returncode else ""


def build(out, sources, options, script=SCRIPT):
    """Builds a program of C files with the firmware kit, and with its linker script or another one."""
    subprocess.run([*KIT, "-T", script, *options, *sources, "-o", out], check=True)
