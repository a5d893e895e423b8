"""Code that is added to a file: a handler, and a stub for each instruction that becomes a jump there."""
from replaycheck.guest import instructions as isa
from replaycheck.guest.elf import FUNCTION, OBJECT, ROOM

from .spaces import groups


class Added:
    """A handler after what it works on, and the stubs, each with its address. `groups` is None if there is no place for
    them in reach. A kind of it has the form of its stubs, the handler's name, and what it is in words."""

    def __init__(self, elf, sites, others, size):
        self.elf, self.sites, self.size = elf, sites, size
        self.groups = groups(elf, others, sites, size, self.FORM.size)
        self.start = self.groups[0].address if self.groups else None

    def refused(self, size, count):
        """Why it can't be added to a file with these numbers of loaded bytes and program headers, and the cure; or None."""
        places = [self.elf.place(site) for site in self.sites]
        if len(set(places)) < len(places):
            return "bytes that are loaded twice have one", "load them once"
        if not self.groups:
            return (f"no free addresses for {self.FORM.size} bytes a call within {isa.JUMP_REACH} bytes of each",
                    "leave some free beside the code in the linker script")
        if size + self.total() > ROOM:
            return f"with what answers them there would be more than {ROOM} bytes", "make heap or stack smaller in the linker script"
        if count + len(self.groups) >= 0xFFFF:
            return "there would be too many segments", "join them in the linker script"
        return None

    def total(self):
        """How many bytes are added to what is loaded."""
        return self.size + self.FORM.size * len(self.sites)

    def ranges(self):
        """The addresses that it has."""
        return [(address, address + len(content)) for address, content, _ in self.pieces()]

    def pieces(self):
        """Each piece that is added: its address, its bytes, and of each site in it the stub."""
        for group in self.groups:
            ahead = self.ahead if group.address == self.start else b""
            first = group.address + len(ahead)
            stubs = {site: first + self.FORM.size * i for i, site in enumerate(group.sites)}
            yield group.address, ahead + b"".join(self.stub(at, site) for site, at in stubs.items()), stubs

    def symbols(self):
        """Names for what is added: of each the address, the size and the kind."""
        yield self.NAME, self.handler, self.start + len(self.ahead) - self.handler, FUNCTION
        for _, _, stubs in self.pieces():
            yield self.FORM.range, min(stubs.values()), self.FORM.size * len(stubs), OBJECT
            for site, at in stubs.items():
                yield (self.elf.function_at(site) or "") + self.FORM.suffix, at, self.FORM.size, FUNCTION
