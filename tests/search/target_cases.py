"""The targets of test-targets: programs with one known bug each, which a search has to find from a poor seed."""
import dataclasses
import struct

# A text of a library's file, which must be there once, and the text in its place that plants a bug.
NANOPB = [("""        *(void**)field->pField = NULL;
        field->pData = NULL;
    }

    return true;
""", """    }

    return true;
""")]
LWIP = [("u16_t datalen = LWIP_MIN(p->tot_len, LWIP_ICMP6_DATASIZE);", "u16_t datalen = IP6_HLEN + 8;"),
        ("""  while (p && datalen) {
    u16_t len = LWIP_MIN(datalen, p->len);
    err_t res = pbuf_take_at(q, p->payload, len, offset);
    if (res != ERR_OK) break;
    datalen -= len;
    offset += len;
    p = p->next;
  }
""", "  SMEMCPY((u8_t *)q->payload + offset, p->payload, datalen);\n")]
ZLIB = [("""state->head->extra != Z_NULL &&
                        (len = state->head->extra_len - state->length) <
                            state->head->extra_max) {
""", """state->head->extra != Z_NULL) {
                        len = state->head->extra_len - state->length;
""")]
MODBUS_VERSION = "".join(f"#define LIBMODBUS_VERSION_{name} {value}\n"
                         for name, value in (("MAJOR", 3), ("MINOR", 1), ("MICRO", 6), ("STRING", '"3.1.6"')))
ADDRESSES = bytes.fromhex("fd000000000000000000000000000001 fd000000000000000000000000000002")
RECORDS = struct.pack(">HH3sHHI", 0x4c62, 3, b"abc", 0x93d7, 4, 0x6e1d0c47)


@dataclasses.dataclass
class Target:
    """A program with a bug: its file, the finding that counts (a pattern of its line), an input that shows it, and the poor seed. Of a
    library the package, what is compiled of it, where its headers are, the headers that its own build makes, and the texts of its files by
    which the bug is planted."""

    name: str
    finding: str
    shown: bytes
    file: str = ""
    seed: bytes = bytes(8)
    package: str = ""
    sources: str = ""
    include: tuple = (".",)
    options: tuple = ()
    made: dict = dataclasses.field(default_factory=dict)
    planted: dict = dataclasses.field(default_factory=dict)


TARGETS = [
    # No library: a word, a length and a sum, two records, and a key of 32 bits.
    Target("magic", r"Invalid write of size 1 at \S+ read_records\b",
           struct.pack(">IHH", 0x5ca1ab1e, len(RECORDS), sum(RECORDS)) + RECORDS),
    # CVE-2022-0367, in version 3.1.6 as published.
    Target("modbus", r"Invalid write of size 2 at \S+ modbus_reply\b", bytes.fromhex("0000000000000017006400010000006edc") + bytes(220),
           file="examples/case-study/modbus/server.c", package="libmodbus", sources="src/modbus.c src/modbus-data.c", include=("src",),
           made={"modbus-version.h": MODBUS_VERSION, "config.h": "#include <sys/select.h>\n"}),
    # CVE-2023-53154, in version 1.7.15 as published.
    Target("cjson", r"Invalid read of size 1 at \S+ parse_string\b", b'{"":"",', seed=b"0",
           file="examples/case-study/json/driver.c", package="cjson", sources="cJSON.c"),
    # CVE-2021-21401: a choice that changes from a number to a text takes the number for a pointer.
    Target("nanopb", r"Invalid free\(\) / realloc\(\) at \S+ (realloc\b.*, by allocate_field|free\b.*, by pb_release_single_field)\b",
           bytes.fromhex("08921212 0161"), package="nanopb", sources="pb_decode.c pb_common.c", options=("-DPB_ENABLE_MALLOC",),
           planted={"pb_decode.c": NANOPB}),
    # CVE-2020-22283: an answer to a short packet copies what is after it.
    Target("lwip", r"Invalid read of size [14] at \S+ memcpy\b.*, by icmp6_send_response_with_addrs_and_netif\b",
           struct.pack(">IHBB", 0x60000000, 0, 0xfd, 64) + ADDRESSES, package="lwip",
           sources=" ".join(f"src/core/{it}.c" for it in (
               "init def inet_chksum ip mem memp netif pbuf udp ipv4/icmp ipv4/ip4 ipv4/ip4_addr ipv4/ip4_frag ipv6/ethip6 ipv6/icmp6 "
               "ipv6/inet6 ipv6/ip6 ipv6/ip6_addr ipv6/ip6_frag ipv6/mld6 ipv6/nd6").split()),
           include=("src/include",), planted={"src/core/ipv6/icmp6.c": LWIP},
           options=("-Itests/search/targets/lwip", "-Iexamples/case-study/lwip")),
    # The search wasn't tuned on the next two. This one has no library: a cell's number that is negative.
    Target("vm", r"Invalid write of size 4 at \S+ step\b", bytes.fromhex("0105 0100 0101 03 07")),
    # CVE-2022-37434: an extra field that is longer than the room for it, and comes in pieces.
    Target("zlib", r"Invalid write of size [14] at \S+ memcpy\b.*, by inflate\b",
           bytes.fromhex("1f8b0804000000000003 2800") + bytes(40), package="zlib", planted={"inflate.c": ZLIB},
           sources="adler32.c crc32.c inffast.c inflate.c inftrees.c zutil.c"),
]
