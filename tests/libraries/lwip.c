/* lwIP without an operating system: sums, buffers, addresses, and an answer to a packet of UDP and to one of ICMP. */
#include <lwip/inet_chksum.h>
#include <lwip/init.h>
#include <lwip/ip.h>
#include <lwip/mem.h>
#include <lwip/netif.h>
#include <lwip/pbuf.h>
#include <lwip/udp.h>
#include <stdio.h>
#include <string.h>

/* Prints a packet that lwIP sends. */
static err_t send4(struct netif *line, struct pbuf *packet, const ip4_addr_t *to)
{
    unsigned char bytes[96];
    int length = pbuf_copy_partial(packet, bytes, sizeof bytes, 0);
    printf("to %s:", ip4addr_ntoa(to));
    for (int at = 0; at < length; at++)
        printf(" %02x", bytes[at]);
    puts("");
    return ERR_OK;
}

static err_t begin(struct netif *line)
{
    line->mtu = 1500;
    line->output = send4;
    return ERR_OK;
}

/* Sends back what has come. */
static void echo(void *data, struct udp_pcb *port, struct pbuf *packet, const ip_addr_t *from, u16_t from_port)
{
    udp_sendto(port, packet, from, from_port);
    pbuf_free(packet);
}

static void receive(struct netif *line, int protocol, const void *content, int length)
{
    struct pbuf *packet = pbuf_alloc(PBUF_IP, length, PBUF_RAM);
    pbuf_take(packet, content, length);
    pbuf_add_header(packet, IP_HLEN);
    struct ip_hdr *header = packet->payload;
    memset(header, 0, IP_HLEN);
    IPH_VHL_SET(header, 4, IP_HLEN / 4);
    IPH_LEN_SET(header, lwip_htons(IP_HLEN + length));
    IPH_TTL_SET(header, 9);
    IPH_PROTO_SET(header, protocol);
    header->src.addr = PP_HTONL(0x0a000001);
    header->dest.addr = PP_HTONL(0x0a000002);
    IPH_CHKSUM_SET(header, inet_chksum(header, IP_HLEN));
    if (line->input(packet, line) != ERR_OK)
        pbuf_free(packet);
}

/* Buffers that are chained, cut, copied and searched. */
static void buffers(void)
{
    char text[64] = { 0 };
    struct pbuf *first = pbuf_alloc(PBUF_RAW, 10, PBUF_RAM), *second = pbuf_alloc(PBUF_RAW, 30, PBUF_POOL);
    pbuf_take(first, "harbour at", 10);
    pbuf_take(second, " the mouth of the river, north", 30);
    pbuf_cat(first, second);
    printf("%d %d %04x %d\n", first->tot_len, pbuf_clen(first), inet_chksum_pbuf(first), pbuf_strstr(first, "river"));
    struct pbuf *copy = pbuf_clone(PBUF_RAW, PBUF_RAM, first);
    pbuf_realloc(copy, 24);
    pbuf_remove_header(copy, 8);
    printf("%s %d\n", (pbuf_copy_partial(copy, text, sizeof text - 1, 0), text), pbuf_memcmp(first, 8, text, 10));
    pbuf_free(copy);
    pbuf_free(first);
    void *block = mem_calloc(3, 7);
    block = mem_trim(block, 10);
    mem_free(block);
}

int main(void)
{
    static struct netif line;
    ip4_addr_t address, mask, router;
    lwip_init();
    ip4addr_aton("10.0.0.2", &address);
    ip4addr_aton("255.255.255.0", &mask);
    ip4addr_aton("10.0.0.1", &router);
    netif_add(&line, &address, &mask, &router, 0, begin, ip_input);
    netif_set_default(&line);
    netif_set_link_up(&line);
    netif_set_up(&line);
    buffers();
    struct udp_pcb *port = udp_new();
    udp_bind(port, IP_ADDR_ANY, 7);
    udp_recv(port, echo, 0);
    receive(&line, IP_PROTO_UDP, "\x30\x39\x00\x07\x00\x0c\x00\x00tide", 12);
    receive(&line, IP_PROTO_ICMP, "\x08\x00\xf7\xfd\x00\x01\x00\x01", 8);
    udp_remove(port);
    return 0;
}
