/* A device with lwIP, at the end of a serial line: its input is one packet of IP, and what it sends it writes. */
#include <lwip/init.h>
#include <lwip/ip.h>
#include <lwip/netif.h>
#include <lwip/pbuf.h>
#include <unistd.h>

#define LONGEST 1500

static err_t send_packet(struct netif *line, struct pbuf *packet, const ip4_addr_t *to)
{
    (void)line, (void)to;
    for (; packet; packet = packet->next)
        write(1, packet->payload, packet->len);
    return ERR_OK;
}

static err_t begin_line(struct netif *line)
{
    line->mtu = LONGEST;
    line->output = send_packet;
    return ERR_OK;
}

static struct netif line;

static void begin_device(void)
{
    ip4_addr_t address, mask, router;
    IP4_ADDR(&address, 10, 0, 0, 2);
    IP4_ADDR(&mask, 255, 255, 255, 0);
    IP4_ADDR(&router, 10, 0, 0, 1);
    lwip_init();
    netif_add(&line, &address, &mask, &router, 0, begin_line, ip_input);
    netif_set_default(&line);
    netif_set_link_up(&line);
    netif_set_up(&line);
}

static void receive(const void *bytes, int length)
{
    struct pbuf *packet = pbuf_alloc(PBUF_RAW, length, PBUF_RAM);
    if (!packet)
        return;
    pbuf_take(packet, bytes, length);
    if (line.input(packet, &line) != ERR_OK)
        pbuf_free(packet);
}

int main(void)
{
    static char received[LONGEST];
    int length = 0, count;
    begin_device();
    while (length < LONGEST && (count = read(0, received + length, LONGEST - length)) > 0)
        length += count;
    receive(received, length);
    return 0;
}
