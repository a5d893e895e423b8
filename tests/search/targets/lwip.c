/* A device with lwIP, IPv4 and IPv6, at the end of a serial line: it receives one packet, and what it sends goes nowhere. */
#include <lwip/init.h>
#include <lwip/ip.h>
#include <lwip/netif.h>
#include <lwip/pbuf.h>
#include "input.h"

static err_t send4(struct netif *line, struct pbuf *packet, const ip4_addr_t *to)
{
    return ERR_OK;
}

static err_t send6(struct netif *line, struct pbuf *packet, const ip6_addr_t *to)
{
    return ERR_OK;
}

static err_t begin(struct netif *line)
{
    line->mtu = 1500;
    line->output = send4;
    line->output_ip6 = send6;
    return ERR_OK;
}

int main(void)
{
    static struct netif line;
    ip4_addr_t address, mask, router;
    ip6_addr_t address6;
    IP4_ADDR(&address, 10, 0, 0, 2);
    IP4_ADDR(&mask, 255, 255, 255, 0);
    IP4_ADDR(&router, 10, 0, 0, 1);
    IP6_ADDR(&address6, PP_HTONL(0xfd000000), 0, 0, PP_HTONL(2));
    lwip_init();
    netif_add(&line, &address, &mask, &router, 0, begin, ip_input);
    netif_set_default(&line);
    netif_set_link_up(&line);
    netif_set_up(&line);
    netif_ip6_addr_set(&line, 0, &address6);
    netif_ip6_addr_set_state(&line, 0, IP6_ADDR_PREFERRED);
    int length = read_input();
    struct pbuf *packet = pbuf_alloc(PBUF_RAW, length, PBUF_RAM);
    if (packet && (pbuf_take(packet, input, length) != ERR_OK || line.input(packet, &line) != ERR_OK))
        pbuf_free(packet);
    return 0;
}
