/* Sends by lwIP, as Debian builds it. */
#include "hand.h"

#include <lwip/etharp.h>
#include <lwip/init.h>
#include <lwip/netif.h>
#include <lwip/udp.h>

static struct netif network;
static struct udp_pcb *port;
static ip_addr_t group;
static unsigned frames;
static volatile uint8_t last;

static err_t touch(struct netif *netif, struct pbuf *frame) {
    (void)netif;
    last = pbuf_get_at(frame, (u16_t)(frame->tot_len - 1));
    frames++;
    return ERR_OK;
}

static err_t begin(struct netif *netif) {
    netif->output = etharp_output;
    netif->linkoutput = touch;
    netif->mtu = 1499; /* as much as a frame of 1,518 bytes has room for, beside the sequence number */
    netif->hwaddr_len = ETH_HWADDR_LEN;
    netif->flags = NETIF_FLAG_BROADCAST | NETIF_FLAG_ETHARP | NETIF_FLAG_ETHERNET | NETIF_FLAG_LINK_UP;
    return ERR_OK;
}

/* Opens a UDP port. */
static bool open_port(void) {
    ip4_addr_t own, mask;
    IP4_ADDR(&own, 10, 0, 1, 1);
    IP4_ADDR(&mask, 255, 0, 0, 0);
    IP_ADDR4(&group, 224, 224, 0, 1);
    lwip_init();
    if (!netif_add(&network, &own, &mask, IP4_ADDR_ANY4, NULL, begin, netif_input)) return false;
    netif_set_default(&network);
    netif_set_up(&network);
    port = udp_new();
    return port && udp_bind(port, IP_ADDR_ANY, 1000) == ERR_OK;
}

unsigned lwip_send(const uint8_t *message, size_t length, bool sums) {
    if (!port && !open_port()) return 0;
    if (sums) {
        udp_setflags(port, 0);
    } else {
        udp_setflags(port, UDP_FLAGS_NOCHKSUM);
    }
    struct pbuf *bytes = pbuf_alloc(PBUF_TRANSPORT, (u16_t)length, PBUF_RAM);
    frames = 0;
    if (!bytes) return 0;
    if (pbuf_take(bytes, message, (u16_t)length) != ERR_OK || udp_sendto(port, bytes, &group, 2000) != ERR_OK) frames = 0;
    pbuf_free(bytes);
    return frames;
}
