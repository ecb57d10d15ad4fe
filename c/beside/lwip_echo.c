/* Echoes of datagrams and of streams at port 7 with lwIP, over the TAP device that PRECONFIGURED_TAPIF names.
 *
 *   lwip_echo ADDRESS
 */
#include "lwip/init.h"
#include "lwip/netif.h"
#include "lwip/sys.h"
#include "lwip/tcp.h"
#include "lwip/timeouts.h"
#include "lwip/udp.h"
#include "netif/ethernet.h"
#include "netif/tapif.h"

#include <stdio.h>
#include <stdlib.h>

/* What came and hasn't gone back. */
struct echo {
    struct pbuf *waiting;
    int is_ended;
};

static void send_back(struct tcp_pcb *pcb, struct echo *echo)
{
    while (echo->waiting != NULL && echo->waiting->len <= tcp_sndbuf(pcb)) {
        struct pbuf *first = echo->waiting;
        if (first->len > 0 && tcp_write(pcb, first->payload, first->len, TCP_WRITE_FLAG_COPY) != ERR_OK)
            break;
        tcp_recved(pcb, first->len);
        echo->waiting = first->next;
        if (echo->waiting != NULL)
            pbuf_ref(echo->waiting);
        pbuf_free(first);
    }
    tcp_output(pcb);
    if (echo->waiting == NULL && echo->is_ended) {
        tcp_arg(pcb, NULL);
        tcp_recv(pcb, NULL);
        tcp_sent(pcb, NULL);
        tcp_err(pcb, NULL);
        free(echo);
        tcp_close(pcb);
    }
}

static err_t came(void *arg, struct tcp_pcb *pcb, struct pbuf *text, err_t error)
{
    struct echo *echo = arg;
    (void)error;
    if (text == NULL)
        echo->is_ended = 1;
    else if (echo->waiting == NULL)
        echo->waiting = text;
    else
        pbuf_cat(echo->waiting, text);
    send_back(pcb, echo);
    return ERR_OK;
}

static err_t went(void *arg, struct tcp_pcb *pcb, u16_t length)
{
    (void)length;
    send_back(pcb, arg);
    return ERR_OK;
}

static void failed(void *arg, err_t error)
{
    struct echo *echo = arg;
    (void)error;
    if (echo->waiting != NULL)
        pbuf_free(echo->waiting);
    free(echo);
}

static err_t accepted(void *arg, struct tcp_pcb *pcb, err_t error)
{
    struct echo *echo = calloc(1, sizeof *echo);
    (void)arg;
    if (error != ERR_OK || echo == NULL)
        return ERR_MEM;
    tcp_nagle_disable(pcb);
    tcp_arg(pcb, echo);
    tcp_recv(pcb, came);
    tcp_sent(pcb, went);
    tcp_err(pcb, failed);
    return ERR_OK;
}

static void datagram(void *arg, struct udp_pcb *pcb, struct pbuf *text, const ip_addr_t *from, u16_t port)
{
    (void)arg;
    udp_sendto(pcb, text, from, port);
    pbuf_free(text);
}

int main(int count, char **words)
{
    struct netif netif;
    ip4_addr_t own, mask, router;
    if (count < 2 || !ip4addr_aton(words[1], &own)) {
        fprintf(stderr, "usage: lwip_echo ADDRESS\n");
        return 2;
    }
    IP4_ADDR(&mask, 255, 255, 255, 0);
    ip4_addr_set_zero(&router);
    lwip_init();
    if (netif_add(&netif, &own, &mask, &router, NULL, tapif_init, ethernet_input) == NULL)
        return 1;
    netif_set_default(&netif);
    netif_set_up(&netif);
    netif_set_link_up(&netif);
    struct tcp_pcb *listener = tcp_new();
    struct udp_pcb *datagrams = udp_new();
    tcp_bind(listener, IP4_ADDR_ANY, 7);
    listener = tcp_listen(listener);
    tcp_accept(listener, accepted);
    udp_bind(datagrams, IP4_ADDR_ANY, 7);
    udp_recv(datagrams, datagram, NULL);
    fprintf(stderr, "lwip_echo: ready\n");
    for (;;) {
        sys_check_timeouts();
        tapif_select(&netif);
    }
}
