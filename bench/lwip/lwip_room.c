// Bytes of what lwIP keeps of a host, and the stack that its calls take: a connection with 1 MiB of text, and 1,000 datagrams to the other
// endpoint and back.
#include "set_up.h"

#include "lwip/priv/tcp_priv.h"
#include "lwip/raw.h"
#include "painted.h"

static void connection(void) { bulk_run(1 << 20, 8 * TCP_MSS, 0); }

static void trips(void) { udp_run(1000); }

int main(void) {
    printf("interface %zu\n", sizeof(struct netif));
    printf("udp %zu\n", sizeof(struct udp_pcb));
    printf("tcp %zu\n", sizeof(struct tcp_pcb));
    printf("listener %zu\n", sizeof(struct tcp_pcb_listen));
#if LWIP_RAW
    printf("raw %zu\n", sizeof(struct raw_pcb));
#endif
    printf("pbuf %zu\n", sizeof(struct pbuf));
    printf("segment %zu\n", sizeof(struct tcp_seg));
    set_up();
    printf("stack.tcp %zu\n", painted(connection));
    printf("stack.udp %zu\n", painted(trips));
    return 0;
}
