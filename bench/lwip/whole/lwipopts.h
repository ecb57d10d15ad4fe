// The options of the folder, with as much of what this stack has as lwIP has: Ethernet and ARP, IPv6 with neighbour discovery, pieces of datagrams, raw
// sockets, DHCP, DNS, timestamps and SACK.
#include_next "lwipopts.h"
#undef LWIP_IPV6
#undef LWIP_ETHERNET
#undef LWIP_ARP
#undef PBUF_LINK_HLEN
#undef IP_REASSEMBLY
#undef IP_FRAG
#undef LWIP_RAW
#undef LWIP_DHCP
#undef LWIP_DNS
#undef LWIP_TCP_TIMESTAMPS
#undef LWIP_TCP_SACK_OUT
#define LWIP_IPV6 1
#define LWIP_ETHERNET 1
#define LWIP_ARP 1
#define PBUF_LINK_HLEN 14
#define IP_REASSEMBLY 1
#define IP_FRAG 1
#define LWIP_RAW 1
#define LWIP_DHCP 1
#define LWIP_DNS 1
#define LWIP_TCP_TIMESTAMPS 1
#define LWIP_TCP_SACK_OUT 1
