/* lwIP without an operating system, with 45 segments of buffer and window each way, as its port for Unix runs over a TAP device. */
#ifndef LWIPOPTS_H
#define LWIPOPTS_H

#define NO_SYS 1
#define SYS_LIGHTWEIGHT_PROT 0
#define LWIP_NETCONN 0
#define LWIP_SOCKET 0
#define LWIP_IPV6 0
#define LWIP_RAW 1
#define LWIP_ICMP 1
#define IP_REASSEMBLY 1
#define IP_FRAG 1
#define MEM_LIBC_MALLOC 1
#define MEMP_MEM_MALLOC 1
#define MEM_ALIGNMENT 8
#define TCP_MSS 1460
#define TCP_SND_BUF (180 * TCP_MSS)
#define TCP_WND (180 * TCP_MSS)
#define TCP_SND_QUEUELEN (4 * TCP_SND_BUF / TCP_MSS)
#define LWIP_WND_SCALE 1
#define TCP_RCV_SCALE 3
#define TCP_QUEUE_OOSEQ 1
#define LWIP_CHECKSUM_ON_COPY 1
#define LWIP_CHKSUM_ALGORITHM 2
#define IP_REASS_MAX_PBUFS 64
#define PBUF_POOL_SIZE 512
#define LWIP_TIMERS 1
#define LWIP_DISABLE_TCP_SANITY_CHECKS 1

#endif
