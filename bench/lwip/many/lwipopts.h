// The options of the folder, with room for 10,000 idle sockets of each endpoint.
#include_next "lwipopts.h"
#undef MEMP_NUM_UDP_PCB
#define MEMP_NUM_UDP_PCB 20004
