// The program of the folder, lwip_bench.c, beside a main of one's own: its functions, after its own main has made the link and tried it.
#define main bench_main
#include "lwip_bench.c"
#undef main

// Every byte of 64 MiB is compared, and damaged frames are seen.
static void set_up(void) {
    static char *words[] = {"lwip_bench", "ref", "1", "0", "0"};
    if (bench_main(5, words) != 0) die("lwIP isn't set up");
}
