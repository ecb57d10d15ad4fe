/* The host of a program's sockets: its device, the thread that waits for frames and for moments, and its lock. */
#include "run.h"

#include "../offload.h"

#include <arpa/inet.h>
#include <errno.h>
#include <fcntl.h>
#include <poll.h>
#include <pthread.h>
#include <signal.h>
#include <stdio.h>
#include <stdlib.h>
#include <string.h>
#include <sys/eventfd.h>
#include <sys/random.h>
#include <sys/resource.h>
#include <sys/syscall.h>
#include <time.h>
#include <unistd.h>

enum { BUDGET = 64, INTERNAL = 4096 };

zv_host run_host;
size_t run_room = 262144;
int run_has_ipv4, run_has_ipv6;
zv_address run_names[3];

static pthread_mutex_t lock = PTHREAD_MUTEX_INITIALIZER, beginning = PTHREAD_MUTEX_INITIALIZER;
static struct offload joined;
static int is_begun, device = -1, bell = -1, frames_taken;
static pid_t owner;
static sigset_t held; /* what the lock's holder had blocked before */
static int64_t wakes_at; /* when the thread wakes */
static __thread int is_inside;

/* No signal comes while the lock is held, so that a handler may call what it wants, and jump. */
void run_lock(void)
{
    sigset_t all, before;
    sigfillset(&all);
    pthread_sigmask(SIG_BLOCK, &all, &before);
    pthread_mutex_lock(&lock);
    held = before;
}

void run_unlock(void)
{
    const sigset_t before = held;
    pthread_mutex_unlock(&lock);
    pthread_sigmask(SIG_SETMASK, &before, NULL);
}

/* A child has none, also one that shares its parent's memory until it calls another program. */
int run_is_there(void)
{
    return is_begun && getpid() == owner;
}

int64_t run_now(void)
{
    struct timespec t;
    clock_gettime(CLOCK_MONOTONIC, &t);
    return (int64_t)t.tv_sec * 1000000 + t.tv_nsec / 1000;
}

uint32_t run_random(void)
{
    uint32_t it = 0;
    if (getrandom(&it, sizeof it, 0) != (ssize_t)sizeof it)
        it = (uint32_t)run_now();
    return it;
}

static void frame_in(void *host, const uint8_t *frame, size_t length)
{
    zv_frame_in(host, frame, length);
    frames_taken++;
    if (length > joined.link)
        run_touch(frame + joined.link, length - joined.link);
}

static void send_frames(void)
{
    size_t count;
    while (zv_frame_out(&run_host, offload_room(&joined), OFFLOAD_LONGEST, &count) == ZV_OK)
        offload_out(&joined, count);
    offload_flush(&joined);
}

/* The thread is woken where the host wants a turn before it wakes. */
static void ring(void)
{
    int64_t at;
    const uint64_t one = 1;
    if (zv_poll_at(&run_host, run_now(), &at) != ZV_OK || at >= wakes_at)
        return;
    wakes_at = at;
    if (write(bell, &one, sizeof one) < 0)
        wakes_at = 0;
}

static void polled(uint16_t budget)
{
    uint8_t changed = 0;
    for (int i = 0; i < 8; i++) {
        const int64_t moment = run_now();
        zv_poll(&run_host, moment, budget, &changed);
        send_frames();
        if (!changed || !run_update(moment))
            break;
    }
}

void run_turn(void)
{
    polled(BUDGET);
    ring();
}

/* Frames that came go to the host. How many there were. */
static int take(void)
{
    static uint8_t bytes[OFFLOAD_READ];
    frames_taken = 0;
    while (frames_taken < BUDGET) {
        const ssize_t length = read(device, bytes, sizeof bytes);
        if (length <= 0)
            break;
        offload_in(&joined, bytes, (size_t)length);
    }
    return frames_taken;
}

static void wait_for_frames(int64_t micros)
{
    struct pollfd waits[2] = {{device, POLLIN, 0}, {bell, POLLIN, 0}};
    struct timespec left = {micros / 1000000, micros % 1000000 * 1000};
    uint64_t rung;
    ppoll(waits, 2, &left, NULL);
    if (waits[1].revents != 0 && read(bell, &rung, sizeof rung) < 0)
        return;
}

static void *serve(void *none)
{
    is_inside = 1;
    for (;;) {
        int64_t at = INT64_MAX;
        run_lock();
        const int taken = take();
        polled((uint16_t)(taken > BUDGET ? taken : BUDGET));
        const int64_t moment = run_now();
        zv_poll_at(&run_host, moment, &at);
        const int64_t left = taken != 0 || at <= moment ? 0 : at - moment > 1000000 ? 1000000 : at - moment;
        wakes_at = moment + left;
        run_unlock();
        if (left > 0)
            wait_for_frames(left);
    }
    return none;
}

static int begin_thread(void)
{
    pthread_t it;
    sigset_t all, before;
    sigfillset(&all);
    pthread_sigmask(SIG_SETMASK, &all, &before);
    const int why = pthread_create(&it, NULL, serve, NULL);
    pthread_sigmask(SIG_SETMASK, &before, NULL);
    return why == 0;
}

static const char *word(const char *name, const char *usual)
{
    const char *it = getenv(name);
    return it != NULL && *it != 0 ? it : usual;
}

static zv_address address_of(const char *text)
{
    zv_address it = {0, {0}};
    if (inet_pton(AF_INET, text, it.bytes) == 1)
        it.family = 4;
    else if (inet_pton(AF_INET6, text, it.bytes) == 1)
        it.family = 6;
    return it;
}

/* Gives each word of a list with commas, with what stands behind its slash. */
static void each(const char *list, void (*give)(const zv_address *, int))
{
    char words[512], *rest = words;
    snprintf(words, sizeof words, "%s", list);
    for (char *one; (one = strsep(&rest, ", ")) != NULL;) {
        char *slash = strchr(one, '/');
        if (slash != NULL)
            *slash = 0;
        const zv_address it = address_of(one);
        if (it.family != 0)
            give(&it, slash == NULL ? it.family == 4 ? 24 : 64 : atoi(slash + 1));
    }
}

static void add_address(const zv_address *it, int prefix)
{
    if (zv_address_add(&run_host, it, (uint8_t)prefix) != ZV_OK)
        return;
    run_has_ipv4 |= it->family == 4;
    run_has_ipv6 |= it->family == 6;
}

static void add_router(const zv_address *it, int none)
{
    const zv_address everywhere = {it->family, {0}};
    (void)none;
    zv_route_add(&run_host, &everywhere, 0, it);
}

static void add_server(const zv_address *it, int none)
{
    (void)none;
    for (int i = 0; i < 3; i++)
        if (run_names[i].family == 0) {
            run_names[i] = *it;
            return;
        }
}

static int say(const char *what)
{
    fprintf(stderr, "zv-run: %s: %s\n", what, strerror(errno));
    return 0;
}

static int begin_host(int is_tap)
{
    zv_settings settings = {
        .medium = is_tap ? ZV_ETHERNET : ZV_IP,
        .hardware = {2, 0x5a},
        .mtu = is_tap ? OFFLOAD_LONGEST : OFFLOAD_LONGEST - 14,
        .frames = 512,
        .keyed = 1,
    };
    const zv_address first = address_of(word("ZV_MARK", "0.0.0.1"));
    memcpy(settings.hardware + 2, first.bytes, 4);
    if (getrandom(&settings.seed, sizeof settings.seed, 0) < 0 || getrandom(settings.isn_key, sizeof settings.isn_key, 0) < 0)
        return say("random words");
    if (zv_host_new(&run_host, &settings, run_now()) != ZV_OK)
        return say("host");
    each(word("ZV_ADDRESS", "10.9.0.2/24"), add_address);
    each(word("ZV_ROUTER", ""), add_router);
    each(word("ZV_DNS", ""), add_server);
    return 1;
}

/* The host's own descriptors are above those that a program counts on. */
static int above(int it)
{
    const int moved = fcntl(it, F_DUPFD_CLOEXEC, INTERNAL);
    if (moved < 0)
        return it;
    syscall(SYS_close, it);
    return moved;
}

static int begin(void)
{
    struct rlimit files;
    const int is_tap = strcmp(word("ZV_KIND", "tap"), "tun") != 0;
    if (getrlimit(RLIMIT_NOFILE, &files) == 0 && files.rlim_cur < MOST_FILES) {
        files.rlim_cur = files.rlim_max < MOST_FILES ? files.rlim_max : MOST_FILES;
        setrlimit(RLIMIT_NOFILE, &files);
    }
    device = offload_open(&joined, word("ZV_DEVICE", "zv0"), is_tap, O_NONBLOCK | O_CLOEXEC);
    if (device < 0)
        return say("device");
    device = joined.device = above(device);
    offload_set(&joined, is_tap, 1, frame_in, &run_host);
    joined.is_trusted = 1;
    bell = above(eventfd(0, EFD_NONBLOCK | EFD_CLOEXEC));
    run_room = (size_t)atol(word("ZV_ROOM", "262144"));
    owner = getpid();
    return begin_host(is_tap) && begin_thread();
}

int run_begins(void)
{
    static int is_tried;
    if (is_inside || (is_begun && !run_is_there()))
        return 0;
    pthread_mutex_lock(&beginning);
    if (!is_tried) {
        is_tried = is_inside = 1;
        is_begun = begin();
        is_inside = 0;
        if (!is_begun)
            _exit(71); /* EX_OSERR: nothing goes by the kernel's own stack in silence */
    }
    pthread_mutex_unlock(&beginning);
    return is_begun;
}

/* What is queued still goes when the program ends, for three seconds at most. */
__attribute__((destructor)) static void end(void)
{
    zv_counts counts;
    if (!run_is_there())
        return;
    const int64_t until = run_now() + 3000000;
    for (int is_more = 1; is_more && run_now() < until;) {
        run_lock();
        is_more = run_ends();
        run_turn();
        run_unlock();
        if (is_more)
            usleep(1000);
    }
    run_lock();
    if (getenv("ZV_COUNTS") != NULL && zv_counters(&run_host, &counts) == ZV_OK)
        fprintf(stderr, "zv-run: %llu frames came in %llu reads, %llu went in %llu writes\n", (unsigned long long)counts.frames_in,
                (unsigned long long)joined.read, (unsigned long long)counts.frames_out, (unsigned long long)joined.written);
}
