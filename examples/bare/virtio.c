#include "virtio.h"

#include "mem.h"

/* The registers of a device (4.2.2), by words of four bytes. */
enum {
    MAGIC = 0x000 / 4, VERSION = 0x004 / 4, DEVICE = 0x008 / 4, DRIVER_FEATURES = 0x020 / 4, DRIVER_FEATURES_SEL = 0x024 / 4,
    QUEUE_SEL = 0x030 / 4, QUEUE_NUM = 0x038 / 4, QUEUE_READY = 0x044 / 4, QUEUE_NOTIFY = 0x050 / 4, STATUS = 0x070 / 4,
    QUEUE_DESC = 0x080 / 4, QUEUE_DRIVER = 0x090 / 4, QUEUE_DEVICE = 0x0a0 / 4, CONFIG = 0x100 / 4
};
enum { ACKNOWLEDGE = 1, DRIVER = 2, DRIVER_OK = 4, FEATURES_OK = 8, HAS_ADDRESS = 1 << 5, VERSION_1 = 1, IS_WRITTEN = 2 };
enum { SLOTS = 64, HEADER = 12, RECEIVE = 0, SEND = 1, FIRST_DEVICE = 0x0a000000, DEVICES = 32, APART = 0x200 };

/* A queue of frames (2.6): descriptors, what is given to the device, and what it gives back. */
struct descriptor {
    uint64_t address;
    uint32_t length;
    uint16_t flags, next;
};

struct queue {
    struct descriptor descriptors[SLOTS] __attribute__((aligned(16)));
    struct { uint16_t flags, index, ring[SLOTS]; } given __attribute__((aligned(2)));
    struct { uint16_t flags, index; struct { uint32_t slot, length; } ring[SLOTS]; } back __attribute__((aligned(4)));
    uint16_t seen;
    uint8_t frames[SLOTS][HEADER + VIRTIO_FRAME + 2];
};

static struct queue receiving, sending;
static volatile uint32_t *device;

static void barrier(void)
{
    __asm__ volatile("dmb sy" ::: "memory");
}

static void set_address(int at, const volatile void *address)
{
    device[at] = (uint32_t)(uintptr_t)address;
    device[at + 1] = (uint32_t)((uintptr_t)address >> 32);
}

static void give(struct queue *queue, uint16_t slot)
{
    queue->given.ring[queue->given.index % SLOTS] = slot;
    barrier();
    queue->given.index++;
    barrier();
}

static void start_queue(struct queue *queue, uint32_t number)
{
    for (uint16_t slot = 0; slot < SLOTS; slot++) {
        const struct descriptor all = {(uintptr_t)queue->frames[slot], HEADER + VIRTIO_FRAME, number == RECEIVE ? IS_WRITTEN : 0, 0};
        queue->descriptors[slot] = all;
        if (number == RECEIVE)
            give(queue, slot);
    }
    device[QUEUE_SEL] = number;
    device[QUEUE_NUM] = SLOTS;
    set_address(QUEUE_DESC, queue->descriptors);
    set_address(QUEUE_DRIVER, &queue->given);
    set_address(QUEUE_DEVICE, &queue->back);
    device[QUEUE_READY] = 1;
}

static volatile uint32_t *find(void)
{
    for (uintptr_t i = 0; i < DEVICES; i++) {
        volatile uint32_t *it = (volatile uint32_t *)(FIRST_DEVICE + i * APART);
        if (it[MAGIC] == 0x74726976 && it[VERSION] == 2 && it[DEVICE] == 1)
            return it;
    }
    return NULL;
}

int virtio_start(uint8_t address[6])
{
    device = find();
    if (device == NULL)
        return 0;
    device[STATUS] = 0;
    device[STATUS] = ACKNOWLEDGE | DRIVER;
    device[DRIVER_FEATURES_SEL] = 0;
    device[DRIVER_FEATURES] = HAS_ADDRESS;
    device[DRIVER_FEATURES_SEL] = 1;
    device[DRIVER_FEATURES] = VERSION_1;
    device[STATUS] = ACKNOWLEDGE | DRIVER | FEATURES_OK;
    if ((device[STATUS] & FEATURES_OK) == 0)
        return 0;
    start_queue(&receiving, RECEIVE);
    start_queue(&sending, SEND);
    device[STATUS] = ACKNOWLEDGE | DRIVER | FEATURES_OK | DRIVER_OK;
    device[QUEUE_NOTIFY] = RECEIVE;
    for (int i = 0; i < 6; i++)
        address[i] = ((volatile uint8_t *)&device[CONFIG])[i];
    return 1;
}

size_t virtio_receive(uint8_t frame[VIRTIO_FRAME])
{
    barrier();
    if (receiving.seen == *(volatile uint16_t *)&receiving.back.index)
        return 0;
    const uint32_t slot = receiving.back.ring[receiving.seen % SLOTS].slot % SLOTS;
    const uint32_t whole = receiving.back.ring[receiving.seen % SLOTS].length;
    const size_t length = whole > HEADER && whole <= HEADER + VIRTIO_FRAME ? whole - HEADER : 0;
    memcpy(frame, receiving.frames[slot] + HEADER, length);
    receiving.seen++;
    give(&receiving, (uint16_t)slot);
    device[QUEUE_NOTIFY] = RECEIVE;
    return length;
}

int virtio_send(const uint8_t *frame, size_t length)
{
    barrier();
    sending.seen = *(volatile uint16_t *)&sending.back.index;
    if ((uint16_t)(sending.given.index - sending.seen) >= SLOTS || length > VIRTIO_FRAME)
        return 0;
    const uint16_t slot = sending.given.index % SLOTS;
    memset(sending.frames[slot], 0, HEADER);
    memcpy(sending.frames[slot] + HEADER, frame, length);
    sending.descriptors[slot].length = (uint32_t)(HEADER + length);
    give(&sending, slot);
    device[QUEUE_NOTIFY] = SEND;
    return 1;
}
