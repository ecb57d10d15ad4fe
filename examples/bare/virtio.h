/* An Ethernet controller by virtio over memory (Virtual I/O Device 1.1, 4.2 and 5.1), polled, without interrupts. */
#include <stddef.h>
#include <stdint.h>

enum { VIRTIO_FRAME = 1514 };

/* Looks for the controller among the board's devices and starts it; says its address. Says whether there was one. */
int virtio_start(uint8_t address[6]);

/* The next frame that came is copied; its length, 0 where there is none. */
size_t virtio_receive(uint8_t frame[VIRTIO_FRAME]);

/* Sends a frame, if the last ones have gone far enough. Says whether it was taken. */
int virtio_send(const uint8_t *frame, size_t length);
