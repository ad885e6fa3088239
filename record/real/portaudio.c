/* portaudio.c: PortAudio's ring buffer. Debian: portaudio19-dev has it in libportaudio.a but has no header for it: the functions called here are declared as in
 * pa_ringbuffer.h of its source. All of its 8 elements are used. */
#include "relay.h"

typedef long ring_buffer_size_t;
typedef struct PaUtilRingBuffer {
    ring_buffer_size_t bufferSize;
    volatile ring_buffer_size_t writeIndex, readIndex;
    ring_buffer_size_t bigMask, smallMask, elementSizeBytes;
    char *buffer;
} PaUtilRingBuffer;
ring_buffer_size_t PaUtil_InitializeRingBuffer(PaUtilRingBuffer *, ring_buffer_size_t bytes, ring_buffer_size_t count, void *memory);
ring_buffer_size_t PaUtil_WriteRingBuffer(PaUtilRingBuffer *, const void *elements, ring_buffer_size_t count);
ring_buffer_size_t PaUtil_ReadRingBuffer(PaUtilRingBuffer *, void *elements, ring_buffer_size_t count);

static PaUtilRingBuffer ring;
static uint64_t memory[8];
static void make(void) {
    if (PaUtil_InitializeRingBuffer(&ring, sizeof *memory, 8, memory)) exit(2);
}
static size_t put_all(const uint64_t *v, size_t n) { return (size_t)PaUtil_WriteRingBuffer(&ring, v, (ring_buffer_size_t)n); }
static size_t take_all(uint64_t *v, size_t n) { return (size_t)PaUtil_ReadRingBuffer(&ring, v, (ring_buffer_size_t)n); }
static int put(uint64_t v) { return put_all(&v, 1) == 1; }
static int take(uint64_t *v) { return take_all(v, 1) == 1; }

int main(int argc, char **argv) {
    const relay_queue queues[] = {
        { "portaudio", "queue 8", NULL, make, put, take, NULL, NULL, 0 },
        { "portaudio_batch", "queue 8", NULL, make, put, take, put_all, take_all, 0 },
    };
    return relay_main(argc, argv, queues, 2);
}
