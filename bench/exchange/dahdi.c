/* libopenr2 1.3.3 speaks to DAHDI channels alone. The program is linked with --wrap for ioctl, read, write and
 * gettimeofday, so that its thirty descriptors end here and its clock is the trunk's. No DAHDI is needed. */
#include <errno.h>
#include <stdarg.h>
#include <string.h>
#include <sys/ioctl.h>
#include <sys/time.h>
#include "exchange.h"
#include "dahdi.h"

ssize_t __real_read(int, void *, size_t);
ssize_t __real_write(int, const void *, size_t);
int __real_ioctl(int, unsigned long, ...);

static circuit_t *circuit_of(int descriptor)
{
    int n = descriptor - DESCRIPTORS;
    return n >= 1 && n <= CIRCUITS ? &circuits[n] : NULL;
}

void add_event(circuit_t *circuit, int event)
{
    if (circuit->event_count < EVENTS) circuit->events[circuit->event_count++] = event;
}

static int take_event(circuit_t *circuit)
{
    if (!circuit->event_count) return 0;
    int event = circuit->events[0];
    memmove(circuit->events, circuit->events + 1, sizeof(int) * --circuit->event_count);
    return event;
}

static void set_bits(circuit_t *circuit, int bits)
{
    if (circuit->sent_bits != bits) report(circuit->number, "sends %x", bits);
    circuit->sent_bits = bits;
}

static int ready(const circuit_t *circuit, int wanted)
{
    int found = 0;
    if (circuit->event_count) found |= IOMUX_EVENT;
    if (circuit->received_count >= BLOCK) found |= IOMUX_READ;
    if (circuit->waiting_count <= ROOM - BLOCK) found |= IOMUX_WRITE;
    return found & wanted;
}

int __wrap_ioctl(int descriptor, unsigned long request, ...)
{
    va_list list;
    va_start(list, request);
    void *argument = va_arg(list, void *);
    va_end(list);
    circuit_t *circuit = circuit_of(descriptor);
    if (!circuit) return __real_ioctl(descriptor, request, argument);
    int *value = argument;
    switch (request) {
    case GET_NUMBER: *value = circuit->number; return 0;
    case GET_PARAMETERS:
        memset(argument, 0, PARAMETERS_SIZE);
        value[PARAMETERS_SIGNALLING] = SIGNALLING_CAS;
        return 0;
    case GET_BUFFERS: memset(argument, 0, BUFFERS_SIZE); return 0;
    case SET_BUFFERS: case SET_GAINS: case SET_LAW: case SET_ECHO: return 0;
    case SET_BITS: set_bits(circuit, *value); return 0;
    case GET_BITS: *value = circuit->received_bits < 0 ? 0 : circuit->received_bits; return 0;
    case FLUSH: circuit->waiting_count = 0; return 0;
    case GET_EVENT: *value = take_event(circuit); return 0;
    case IOMUX: *value = ready(circuit, *value); return 0;
    default: errno = ENOTTY; report(circuit->number, "unknown ioctl %lx", request); return -1;
    }
}

ssize_t __wrap_read(int descriptor, void *room, size_t count)
{
    circuit_t *circuit = circuit_of(descriptor);
    if (!circuit) return __real_read(descriptor, room, count);
    int n = circuit->received_count < (int)count ? circuit->received_count : (int)count;
    memcpy(room, circuit->received, n);
    circuit->received_count -= n;
    memmove(circuit->received, circuit->received + n, circuit->received_count);
    return n;
}

ssize_t __wrap_write(int descriptor, const void *octets, size_t count)
{
    circuit_t *circuit = circuit_of(descriptor);
    if (!circuit) return __real_write(descriptor, octets, count);
    int n = ROOM - circuit->waiting_count < (int)count ? ROOM - circuit->waiting_count : (int)count;
    memcpy(circuit->waiting + circuit->waiting_count, octets, n);
    circuit->waiting_count += n;
    return n;
}

int __wrap_gettimeofday(struct timeval *now, void *zone)
{
    (void)zone;
    now->tv_sec = 1000000000 + frames / 8000;
    now->tv_usec = frames % 8000 * 125;
    return 0;
}
