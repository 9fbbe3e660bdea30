/* An exchange of thirty circuits: libopenr2 for line and register signals. */
#ifndef EXCHANGE_H
#define EXCHANGE_H
#include <stdint.h>
#include <stdio.h>
#include <openr2.h>

enum { CIRCUITS = 30, FRAME = 32, FRAMES = 16, MULTIFRAME = FRAME * FRAMES };
enum { BLOCK = 160, ROOM = 4 * BLOCK, EVENTS = 16 };
enum { IDLE_OCTET = 0xD5, IDLE_BITS = 9, UNKNOWN_BITS = -1 };
/* the events of DAHDI that libopenr2 reads */
enum { ALARM_BEGINS = 4, ALARM_ENDS = 5, BITS_CHANGED = 13 };

typedef struct {
    int number, slot;
    openr2_chan_t *channel;
    int sent_bits, received_bits;           /* ABCD in slot 16 */
    int events[EVENTS], event_count;        /* of the made-up DAHDI channel */
    uint8_t received[ROOM]; int received_count;
    uint8_t waiting[ROOM]; int waiting_count;       /* octets that libopenr2 has written */
    int64_t seized_at, answer_at;           /* frames; 0 is never */
} circuit_t;

typedef struct {
    int dnis, ani, threshold, answer_after;     /* digits, digits, ms, ms or -1 */
} options_t;

extern circuit_t circuits[CIRCUITS + 1];        /* from 1 */
extern options_t options;
extern int64_t frames;                          /* frames sent: the time */

void report(int circuit, const char *format, ...);      /* an event; circuit 0 is the trunk */
void add_event(circuit_t *circuit, int event);

void open_channels(void);
void process_calls(circuit_t *circuit);
int obey_call(circuit_t *circuit, char **words, int count);

void receive_octets(const uint8_t *octets, int count);
void send_frame(uint8_t *frame);
#endif
