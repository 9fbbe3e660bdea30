/* The trunk: frames of ITU-T G.704 without CRC-4, line signals in slot 16. */
#include <string.h>
#include "exchange.h"

enum { SIGNAL = 0x9B, SIGNAL_BITS = 0x7F, SECOND_BIT = 0x40, REMOTE_ALARM = 0x20, MULTIFRAME_ALARM = 0x04 };
enum { WRONG_SIGNALS = 3, WRONG_MULTIFRAMES = 2 };      /* in a row: alignment is lost (G.706 4.1.1, G.732) */

static struct {
    uint8_t held[3 * FRAME];
    int count;                  /* octets held */
    int aligned, multiframe_aligned;
    int has_signal;             /* the frame to come has the frame alignment signal */
    int place;                  /* of that frame in its multiframe */
    int wrong, wrong_multiframes, last_signalling;
} receiver = { .last_signalling = -1 };

static void alarm_begins_or_ends(int event)
{
    for (int n = 1; n <= CIRCUITS; n++) add_event(&circuits[n], event);
}

static void lose_multiframe(void)
{
    receiver.multiframe_aligned = 0;
    receiver.last_signalling = -1;
    report(0, "multiframe alignment lost");
    alarm_begins_or_ends(ALARM_BEGINS);
}

static void receive_bits(circuit_t *circuit, int bits)
{
    if (circuit->received_bits == bits) return;
    report(circuit->number, "receives %x", bits);
    circuit->received_bits = bits;
    add_event(circuit, BITS_CHANGED);
}

static void search_multiframe(uint8_t octet)
{
    int last = receiver.last_signalling;
    receiver.last_signalling = octet;
    if (last < 0 || !(last & 0xF0) || octet & 0xF0) return;
    receiver.multiframe_aligned = 1;
    receiver.place = 0;
    receiver.wrong_multiframes = 0;
    report(0, "multiframe alignment found");
    alarm_begins_or_ends(ALARM_ENDS);
}

static void receive_signalling(uint8_t octet)
{
    if (!receiver.multiframe_aligned) { search_multiframe(octet); return; }
    receiver.place = (receiver.place + 1) % FRAMES;
    if (receiver.place) {
        receive_bits(&circuits[receiver.place], octet >> 4);
        receive_bits(&circuits[receiver.place + 15], octet & 15);
    } else {
        receiver.wrong_multiframes = octet & 0xF0 ? receiver.wrong_multiframes + 1 : 0;
        if (receiver.wrong_multiframes >= WRONG_MULTIFRAMES) lose_multiframe();
    }
}

static void receive_speech(circuit_t *circuit, uint8_t octet)
{
    if (circuit->received_count == ROOM) {
        circuit->received_count -= BLOCK;
        memmove(circuit->received, circuit->received + BLOCK, circuit->received_count);
    }
    circuit->received[circuit->received_count++] = octet;
}

static void lose_frame(void)
{
    receiver.aligned = receiver.count = receiver.wrong = 0;
    report(0, "frame alignment lost");
    lose_multiframe();
}

static void receive_frame(const uint8_t *frame)
{
    if (receiver.has_signal) receiver.wrong = (frame[0] ^ SIGNAL) & SIGNAL_BITS ? receiver.wrong + 1 : 0;
    receiver.has_signal = !receiver.has_signal;
    if (receiver.wrong >= WRONG_SIGNALS) { lose_frame(); return; }
    receive_signalling(frame[16]);
    for (int n = 1; n <= CIRCUITS; n++) receive_speech(&circuits[n], frame[circuits[n].slot]);
}

/* The search of G.706 4.1.2: the signal, none a frame later, the signal again. */
static void search_frame(void)
{
    const uint8_t *held = receiver.held;
    if (receiver.count < 2 * FRAME + 1) return;
    if ((held[0] ^ SIGNAL) & SIGNAL_BITS || !(held[FRAME] & SECOND_BIT) || (held[2 * FRAME] ^ SIGNAL) & SIGNAL_BITS) {
        memmove(receiver.held, held + 1, --receiver.count);
        return;
    }
    receiver.aligned = receiver.has_signal = 1;
    receiver.held[0] = held[2 * FRAME];
    receiver.count = 1;
    report(0, "frame alignment found");
}

void receive_octets(const uint8_t *octets, int count)
{
    for (int i = 0; i < count; i++) {
        receiver.held[receiver.count++] = octets[i];
        if (!receiver.aligned) search_frame();
        else if (receiver.count == FRAME) { receiver.count = 0; receive_frame(receiver.held); }
    }
}

static uint8_t next_octet(circuit_t *circuit)
{
    if (!circuit->waiting_count) return IDLE_OCTET;
    uint8_t octet = circuit->waiting[0];
    memmove(circuit->waiting, circuit->waiting + 1, --circuit->waiting_count);
    return octet;
}

static uint8_t signalling(int place)
{
    if (place) return circuits[place].sent_bits << 4 | circuits[place + 15].sent_bits;
    return 0x0B | (receiver.multiframe_aligned ? 0 : MULTIFRAME_ALARM);
}

void send_frame(uint8_t *frame)
{
    frame[0] = frames & 1 ? 0xDF | (receiver.aligned ? 0 : REMOTE_ALARM) : SIGNAL;
    for (int n = 1; n <= CIRCUITS; n++) frame[circuits[n].slot] = next_octet(&circuits[n]);
    frame[16] = signalling(frames % FRAMES);
    frames++;
}
