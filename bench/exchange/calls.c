/* Calls: what libopenr2 reports, and the commands to it. */
#include <stdlib.h>
#include <string.h>
#include <unistd.h>
#include "exchange.h"
#include "dahdi.h"

enum { FRAMES_A_MS = 8 };

static circuit_t *circuit_of(openr2_chan_t *channel) { return openr2_chan_get_client_data(channel); }
static int number_of(openr2_chan_t *channel) { return circuit_of(channel)->number; }
static int64_t after(int ms) { return ms < 0 ? 0 : frames + (int64_t)ms * FRAMES_A_MS + 1; }

static void call_begins(openr2_chan_t *channel) { report(number_of(channel), "seized"); }

static void call_offered(openr2_chan_t *channel, const char *ani, const char *dnis,
                         openr2_calling_party_category_t category)
{
    (void)category;
    report(number_of(channel), "offered %s %s", ani && *ani ? ani : "-", dnis && *dnis ? dnis : "-");
    openr2_chan_accept_call(channel, OR2_CALL_WITH_CHARGE);
}

static void call_accepted(openr2_chan_t *channel, openr2_call_mode_t mode)
{
    circuit_t *circuit = circuit_of(channel);
    (void)mode;
    report(circuit->number, "accepted");
    if (openr2_chan_get_direction(channel) == OR2_DIR_BACKWARD) circuit->answer_at = after(options.answer_after);
}

static void call_answered(openr2_chan_t *channel)
{
    circuit_t *circuit = circuit_of(channel);
    report(circuit->number, "answered %lld", (long long)(frames - circuit->seized_at) / FRAMES_A_MS);
}

static void call_disconnected(openr2_chan_t *channel, openr2_call_disconnect_cause_t cause)
{
    report(number_of(channel), "disconnected %s", openr2_proto_get_disconnect_string(cause));
    openr2_chan_disconnect_call(channel, OR2_CAUSE_NORMAL_CLEARING);
}

static void call_ended(openr2_chan_t *channel)
{
    circuit_t *circuit = circuit_of(channel);
    circuit->answer_at = 0;
    report(circuit->number, "ended");
}

static void call_read(openr2_chan_t *channel, const unsigned char *octets, int count)
{
    (void)channel, (void)octets, (void)count;
}

static void alarm_changed(openr2_chan_t *channel, int alarm) { (void)channel, (void)alarm; }
static void system_failed(openr2_chan_t *channel, int error)
{
    report(number_of(channel), "error %s", strerror(error));
}

static void protocol_failed(openr2_chan_t *channel, openr2_protocol_error_t error)
{
    report(number_of(channel), "error %s", openr2_proto_get_error(error));
}

static void line_blocked(openr2_chan_t *channel) { report(number_of(channel), "blocked"); }
static void line_idle(openr2_chan_t *channel) { report(number_of(channel), "idle"); }
static void charged(openr2_chan_t *channel) { report(number_of(channel), "charged"); }
static int digit_of_called(openr2_chan_t *channel, char digit) { (void)channel, (void)digit; return 1; }
static void digit_of_caller(openr2_chan_t *channel, char digit) { (void)channel, (void)digit; }

static void context_logged(openr2_context_t *context, openr2_log_level_t level, const char *format, va_list list)
{
    (void)context, (void)level, (void)format, (void)list;
}

static void channel_logged(openr2_chan_t *channel, openr2_log_level_t level, const char *format, va_list list)
{
    (void)channel, (void)level, (void)format, (void)list;
}

static openr2_event_interface_t reported = {
    .on_call_init = call_begins, .on_call_offered = call_offered, .on_call_accepted = call_accepted,
    .on_call_answered = call_answered, .on_call_disconnect = call_disconnected, .on_call_end = call_ended,
    .on_call_read = call_read, .on_hardware_alarm = alarm_changed, .on_os_error = system_failed,
    .on_protocol_error = protocol_failed, .on_line_blocked = line_blocked, .on_line_idle = line_idle,
    .on_context_log = context_logged, .on_dnis_digit_received = digit_of_called,
    .on_ani_digit_received = digit_of_caller, .on_billing_pulse_received = charged };

static openr2_context_t *open_context(void)
{
    openr2_context_t *context =
        openr2_context_new(NULL, &reported, NULL, OR2_VAR_ITU, options.ani, options.dnis);
    if (!context) { fprintf(stderr, "exchange: libopenr2 refuses these options\n"); exit(1); }
    openr2_context_set_log_level(context, OR2_LOG_NOTHING);
    if (options.threshold) openr2_context_set_mf_threshold(context, options.threshold);
    return context;
}

void open_channels(void)
{
    openr2_context_t *context = open_context();
    for (int n = 1; n <= CIRCUITS; n++) {
        circuit_t *circuit = &circuits[n];
        circuit->number = n;
        circuit->slot = n < 16 ? n : n + 1;
        circuit->sent_bits = IDLE_BITS;
        circuit->received_bits = UNKNOWN_BITS;
        circuit->channel = openr2_chan_new_from_fd(context, DESCRIPTORS + n, NULL, NULL);
        if (!circuit->channel) { fprintf(stderr, "exchange: libopenr2 opens no channel\n"); exit(1); }
        openr2_chan_set_client_data(circuit->channel, circuit);
        openr2_chan_set_logging_func(circuit->channel, channel_logged);
        openr2_chan_set_idle(circuit->channel);
    }
}

static int hang_up(circuit_t *circuit)
{
    return openr2_chan_disconnect_call(circuit->channel, OR2_CAUSE_NORMAL_CLEARING);
}

void process_calls(circuit_t *circuit)
{
    openr2_chan_process_event(circuit->channel);
    if (circuit->answer_at && frames >= circuit->answer_at) {
        circuit->answer_at = 0;
        openr2_chan_answer_call(circuit->channel);
        report(circuit->number, "answers");
    }
}

static int call(circuit_t *circuit, const char *ani, const char *dnis)
{
    circuit->seized_at = frames;
    return openr2_chan_make_call(circuit->channel, ani, dnis, OR2_CALLING_PARTY_CATEGORY_NATIONAL_SUBSCRIBER);
}

/* Returns 0 if the words are no command of a call. */
int obey_call(circuit_t *circuit, char **words, int count)
{
    const char *name = words[0];
    int refused = 0;
    if (!strcmp(name, "call") && count == 4) refused = call(circuit, words[2], words[3]);
    else if (!strcmp(name, "answer")) refused = openr2_chan_answer_call(circuit->channel);
    else if (!strcmp(name, "hangup")) refused = hang_up(circuit);
    else if (!strcmp(name, "block")) refused = openr2_chan_set_blocked(circuit->channel);
    else if (!strcmp(name, "unblock")) refused = openr2_chan_set_idle(circuit->channel);
    else return 0;
    if (refused) report(circuit->number, "refused");
    return 1;
}
