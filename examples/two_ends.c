/*
 * Two ends of one link in one process. The office end is active, orders a loopback test and asks for
 * counters; the box at the far end is passive, loops, tells of bad frames and answers. Each calls the
 * machine as firmware does. In the place of the fibre stands a queue for each direction, which carries
 * one frame a tick. Printed is who sends what and where the ends stand. The program returns 1 where
 * something does not go as it must.
 */
#include "oam.h"

#include <inttypes.h>
#include <stdio.h>
#include <stdlib.h>
#include <string.h>

#define QUEUE 8
#define MOST_TICKS 30
#define STATE_AND_OUT(e) (e)->state, sizeof (e)->state, (e)->out, sizeof (e)->out

static const char *const discoveries[] = {
    "FAULT", "ACTIVE_SEND_LOCAL", "PASSIVE_WAIT", "SEND_LOCAL_REMOTE", "SEND_LOCAL_REMOTE_OK", "SEND_ANY"};
static const char *const roles[] = {"Idle", "Asking", "Holding", "Ending", "Looping"};
static const char *const actions[] = {"forwards", "loops", "discards"};

struct frame {
    uint8_t octets[OAM_LONGEST_FRAME];
    size_t length;
};

struct end {
    const char *name;
    uint8_t state[OAM_STATE_OCTETS];
    uint8_t out[OAM_LONGEST_FRAME];
    uint8_t parser; /* what the MAC was last told */
    bool multiplexer_discards;
    uint64_t bad_frames;       /* that the MAC has counted since the last tick */
    struct frame queue[QUEUE]; /* on the way from this end */
    size_t first, count;
    size_t events_heard;
    size_t values_heard;
};

static void must(bool holds, const char *what)
{
    if (!holds) {
        fprintf(stderr, "two_ends: this must hold and does not: %s\n", what);
        exit(1);
    }
}

static uint64_t number_of(const struct end *e, size_t which)
{
    uint64_t numbers[OAM_SHOWN_NUMBERS];
    must(oam_show(e->state, sizeof e->state, numbers, OAM_SHOWN_NUMBERS) == OAM_ACCEPTED, "a state can be shown");
    return numbers[which];
}

static void print_end(const struct end *e)
{
    printf("  %-6s %s, %s: parser %s, multiplexer %s\n", e->name, discoveries[number_of(e, OAM_NUMBER_DISCOVERY)],
           roles[number_of(e, OAM_NUMBER_ROLE)], actions[e->parser], actions[e->multiplexer_discards ? 2 : 0]);
}

static void print_frame(const struct end *e, const struct frame *f)
{
    static const char *const codes[] = {"Information", "Event Notification", "Variable Request", "Variable Response",
                                        "Loopback Control"};
    uint64_t h[OAM_HEADER_NUMBERS];
    must(oam_read(f->octets, f->length, h, OAM_HEADER_NUMBERS) == OAM_ACCEPTED, "a written frame can be read");
    must(h[OAM_HEADER_CODE] <= OAM_CODE_LOOPBACK_CONTROL, "nothing organization specific is sent");
    printf("  %-6s sends %s", e->name, codes[h[OAM_HEADER_CODE]]);
    if (h[OAM_HEADER_CODE] == OAM_CODE_LOOPBACK_CONTROL) {
        printf(" (%s)", h[OAM_HEADER_NUMBER] == OAM_COMMAND_ENABLE ? "enable" : "disable");
    }
    printf(", flags %04" PRIx64 ", %zu octets\n", h[OAM_HEADER_FLAGS], f->length);
}

/* What firmware does with every outcome: first the MAC takes the actions, then the frame goes down. */
static void finish(struct end *e, uint64_t outcome)
{
    must(oam_answer(outcome) == OAM_ACCEPTED, "every call is accepted");
    e->parser = oam_parser_action(outcome);
    e->multiplexer_discards = oam_multiplexer_discards(outcome);
    if (oam_length(outcome) > 0) {
        struct frame *f = &e->queue[(e->first + e->count) % QUEUE];
        must(e->count < QUEUE, "the queue has room");
        f->length = oam_length(outcome);
        memcpy(f->octets, e->out, f->length);
        e->count += 1;
        print_frame(e, f);
    }
}

static void print_events(struct end *e, const struct frame *f)
{
    uint64_t header[OAM_HEADER_NUMBERS], rows[OAM_MOST_EVENTS * OAM_ROW_NUMBERS];
    uint64_t outcome = oam_read_all(f->octets, f->length, 0, header, OAM_HEADER_NUMBERS, rows,
                                    OAM_MOST_EVENTS * OAM_ROW_NUMBERS);
    must(oam_answer(outcome) == OAM_ACCEPTED, "a frame that shows events can be read");
    must(oam_count(outcome) <= OAM_MOST_EVENTS, "a written frame has no more events");
    for (size_t row = 0; row < oam_count(outcome); row += 1) {
        const uint64_t *event = &rows[row * OAM_ROW_NUMBERS + OAM_ROW_PART];
        printf("  %-6s hears of an event of type %" PRIu64 " with %" PRIu64 " errors\n", e->name,
               event[OAM_EVENT_TYPE], event[OAM_EVENT_ERRORS]);
        e->events_heard += 1;
    }
}

/* A Variable Request is answered by the counters that are held: branch 7, leaves 2 and 5, of four octets each. */
static void answer(struct end *e, const struct frame *f)
{
    static const uint32_t attributes[2 * OAM_ATTRIBUTE_NUMBERS] = {0x070002, 4, 0x070005, 4};
    static const uint8_t values[] = {0, 0, 1, 44, 0, 0, 2, 88};
    uint32_t asked[OAM_MOST_ASKED];
    uint64_t read = oam_descriptors(f->octets, f->length, asked, OAM_MOST_ASKED);
    if (oam_answer(read) == OAM_ACCEPTED && oam_count(read) > 0) {
        finish(e, oam_respond(attributes, 2 * OAM_ATTRIBUTE_NUMBERS, values, sizeof values, asked, oam_count(read),
                              STATE_AND_OUT(e)));
    }
}

/* A response is written again of its containers as they stand in its frame, up to the octet after the last one. */
static void write_again(const struct frame *f, const uint64_t *header, size_t end)
{
    uint8_t again[OAM_LONGEST_FRAME];
    uint64_t outcome = oam_write_response(header[OAM_HEADER_SOURCE], (uint16_t)header[OAM_HEADER_FLAGS],
                                          &f->octets[OAM_CONTAINERS_AT], end - OAM_CONTAINERS_AT, again, sizeof again);
    must(oam_length(outcome) == f->length && memcmp(again, f->octets, f->length) == 0,
         "a response that is read and written again has the same octets");
}

/* What a Variable Response says, each container by its row. */
static void print_values(struct end *e, const struct frame *f)
{
    uint64_t header[OAM_HEADER_NUMBERS], rows[3 * OAM_ROW_NUMBERS];
    uint64_t outcome = oam_read_all(f->octets, f->length, 0, header, OAM_HEADER_NUMBERS, rows, 3 * OAM_ROW_NUMBERS);
    must(oam_answer(outcome) == OAM_ACCEPTED, "a response can be read");
    must(oam_count(outcome) >= 1 && oam_count(outcome) <= 3, "what was asked is answered, and no more");
    write_again(f, header, rows[(oam_count(outcome) - 1) * OAM_ROW_NUMBERS + OAM_ROW_NEXT]);
    for (size_t row = 0; row < oam_count(outcome); row += 1) {
        const uint64_t *container = &rows[row * OAM_ROW_NUMBERS + OAM_ROW_PART];
        printf("  %-6s reads %06" PRIx64 ":", e->name, container[0]);
        if (rows[row * OAM_ROW_NUMBERS + OAM_ROW_KIND] == OAM_PART_VALUE) {
            for (size_t i = 0; i < container[2]; i += 1) {
                printf(" %02x", f->octets[container[1] + i]);
            }
            e->values_heard += 1;
        } else {
            printf(" %s", container[1] == OAM_NOT_SUPPORTED ? "not supported" : "no value");
        }
        printf("\n");
    }
}

/* The first frame on its way from one end, if there is one, reaches the other. */
static void carry(struct end *from, struct end *to)
{
    if (from->count > 0) {
        const struct frame *f = &from->queue[from->first];
        uint64_t header[OAM_HEADER_NUMBERS];
        uint64_t outcome = oam_receive(f->octets, f->length, header, OAM_HEADER_NUMBERS, STATE_AND_OUT(to));
        from->first = (from->first + 1) % QUEUE;
        from->count -= 1;
        finish(to, outcome);
        must(oam_answer(outcome) != OAM_ACCEPTED || header[OAM_HEADER_SKIPPED] == 0,
             "an end sends no TLV that the other skips");
        if (oam_shown(outcome) == OAM_SHOWN_EVENTS) {
            print_events(to, f);
        } else if (header[OAM_HEADER_CODE] == OAM_CODE_VARIABLE_REQUEST) {
            answer(to, f);
        } else if (header[OAM_HEADER_CODE] == OAM_CODE_VARIABLE_RESPONSE) {
            print_values(to, f);
        }
    }
}

static bool is(const struct end *e, uint64_t role)
{
    return number_of(e, OAM_NUMBER_DISCOVERY) == OAM_DISCOVERY_SEND_ANY && number_of(e, OAM_NUMBER_ROLE) == role;
}

/* Tells the peer of events and prints their lines of the sent-event log. */
static void notify(struct end *e, const uint64_t *events, size_t count)
{
    uint64_t number = number_of(e, OAM_NUMBER_NEXT_EVENT);
    finish(e, oam_notify(events, count * OAM_EVENT_NUMBERS, STATE_AND_OUT(e)));
    for (size_t i = 0; i < count; i += 1) {
        uint8_t line[OAM_LONGEST_LINE];
        uint64_t outcome =
            oam_log_write(number, i + 1, &events[i * OAM_EVENT_NUMBERS], OAM_EVENT_NUMBERS, line, sizeof line);
        must(oam_answer(outcome) == OAM_ACCEPTED, "the log line is written");
        printf("  %-6s logs %.*s", e->name, (int)oam_length(outcome), (const char *)line);
    }
}

/* One tick of an end. It takes what the MAC has counted, and the peer is told of the events that arise. */
static void tick(struct end *e)
{
    uint64_t events[OAM_ARISEN_NUMBERS];
    uint64_t outcome = oam_tick(e->bad_frames, events, OAM_ARISEN_NUMBERS, STATE_AND_OUT(e));
    finish(e, outcome);
    e->bad_frames = 0;
    for (size_t i = 0; i < oam_arisen(outcome); i += 1) {
        const uint64_t *event = &events[i * OAM_EVENT_NUMBERS];
        printf("  %-6s has an event of type %" PRIu64 ": %" PRIu64 " errors in %" PRIu64 " ticks\n", e->name,
               event[OAM_EVENT_TYPE], event[OAM_EVENT_ERRORS], event[OAM_EVENT_WINDOW]);
    }
    if (oam_arisen(outcome) > 0) {
        notify(e, events, oam_arisen(outcome));
    }
}

/* One tick of both ends, and what reaches them after it. */
static void tick_both(struct end *office, struct end *box)
{
    tick(office);
    tick(box);
    carry(office, box);
    carry(box, office);
}

/* Ticks, one at least, until both ends are in SEND_ANY with these roles. */
static void tick_until(struct end *office, uint64_t office_role, struct end *box, uint64_t box_role)
{
    unsigned ticks = 0;
    do {
        must(ticks < MOST_TICKS, "the ends get there in thirty ticks");
        ticks += 1;
        tick_both(office, box);
    } while (!is(office, office_role) || !is(box, box_role));
    printf("after %u tick%s\n", ticks, ticks == 1 ? "" : "s");
    print_end(office);
    print_end(box);
}

int main(void)
{
    static struct end office = {.name = "office"}, box = {.name = "box"};
    const uint8_t both_can = OAM_CONFIGURATION_LOOPBACK | OAM_CONFIGURATION_LINK_EVENTS;
    /* An event for one bad frame in a second, and for one errored second in a minute: the standard's defaults. */
    must(oam_fresh(both_can | OAM_CONFIGURATION_ACTIVE, 1518, 0x00CAFE, 1, 0x020000000001,
                   OAM_CONFIGURATION_LOOPBACK, 10, 1, 600, 1, office.state, sizeof office.state) == OAM_ACCEPTED,
         "the office's settings are in range");
    must(oam_fresh(both_can | OAM_CONFIGURATION_VARIABLE_RETRIEVAL, 1518, 0x00CAFE, 2, 0x020000000002, 0, 10, 1, 600,
                   1, box.state, sizeof box.state) == OAM_ACCEPTED,
         "the box's settings are in range");

    printf("the link comes up\n");
    finish(&office, oam_report(OAM_REPORT_LINK_UP, STATE_AND_OUT(&office)));
    finish(&box, oam_report(OAM_REPORT_LINK_UP, STATE_AND_OUT(&box)));
    print_end(&office);
    print_end(&box);
    tick_until(&office, OAM_ROLE_IDLE, &box, OAM_ROLE_IDLE);

    printf("the desk orders a loopback test\n");
    finish(&office, oam_start(STATE_AND_OUT(&office)));
    print_end(&office);
    tick_until(&office, OAM_ROLE_HOLDING, &box, OAM_ROLE_LOOPING);
    must(box.parser == OAM_PARSER_LOOPBACK && box.multiplexer_discards, "the box sends back what it receives");
    must(office.parser == OAM_PARSER_DISCARD && !office.multiplexer_discards, "the office can send test frames");

    printf("the desk ends the test\n");
    finish(&office, oam_stop(STATE_AND_OUT(&office)));
    print_end(&office);
    tick_until(&office, OAM_ROLE_IDLE, &box, OAM_ROLE_IDLE);
    must(box.parser == OAM_PARSER_FORWARD && !box.multiplexer_discards, "the box serves its subscriber again");

    printf("the box receives bad frames\n");
    box.bad_frames = 3;
    for (unsigned ticks = 0; office.events_heard == 0; ticks += 1) {
        must(ticks < MOST_TICKS, "the office hears of the event");
        tick_both(&office, &box);
    }
    must(office.events_heard == 1, "the office hears of the event once");
    must(number_of(&box, OAM_NUMBER_FRAME_ERROR_TOTAL) == 3, "the box has counted every bad frame");

    printf("the desk reads counters\n");
    const uint32_t asked[] = {0x070002, 0x070008, 0x070005};
    finish(&office, oam_request(asked, 3, STATE_AND_OUT(&office)));
    for (unsigned ticks = 0; office.values_heard < 2; ticks += 1) {
        must(ticks < MOST_TICKS, "the office reads the two counters that the box holds");
        tick_both(&office, &box);
    }
    return 0;
}
