/*
 * One end of an Ethernet OAM link (IEEE 802.3ah, Clause 57): its machine, its frames, its event log.
 * Link with liboam.a. When to call what is in docs/GUIDE.md.
 *
 * True of every function here:
 * - A slice is two arguments: a pointer to its first element, and how many elements it has. The
 *   pointer is never null, also where the count is 0. What a function may write to overlaps no other
 *   slice of that call. No alignment is asked for octets.
 * - Any numbers and any octets may be passed. What makes no sense is refused with an answer, and a
 *   refusal leaves every slice as it was.
 * - A frame is without its FCS. A written frame is whole, with addresses and padding. It fills the
 *   first octets of the output, and the others keep their values.
 * - Nothing is kept between calls but what the caller lends. No function allocates, waits or calls
 *   back.
 */
#ifndef OAM_H
#define OAM_H

/*
 * The version of the archive. It grows with every change request, also where what stands here and a state's
 * octets stay as they were. A state is good for the build that made it: after an update make a fresh end
 * (oam_fresh) and report the link.
 */
#define OAM_VERSION 8

#include <stddef.h>
#include <stdint.h>
#ifndef __cplusplus
#include <stdbool.h>
#endif

#ifdef __cplusplus
extern "C" {
#endif

/*
 * The answers. 1 to 8 and 11 to 15 are given when their line says and no earlier test refuses: of a
 * frame 1 to 5 in order, then the body in the order of its octets; of a request in the order that
 * stands there. When 9 and 10 are given stands at each function.
 */
enum {
    OAM_ACCEPTED = 0,
    OAM_WRONG_LENGTH = 1,       /* received frame is not 60 to 1,514 octets */
    OAM_WRONG_DESTINATION = 2,  /* destination is not 01-80-C2-00-00-02 */
    OAM_WRONG_TYPE = 3,         /* Length/Type is not 88-09 */
    OAM_WRONG_SUBTYPE = 4,      /* subtype is not 3 */
    OAM_WRONG_CODE = 5,         /* code is 05 to FD, or FF */
    OAM_BROKEN = 6,             /* a TLV, descriptor or container is broken */
    OAM_SECOND_TLV = 7,         /* a second Local, or second Remote, Information TLV */
    OAM_WRONG_COMMAND = 8,      /* loopback command of a received frame is not 1 or 2 */
    OAM_SHORT_OUTPUT = 9,       /* lent output or slice of numbers too short */
    OAM_OUT_OF_RANGE = 10,      /* settings or values out of range, or octets that are no state */
    OAM_NOT_IN_SEND_ANY = 11,   /* a request while discovery is not in SEND_ANY */
    OAM_EXCEEDS_MAXIMUM = 12,   /* frame, plus 4, exceeds the smaller of the two maximum sizes */
    OAM_TEN_FRAMES_WRITTEN = 13, /* ten frames written in the present tick interval and the ten before it */
    OAM_NOT_A_LINE = 14,        /* text line is not in its stated form */
    OAM_FORBIDDEN = 15          /* role, mode, own or peer's capability forbids */
};

/* Lengths in octets. */
#define OAM_STATE_OCTETS 96    /* the state of an end */
#define OAM_LEAST_OUT 60       /* the shortest output for a tick, a report and a received frame */
#define OAM_SHORTEST_FRAME 60
#define OAM_LONGEST_FRAME 1514 /* an output of this many octets is never too short for a frame */
#define OAM_LONGEST_LINE 112   /* an output of this many octets is never too short for a log line */

/* Where an organization's data stand in a frame, up to the frame's end. */
#define OAM_ORGANIZATION_AT 21

/* Where the containers of a response stand in a frame, up to the octet after the last one (its OAM_ROW_NEXT). */
#define OAM_CONTAINERS_AT 18

/* Counts of numbers in a slice. */
#define OAM_INFORMATION_NUMBERS 7 /* an Information TLV */
#define OAM_EVENT_NUMBERS 7       /* an event */
#define OAM_ARISEN_NUMBERS 14     /* the two events that may arise with one tick */
#define OAM_ATTRIBUTE_NUMBERS 2   /* an attribute: its descriptor and its width */
#define OAM_HEADER_NUMBERS 5      /* what oam_read, oam_read_all and oam_receive store of a header */
#define OAM_ROW_NUMBERS 10        /* a row, which oam_read_all stores of each part */
#define OAM_LINE_NUMBERS 9        /* what oam_log_read stores */
#define OAM_SHOWN_NUMBERS 43      /* what oam_show stores */

/* The most of a thing in one frame or one call. */
#define OAM_MOST_EVENTS 16      /* that one notification is written with */
#define OAM_MOST_DESCRIPTORS 32 /* that one Variable Request is written with */
#define OAM_MOST_ASKED 498      /* that one call answers, and that one read frame has */
#define OAM_MOST_ATTRIBUTES 64
#define OAM_LEAST_ORGANIZATION_OCTETS 39
#define OAM_MOST_ORGANIZATION_OCTETS 1493

/* The bounds of the settings for the events of an end's own: windows in ticks, thresholds in errors. */
#define OAM_LEAST_FRAME_WINDOW 10
#define OAM_MOST_FRAME_WINDOW 600
#define OAM_LEAST_FRAME_THRESHOLD 1
#define OAM_MOST_FRAME_THRESHOLD 0xFFFFFFFF
#define OAM_LEAST_SECONDS_WINDOW 100 /* and a multiple of 10 */
#define OAM_MOST_SECONDS_WINDOW 9000
#define OAM_LEAST_SECONDS_THRESHOLD 1
#define OAM_MOST_SECONDS_THRESHOLD 0xFFFF

/* The code of a frame. */
enum {
    OAM_CODE_INFORMATION = 0x00,
    OAM_CODE_EVENT_NOTIFICATION = 0x01,
    OAM_CODE_VARIABLE_REQUEST = 0x02,
    OAM_CODE_VARIABLE_RESPONSE = 0x03,
    OAM_CODE_LOOPBACK_CONTROL = 0x04,
    OAM_CODE_ORGANIZATION_SPECIFIC = 0xFE
};

/* The flags of a frame. A field is 0 unsatisfied, 1 not complete, 2 complete. */
enum {
    OAM_FLAG_LINK_FAULT = 0x0001,
    OAM_FLAG_DYING_GASP = 0x0002,
    OAM_FLAG_CRITICAL_EVENT = 0x0004,
    OAM_FLAGS_LOCAL_FIELD = 0x0018,
    OAM_FLAGS_REMOTE_FIELD = 0x0060
};

/* The bits of a configuration. Required capabilities are bits 1 to 4 of them. */
enum {
    OAM_CONFIGURATION_ACTIVE = 0x01,
    OAM_CONFIGURATION_UNIDIRECTIONAL = 0x02,
    OAM_CONFIGURATION_LOOPBACK = 0x04,
    OAM_CONFIGURATION_LINK_EVENTS = 0x08,
    OAM_CONFIGURATION_VARIABLE_RETRIEVAL = 0x10
};

/* The width octet of a container that says that an attribute is not supported. */
#define OAM_NOT_SUPPORTED 0xA1

/* The command of a Loopback Control frame. */
enum { OAM_COMMAND_ENABLE = 1, OAM_COMMAND_DISABLE = 2 };

/* What the parser does with received frames that are not OAM frames. */
enum { OAM_PARSER_FORWARD = 0, OAM_PARSER_LOOPBACK = 1, OAM_PARSER_DISCARD = 2 };

/* What a received frame shows: nothing where it is refused, its header, or its header and new events. */
enum { OAM_SHOWN_NOTHING = 0, OAM_SHOWN_FRAME = 1, OAM_SHOWN_EVENTS = 2 };

/* The reports. */
enum {
    OAM_REPORT_LINK_UP = 0,
    OAM_REPORT_LINK_DOWN = 1,
    OAM_REPORT_DYING_GASP_SET = 2,
    OAM_REPORT_DYING_GASP_CLEARED = 3,
    OAM_REPORT_CRITICAL_EVENT_SET = 4,
    OAM_REPORT_CRITICAL_EVENT_CLEARED = 5
};

/* The role of an end in a loopback, each with its State octet. */
enum {
    OAM_ROLE_IDLE = 0,    /* 00: parser and multiplexer forward */
    OAM_ROLE_ASKING = 1,  /* 06: enable sent; both discard */
    OAM_ROLE_HOLDING = 2, /* 02: the peer loops; parser discards, multiplexer forwards */
    OAM_ROLE_ENDING = 3,  /* 06: disable sent; both discard */
    OAM_ROLE_LOOPING = 4  /* 05: this end loops; parser sends back, multiplexer discards */
};

/* Where discovery stands. */
enum {
    OAM_DISCOVERY_FAULT = 0,
    OAM_DISCOVERY_ACTIVE_SEND_LOCAL = 1,
    OAM_DISCOVERY_PASSIVE_WAIT = 2,
    OAM_DISCOVERY_SEND_LOCAL_REMOTE = 3,
    OAM_DISCOVERY_SEND_LOCAL_REMOTE_OK = 4,
    OAM_DISCOVERY_SEND_ANY = 5
};

/* The places of a header's five numbers. */
enum {
    OAM_HEADER_SOURCE = 0,
    OAM_HEADER_FLAGS = 1, /* all sixteen bits, as received */
    OAM_HEADER_CODE = 2,
    OAM_HEADER_NUMBER = 3,
    OAM_HEADER_SKIPPED = 4 /* TLVs of unknown type that were skipped, at most 748; 0 for codes without TLVs */
};

/* The places of an Information TLV's seven numbers. */
enum {
    OAM_INFORMATION_VERSION = 0,
    OAM_INFORMATION_REVISION = 1,
    OAM_INFORMATION_STATE = 2,
    OAM_INFORMATION_CONFIGURATION = 3,
    OAM_INFORMATION_OAMPDU_CONFIGURATION = 4,
    OAM_INFORMATION_OUI = 5,
    OAM_INFORMATION_VENDOR = 6
};

/* The places of an event's seven numbers, and its types. */
enum {
    OAM_EVENT_TYPE = 0,
    OAM_EVENT_TIMESTAMP = 1,
    OAM_EVENT_WINDOW = 2,
    OAM_EVENT_THRESHOLD = 3,
    OAM_EVENT_ERRORS = 4,
    OAM_EVENT_ERROR_TOTAL = 5,
    OAM_EVENT_EVENT_TOTAL = 6
};
enum {
    OAM_TYPE_SYMBOL_PERIOD = 1,
    OAM_TYPE_FRAME = 2,
    OAM_TYPE_FRAME_PERIOD = 3,
    OAM_TYPE_FRAME_SECONDS = 4
};

/* The places of a log line's nine numbers. The last seven are the event's, in its order. */
enum { OAM_LINE_NUMBER = 0, OAM_LINE_POSITION = 1, OAM_LINE_EVENT = 2 };

/* The places of a row's numbers. The last ones are the part's, and zeros behind them. */
enum {
    OAM_ROW_KIND = 0,
    OAM_ROW_NEXT = 1,    /* the octet of the frame after the part */
    OAM_ROW_SKIPPED = 2, /* TLVs of unknown type skipped before the part since the body's start */
    OAM_ROW_PART = 3
};

/* The kinds of part, none of them an answer's number. The part's numbers stand behind each. */
enum {
    OAM_PART_LOCAL = 32,      /* an Information TLV's seven numbers */
    OAM_PART_REMOTE = 33,     /* an Information TLV's seven numbers */
    OAM_PART_EVENT = 34,      /* an event's seven numbers */
    OAM_PART_DESCRIPTOR = 35, /* the descriptor */
    OAM_PART_VALUE = 36,      /* a container: descriptor, the value's first octet in the frame, its width */
    OAM_PART_INDICATION = 37  /* a container without value: descriptor, the width octet */
};

/* The places of the numbers that oam_show stores. What is held or set is 1, else 0. */
enum {
    OAM_NUMBER_CONFIGURATION = 0, /* the settings, 0 to 5 and 29 to 32 */
    OAM_NUMBER_SIZE = 1,
    OAM_NUMBER_OUI = 2,
    OAM_NUMBER_VENDOR = 3,
    OAM_NUMBER_SOURCE = 4,
    OAM_NUMBER_REQUIRED = 5,
    OAM_NUMBER_LINK_UP = 6,
    OAM_NUMBER_LOST_LINK_COUNT = 7,
    OAM_NUMBER_KEPT_FIELD = 8,
    OAM_NUMBER_RECORD_HELD = 9, /* whether a peer record is held */
    OAM_NUMBER_RECORD = 10,     /* its seven numbers, those of an Information TLV, 10 to 16 */
    OAM_NUMBER_LAST_HELD = 17,  /* whether a received event number is kept: in SEND_ANY, until FAULT */
    OAM_NUMBER_LAST = 18,       /* the last one that was kept */
    OAM_NUMBER_ROLE = 19,
    OAM_NUMBER_TICKS = 20,          /* ticks since the last tenth one, which made an Information frame due */
    OAM_NUMBER_FRAMES_WRITTEN = 21, /* frames written in the present tick interval and the ten before it */
    OAM_NUMBER_REVISION = 22,
    OAM_NUMBER_NEXT_EVENT = 23, /* the number that the next notification carries */
    OAM_NUMBER_DYING_GASP = 24,
    OAM_NUMBER_CRITICAL_EVENT = 25,
    OAM_NUMBER_OWED = 26, /* whether an Information frame is owed */
    OAM_NUMBER_DISCOVERY = 27,
    OAM_NUMBER_INTERVALS = 28, /* the frames of each of 21's intervals: four bits each, the present one's lowest */
    OAM_NUMBER_FRAME_WINDOW = 29,
    OAM_NUMBER_FRAME_THRESHOLD = 30,
    OAM_NUMBER_SECONDS_WINDOW = 31,
    OAM_NUMBER_SECONDS_THRESHOLD = 32,
    OAM_NUMBER_FRAME_TICKS = 33,         /* ticks of the present window of bad frames */
    OAM_NUMBER_FRAME_ERRORS = 34,        /* its bad frames so far, at most 2^32 - 1 */
    OAM_NUMBER_FRAME_ERROR_TOTAL = 35,   /* bad frames since fresh, modulo 2^64 */
    OAM_NUMBER_FRAME_EVENT_TOTAL = 36,   /* events of type 2 that arose since fresh, modulo 2^32 */
    OAM_NUMBER_SECONDS_TICKS = 37,       /* ticks of the present window of errored seconds */
    OAM_NUMBER_SECONDS_ERRORS = 38,      /* its errored seconds so far, the present second not yet among them */
    OAM_NUMBER_SECONDS_ERROR_TOTAL = 39, /* errored seconds since fresh, modulo 2^32 */
    OAM_NUMBER_SECONDS_EVENT_TOTAL = 40, /* events of type 4 that arose since fresh, modulo 2^32 */
    OAM_NUMBER_STAMP = 41,               /* accepted ticks since fresh, modulo 65,536 */
    OAM_NUMBER_SECOND_BAD = 42           /* whether the present second has a bad frame */
};

/*
 * An outcome is what each function that writes returns: the answer in bits 0 to 7, the length written
 * in bits 8 to 39. A call of the machine adds the State octet of the end after the call in bits 40 to
 * 47, and what is shown in bits 48 and 49; a tick also the number of events that arose in bits 50 and 51. The
 * outcome of oam_read_all and that of oam_descriptors have a count in the length's place.
 */
static inline uint8_t oam_answer(uint64_t outcome)
{
    return (uint8_t)(outcome & 0xFF);
}

/* The octets written at the start of the output, 0 for none. */
static inline size_t oam_length(uint64_t outcome)
{
    return (size_t)((outcome >> 8) & 0xFFFFFFFF);
}

/*
 * The parts of the frame that oam_read_all has read, stored or not; the descriptors that oam_descriptors has
 * stored.
 */
static inline size_t oam_count(uint64_t outcome)
{
    return oam_length(outcome);
}

/*
 * The State octet of the end after the call, which a refused call has left as it was. Of no use where a
 * call was refused with OAM_OUT_OF_RANGE for its state: then there is no end, and it is 0.
 */
static inline uint8_t oam_state_octet(uint64_t outcome)
{
    return (uint8_t)((outcome >> 40) & 0xFF);
}

/* OAM_PARSER_FORWARD, OAM_PARSER_LOOPBACK or OAM_PARSER_DISCARD. */
static inline uint8_t oam_parser_action(uint64_t outcome)
{
    return (uint8_t)(oam_state_octet(outcome) & 3);
}

/* Whether the multiplexer discards the client's frames; else it forwards them. */
static inline bool oam_multiplexer_discards(uint64_t outcome)
{
    return (oam_state_octet(outcome) & 4) != 0;
}

/* OAM_SHOWN_NOTHING, OAM_SHOWN_FRAME or OAM_SHOWN_EVENTS. */
static inline uint8_t oam_shown(uint64_t outcome)
{
    return (uint8_t)((outcome >> 48) & 3);
}

/* The events that arose with a tick and stand in its slice, 0 to 2. */
static inline size_t oam_arisen(uint64_t outcome)
{
    return (size_t)((outcome >> 50) & 3);
}

/*
 * The machine. The state of an end is OAM_STATE_OCTETS octets that oam_fresh fills and that each call
 * tests and brings up to date. A state slice of another length, or octets that are no state, give
 * OAM_OUT_OF_RANGE alone, before any other test. A call writes at most one frame.
 */

/*
 * Makes a fresh end: link down, discovery in FAULT, role Idle, all counts 0. The configuration has bits
 * 0 to 4, the size is 64 to 1,518, the OUI below 2^24, the source address below 2^48 (its first octet
 * highest), the required capabilities are among bits 1 to 4. The frame window is 10 to 600 ticks, its
 * threshold 1 to 2^32 - 1 bad frames; the seconds window is 100 to 9,000 ticks and a multiple of 10, its
 * threshold 1 to 65,535 errored seconds. Returns OAM_ACCEPTED with the state stored, or OAM_OUT_OF_RANGE for
 * other settings or a state slice of another length.
 */
uint64_t oam_fresh(uint8_t configuration, uint16_t size, uint32_t oui, uint32_t vendor, uint64_t source,
                   uint8_t required, uint64_t frame_window, uint64_t frame_threshold, uint64_t seconds_window,
                   uint64_t seconds_threshold, uint8_t *state, size_t state_len);

/*
 * Takes one tick: 100 ms have passed since the one before, never less. It opens an interval, and every
 * tenth makes an Information frame due. Where one is owed or due, and sending is allowed (not in
 * PASSIVE_WAIT, and with the link down only if unidirectional), it is written if fewer than ten frames are
 * written in this interval and the ten before it, and else waits.
 *
 * The tick takes the count of bad frames received since the last accepted one, link up or down, for two windows of
 * ticks. Both run from fresh on, window after window without a gap. At the tick that ends one an event arises
 * where its errors reach or exceed the threshold: OAM_TYPE_FRAME of the frame window, whose errors are its bad
 * frames, and OAM_TYPE_FRAME_SECONDS of the seconds window, whose errors are its errored seconds. A second is
 * ten ticks, from fresh on, and errored where one of them brought a bad frame. The totals of an event are over
 * all counts since fresh and over all events of its type that arose, itself included, whatever was sent; they
 * wrap at their field's width. Errors beyond their field show its largest value, and the timestamp is the
 * ticks since fresh modulo 65,536.
 *
 * The seven numbers of each event that arose are stored from the start of the events, OAM_TYPE_FRAME first, as
 * oam_notify takes them; the numbers behind them keep their values, and oam_arisen says how many events there
 * are. No event is sent by itself.
 *
 * Returns an outcome: accepted, or OAM_SHORT_OUTPUT for events under OAM_ARISEN_NUMBERS numbers or an output
 * under OAM_LEAST_OUT octets, also where nothing would be stored or written; the tick is not counted then,
 * opens no interval and takes no count, which is to be given again with the next.
 */
uint64_t oam_tick(uint64_t bad_frames, uint64_t *events, size_t events_len, uint8_t *state, size_t state_len,
                  uint8_t *out, size_t out_len);

/*
 * Takes one report. Writes an Information frame as a tick does where one is owed. Returns an outcome:
 * accepted, OAM_OUT_OF_RANGE for a number that is no report, or OAM_SHORT_OUTPUT for an output under
 * OAM_LEAST_OUT octets, also where nothing would be written.
 */
uint64_t oam_report(uint8_t report, uint8_t *state, size_t state_len, uint8_t *out, size_t out_len);

/*
 * Takes one received frame. Of an accepted one five numbers are stored in the header: source, flags,
 * code, the event number where the events are new, else 0, and how many TLVs were skipped. Whether events
 * are new is what oam_shown says, since an event number may be 0. What was skipped changes nothing of the
 * end, and is told of every accepted frame, also with the link down, outside SEND_ANY and of a repeat.
 * Writes an Information frame as a tick does where one is owed.
 * Returns an outcome: accepted, OAM_SHORT_OUTPUT for a header under OAM_HEADER_NUMBERS numbers or an
 * output under OAM_LEAST_OUT octets, before the frame is read, or a refusal 1 to 8 of the frame.
 */
uint64_t oam_receive(const uint8_t *frame, size_t frame_len, uint64_t *header, size_t header_len, uint8_t *state,
                     size_t state_len, uint8_t *out, size_t out_len);

/*
 * The six requests. Each writes its own frame, and no Information frame: the next tick, report or
 * received frame writes one that is owed. Each tests, in this order, OAM_OUT_OF_RANGE,
 * OAM_NOT_IN_SEND_ANY, OAM_FORBIDDEN, OAM_EXCEEDS_MAXIMUM, OAM_TEN_FRAMES_WRITTEN and OAM_SHORT_OUTPUT,
 * and returns an outcome. oam_respond tests the same without OAM_EXCEEDS_MAXIMUM.
 */

/*
 * Asks the peer to loop: writes a Loopback Control frame with enable, and the role becomes Asking.
 * Forbidden to a passive end, in a role other than Idle and Asking, and where the peer has no loopback.
 */
uint64_t oam_start(uint8_t *state, size_t state_len, uint8_t *out, size_t out_len);

/*
 * Asks the peer to end looping: writes a Loopback Control frame with disable, and the role becomes
 * Ending. Forbidden to a passive end, and in a role other than Asking, Holding and Ending.
 */
uint64_t oam_stop(uint8_t *state, size_t state_len, uint8_t *out, size_t out_len);

/*
 * Asks for variables of the peer: writes a Variable Request frame with 1 to 32 descriptors, each the
 * branch (1 to 255) above the leaf's sixteen bits. Forbidden to a passive end.
 */
uint64_t oam_request(const uint32_t *descriptors, size_t descriptors_len, uint8_t *state, size_t state_len,
                     uint8_t *out, size_t out_len);

/*
 * Tells the peer of events: writes an Event Notification frame with 1 to 16 events of seven numbers each,
 * under the next event number, which then grows by one (65,535 going to 0). The events are the caller's own, or
 * those that arose with a tick.
 */
uint64_t oam_notify(const uint64_t *events, size_t events_len, uint8_t *state, size_t state_len, uint8_t *out,
                    size_t out_len);

/* Sends an organization's data: writes an organization specific frame with its OUI and 39 to 1,493 octets. */
uint64_t oam_organization(uint32_t oui, const uint8_t *octets, size_t octets_len, uint8_t *state, size_t state_len,
                          uint8_t *out, size_t out_len);

/*
 * Answers variables that the peer asks for: writes a Variable Response frame with one container for each
 * of 1 to 498 descriptors, in the order asked. The descriptors are those of the received Variable Request,
 * which oam_descriptors stores; no request needs to have come. A request without descriptors has no answer.
 *
 * The attributes that are held, 0 to 64 of them, are two numbers each: the descriptor (branch 1 to 255
 * above the leaf's sixteen bits), and the width of the value, 1 to 128 octets. The values stand one after
 * another in the same order. Neither slice is written to. A container has the value of its attribute, or
 * OAM_NOT_SUPPORTED where none is held. A descriptor that is asked twice is answered twice.
 *
 * From the first container that does not fit, it and the rest are left off, so that the frame, plus 4, is
 * within the smaller of the two maximum sizes. To go on, count the containers of the written frame
 * (oam_read_all) and call again with the descriptors from there. Where the first does not fit the frame has
 * none, and going on means to pass that descriptor over: its value is too long for this link.
 *
 * Out of range are another count of descriptors or attributes, an odd count of attribute numbers, a
 * descriptor of branch 0 or above 24 bits, another width, one descriptor held twice, and values that are
 * not as many octets as the widths say. Forbidden to an end whose own configuration has no
 * OAM_CONFIGURATION_VARIABLE_RETRIEVAL, and to an active end whose peer is passive.
 */
uint64_t oam_respond(const uint32_t *attributes, size_t attributes_len, const uint8_t *values, size_t values_len,
                     const uint32_t *descriptors, size_t descriptors_len, uint8_t *state, size_t state_len,
                     uint8_t *out, size_t out_len);

/*
 * Shows a state as OAM_SHOWN_NUMBERS numbers and changes nothing of it. Returns OAM_ACCEPTED with the
 * numbers stored, OAM_OUT_OF_RANGE for what is no state, then OAM_SHORT_OUTPUT for fewer numbers.
 */
uint64_t oam_show(const uint8_t *state, size_t state_len, uint64_t *numbers, size_t numbers_len);

/*
 * Frames, without a machine. A writer returns an outcome: accepted, OAM_OUT_OF_RANGE for what has no
 * plain form, then OAM_SHORT_OUTPUT. Out of range for every writer are a source of more than 48 bits,
 * flag bits 7 to 15, and a flag field of 3.
 */

/*
 * Writes an Information frame. A TLV is its seven numbers, or no number where there is none. Out of
 * range are another count, a number beyond its width, bits set that are ignored, and a Remote without a
 * Local.
 */
uint64_t oam_write_information(uint64_t source, uint16_t flags, const uint64_t *local, size_t local_len,
                               const uint64_t *remote, size_t remote_len, uint8_t *out, size_t out_len);

/* Writes an Event Notification frame with its number and 1 to 16 events of seven numbers each. */
uint64_t oam_write_notification(uint64_t source, uint16_t flags, uint16_t number, const uint64_t *events,
                                size_t events_len, uint8_t *out, size_t out_len);

/* Writes a Variable Request frame with 1 to 32 descriptors, each the branch above the leaf's sixteen bits. */
uint64_t oam_write_request(uint64_t source, uint16_t flags, const uint32_t *descriptors, size_t descriptors_len,
                           uint8_t *out, size_t out_len);

/*
 * Writes a Variable Response frame of containers as they stand in a frame: the octets of one that was read,
 * from OAM_CONTAINERS_AT to the end of its last container, or no octet for none. Out of range are more than 1,496
 * octets, a container that is broken, and a branch 0, which would end them before their last octet.
 */
uint64_t oam_write_response(uint64_t source, uint16_t flags, const uint8_t *containers, size_t containers_len,
                            uint8_t *out, size_t out_len);

/* Writes a Loopback Control frame with OAM_COMMAND_ENABLE or OAM_COMMAND_DISABLE. */
uint64_t oam_write_loopback(uint64_t source, uint16_t flags, uint8_t command, uint8_t *out, size_t out_len);

/* Writes an organization specific frame with its OUI and 39 to 1,493 octets of data. */
uint64_t oam_write_organization(uint64_t source, uint16_t flags, uint32_t oui, const uint8_t *octets,
                                size_t octets_len, uint8_t *out, size_t out_len);

/*
 * Reads a frame. Stores five numbers in the header: source, flags, code, the number at the body's start
 * (event number, loopback command or OUI, else 0), and how many TLVs were skipped. Returns OAM_ACCEPTED,
 * OAM_SHORT_OUTPUT for a shorter header, before all, or a refusal 1 to 8 of the frame.
 */
uint64_t oam_read(const uint8_t *frame, size_t frame_len, uint64_t *header, size_t header_len);

/*
 * Reads a frame and its parts. Stores the header as oam_read does, and the parts in order as rows of
 * OAM_ROW_NUMBERS numbers, from the start of the slice. The first parts, as many as "first" says, are
 * passed over; of the others as many are stored as the slice holds whole rows, and what is behind them
 * stays as it was. TLVs of unknown type are no parts: beside each part stands how many of them were skipped
 * before it since the body's start, also where parts are passed over. Loopback Control and organization
 * specific frames have no parts. Returns an outcome with the count of all parts of the frame: accepted, OAM_SHORT_OUTPUT for a
 * shorter header, before all, or a refusal 1 to 8 of the frame.
 */
uint64_t oam_read_all(const uint8_t *frame, size_t frame_len, size_t first, uint64_t *header, size_t header_len,
                      uint64_t *rows, size_t rows_len);

/*
 * Reads all descriptors of a Variable Request frame. Stores them in order, each the branch above the leaf's
 * sixteen bits; OAM_MOST_ASKED numbers are always enough. Returns an outcome with their count: accepted, a
 * refusal 1 to 8 of the frame, OAM_OUT_OF_RANGE for a frame of another code, then OAM_SHORT_OUTPUT for fewer
 * numbers than the frame has descriptors. A Variable Request without descriptors gives count 0.
 */
uint64_t oam_descriptors(const uint8_t *frame, size_t frame_len, uint32_t *descriptors, size_t descriptors_len);

/*
 * The sent-event log. Writes the line of one event of seven numbers that was sent at a position, 1 to 16,
 * of the notification with a number, 0 to 65,535. Returns an outcome: accepted, OAM_OUT_OF_RANGE, then
 * OAM_SHORT_OUTPUT. The line ends in a newline, and no zero octet follows it.
 */
uint64_t oam_log_write(uint64_t number, uint64_t position, const uint64_t *event, size_t event_len, uint8_t *out,
                       size_t out_len);

/*
 * Reads a line, newline included. Stores nine numbers: number, position, and the event's seven. Returns
 * OAM_ACCEPTED, OAM_SHORT_OUTPUT for fewer numbers, before all, or OAM_NOT_A_LINE.
 */
uint64_t oam_log_read(const uint8_t *text, size_t text_len, uint64_t *values, size_t values_len);

#ifdef __cplusplus
}
#endif

#endif
