/* Dultxibe: event and diagnostic reporting (IEEE 802.11v) of a timing gate, for C.
 *
 * The functions are proved Rattle code (crates/firmware); link libfirmware.a, and for dultxibe_explain
 * (crates/firmware_explain) libfirmware_explain.a. This file is written
 * by hand, and nothing proves it: examples/check holds a station's size to the archive, and the
 * assertions at the end hold the other structs to the sizes and offsets of crates/firmware. It is for
 * x86-64 (System V), and needs C11.
 *
 * Words: a station is document 01's gate, a requester its console, refused its turned away; a place
 * is an octet of a frame.
 *
 * A station is the caller's: setup returns one, and every call is lent it with a reading of the
 * millisecond counter, makes of it the next station where it stands, and returns the answer:
 *
 *     struct dultxibe_outcome o = dultxibe_setup(identity, length, requesters, count);
 *     struct dultxibe_reply reply = dultxibe_tick(&o.station, reading);
 *
 * The functions keep nothing, call nothing but memcpy, memmove and memset, and need no memory but
 * the stack. A station that is lent comes from dultxibe_setup, whole, or is a copy of one. Every other
 * struct may hold any numbers, but has every field set. A flag is a uint8_t: any number but 0 is true,
 * and a function gives 0 or 1. A pointer is never null, also where its length is 0, and a station or a
 * buffer that is written overlaps nothing else that is handed in. */
#ifndef DULTXIBE_H
#define DULTXIBE_H

#include <stddef.h>
#include <stdint.h>

#ifdef __cplusplus
extern "C" {
#endif

/* ---- answers */

enum {
    DULTXIBE_ACCEPTED = 0,
    DULTXIBE_NOTHING = 1, /* no request is outstanding; the buffer is as it was */
    DULTXIBE_LENGTH = 2,  /* a frame stands at the front of the buffer */
    DULTXIBE_REFUSED = 3
};

/* Why a call is refused: document 01's table, "Why a call is turned away". The place is 0 but where
 * another is named. */
enum {
    DULTXIBE_CAUSE_BAD_FRAME_LENGTH = 1,    /* frame under 3 or over 2,304 octets */
    DULTXIBE_CAUSE_BAD_HEADER = 2,          /* category not 10, or another action */
    DULTXIBE_CAUSE_ZERO_DIALOG_TOKEN = 3,   /* a request's dialog token is 0 */
    DULTXIBE_CAUSE_ELEMENT_PAST_END = 4,    /* element passes the frame's end; place: its start */
    DULTXIBE_CAUSE_SHORT_ELEMENT = 5,       /* element's body too short; place: its start */
    DULTXIBE_CAUSE_BAD_ELEMENT_TOKEN = 6,   /* token repeated, or an event's is 0; place: element */
    DULTXIBE_CAUSE_BAD_SUBELEMENT = 7,      /* passes the end, or wrong length; place: its start */
    DULTXIBE_CAUSE_REPEATED_SUBELEMENT = 8, /* a condition stands twice; place: the second */
    DULTXIBE_CAUSE_TOO_MANY_ELEMENTS = 9,   /* more than eight elements; place: the ninth */
    DULTXIBE_CAUSE_NO_ELEMENT = 10,         /* a diagnostic request without one */
    DULTXIBE_CAUSE_GROUP_DESTINATION = 11,  /* the destination is a group address */
    DULTXIBE_CAUSE_UNKNOWN_REQUESTER = 12,  /* not on the station's list */
    DULTXIBE_CAUSE_SHORT_BUFFER = 13,       /* under 260 octets for a report, 267 for a request */
    DULTXIBE_CAUSE_BAD_TIME = 14,           /* out of range, not unknown; place when reading: element */
    DULTXIBE_CAUSE_BAD_REQUESTER_LIST = 15, /* empty, over four, repeated, with a group address, or
                                               with a form that is none; reading: the form is none */
    DULTXIBE_CAUSE_BAD_IDENTITY = 16,       /* no good identity */
    DULTXIBE_CAUSE_BAD_REPORT_BODY = 17,    /* bad status, or length for it, also an event of the other
                                               form; place: element. Logging: an RSN element not of
                                               0 or 22 octets */
    DULTXIBE_CAUSE_NO_LOGGED_EVENT = 18     /* explaining: no event stands at the position */
};

/* code is one of the four answers. length is 0 but for DULTXIBE_LENGTH; cause and place are 0 but for
 * DULTXIBE_REFUSED. */
struct dultxibe_reply {
    uint8_t code;
    uint8_t cause;
    size_t place;
    size_t length;
};

/* What a frame asks for or reports. A function takes any number but 0 for DULTXIBE_DIAGNOSTIC. */
enum { DULTXIBE_EVENT = 0, DULTXIBE_DIAGNOSTIC = 1 };

/* The form of an event's time fields in a report: the draft's nine octets of time, or the published
 * TSF, UTC offset and event time error. Any other number is no form. */
enum { DULTXIBE_DRAFT = 0, DULTXIBE_PUBLISHED = 1 };

/* Event types that are logged and reported; every other one is answered DULTXIBE_INCAPABLE. */
enum { DULTXIBE_TRANSITION = 0, DULTXIBE_RSNA = 1, DULTXIBE_PEER_LINK = 2 };

/* Statuses of a report element. */
enum {
    DULTXIBE_SUCCESSFUL = 0,
    DULTXIBE_FAIL = 1,
    DULTXIBE_REFUSED_STATUS = 2,
    DULTXIBE_INCAPABLE = 3,
    DULTXIBE_CANCELLED = 4
};

/* ---- the station */

/* A station: its time, its identity, its log of 64 events, its requesters. What it holds is not for
 * the caller, who copies it as a whole. */
struct dultxibe_station {
    uint64_t opaque[981];
};

/* A requester as a list names it: its address, and the form of the reports to it. */
struct dultxibe_requester {
    uint8_t address[6];
    uint8_t form;
};

/* The time fields of an event, those of both forms. time: milliseconds 2, second, minute, hour, day,
 * month, year 2, each in its range or all ones (unknown). tsf, utc_offset and time_error are not read,
 * and go out as they are handed in. */
struct dultxibe_times {
    uint8_t time[9];
    uint8_t tsf[8];
    uint8_t utc_offset[10];
    uint8_t time_error[5];
};

/* A transition to be logged. signals: source RCPI, source RSNI, target RCPI, target RSNI. departure: a
 * reading. */
struct dultxibe_transition {
    struct dultxibe_times times;
    uint8_t source[6];
    uint8_t target[6];
    uint8_t reason;
    uint16_t result;
    uint8_t signals[4];
    uint32_t departure;
};

/* An RSNA event to be logged. method, the EAP method: eight octets where its first is 254, else that
 * one alone; what stands past them is not read. */
struct dultxibe_rsna_event {
    struct dultxibe_times times;
    uint8_t target[6];
    uint8_t authentication[4];
    uint8_t method[8];
    uint8_t result;
};

/* A peer-to-peer link event to be logged. connection, the connection time, goes out as it is handed
 * in. */
struct dultxibe_peer_link {
    struct dultxibe_times times;
    uint8_t peer[6];
    uint8_t regulatory_class;
    uint8_t channel;
    uint8_t power;
    uint8_t connection[3];
    uint8_t status;
};

/* What setup gives. */
struct dultxibe_outcome {
    struct dultxibe_station station;
    struct dultxibe_reply reply;
};

/* Sets up a station with an identity (a subelement list) and one to four requesters.
 * Accepted; or refused by BAD_REQUESTER_LIST or BAD_IDENTITY, with a station that has no requester. */
struct dultxibe_outcome dultxibe_setup(const uint8_t *identity, size_t length,
                                       const struct dultxibe_requester *requesters, size_t count);

/* A bare clock reading: advances the station's time by the reading's difference from the call before,
 * modulo 2^32, then drops each unanswered diagnostic that is late, as every call below does first. The
 * first call after setup is at time zero. Calls lie less than 2^32 ms (49.7 days) apart, and readings
 * never go back. Accepted. */
struct dultxibe_reply dultxibe_tick(struct dultxibe_station *station, uint32_t reading);

/* Logs a transition that ends at the reading. Accepted; or refused by BAD_TIME. */
struct dultxibe_reply dultxibe_log_transition(struct dultxibe_station *station, uint32_t reading,
                                              struct dultxibe_transition transition);

/* Logs an RSNA event with its RSN element of 22 octets, or without one (length 0). Accepted; or
 * refused by BAD_TIME, then BAD_REPORT_BODY (another length). */
struct dultxibe_reply dultxibe_log_rsna(struct dultxibe_station *station, uint32_t reading,
                                        struct dultxibe_rsna_event event, const uint8_t *rsn,
                                        size_t length);

/* Logs a peer-to-peer link event. Accepted; or refused by BAD_TIME. */
struct dultxibe_reply dultxibe_log_peer_link(struct dultxibe_station *station, uint32_t reading,
                                             struct dultxibe_peer_link event);

/* Takes a request frame. Accepted; or refused by GROUP_DESTINATION, UNKNOWN_REQUESTER (its source),
 * or one of 1 to 10 (the frame). */
struct dultxibe_reply dultxibe_frame(struct dultxibe_station *station, uint32_t reading,
                                     const uint8_t destination[6], const uint8_t source[6],
                                     const uint8_t *frame, size_t length);

/* Writes the next report frame of a kind for a requester, in its form, at the front of the buffer. The
 * length of the frame, at most 2,304, octets past it as they were; or nothing; or refused by
 * UNKNOWN_REQUESTER or SHORT_BUFFER, the buffer as it was. Elements go in the request's order, the
 * events of each newest first; what does not fit is left for the next call. */
struct dultxibe_reply dultxibe_report(struct dultxibe_station *station, uint32_t reading,
                                      const uint8_t requester[6], uint8_t kind, uint8_t *buffer,
                                      size_t length);

/* A move inside the network: names the requesters anew, with their forms, drops every request, keeps
 * the log. Accepted; or refused by BAD_REQUESTER_LIST, or BAD_IDENTITY (the station has none). */
struct dultxibe_reply dultxibe_roam(struct dultxibe_station *station, uint32_t reading,
                                    const struct dultxibe_requester *requesters, size_t count);

/* A network change: the same, and empties the log. */
struct dultxibe_reply dultxibe_change_network(struct dultxibe_station *station, uint32_t reading,
                                              const struct dultxibe_requester *requesters,
                                              size_t count);

/* Why an event of the log is absent from the reports of a request element: the first reason that
 * applies, in this order. */
enum {
    DULTXIBE_UNEXPLAINED = 0,   /* refused */
    DULTXIBE_LOGGED_AFTER = 1,  /* logged after the request was accepted */
    DULTXIBE_WRONG_TYPE = 2,    /* the element asks for another event type */
    DULTXIBE_UNMET = 3,         /* it does not meet a condition */
    DULTXIBE_LIMIT_REACHED = 4, /* newer events that match are as many as the limit */
    DULTXIBE_REPORTED = 5       /* it is not absent */
};

/* condition, the subelement's ID, is 0 but for DULTXIBE_UNMET; cause and place are 0 but for
 * DULTXIBE_UNEXPLAINED. */
struct dultxibe_explanation {
    uint8_t reason;
    uint8_t condition;
    uint8_t cause;
    size_t place;
};

/* Says why the event at a position of the log (the oldest is 0) is absent from the reports of an event
 * request element, given whole, with its ID; count places of the log, from the oldest, were logged
 * before the request was accepted (over the log's length: all). Conditions are tried in the order in
 * which they stand in the element. Refused by 4 to 8 (the element; also 4 where its ID is another or
 * octets stand behind it), then NO_LOGGED_EVENT; a place is one of the element. It is no call: it has no
 * reading, takes the station by value, and leaves it as it is. */
struct dultxibe_explanation dultxibe_explain(struct dultxibe_station station, const uint8_t *element,
                                             size_t length, size_t count, size_t position);

/* ---- the requester's side */

/* A condition: whether it is present (a flag), and its octets as they go on the air, least octet
 * first; those past its length are not read. */
struct dultxibe_condition {
    uint8_t present;
    uint8_t octets[8];
};

/* A request element. limit is an event's; timeout, in seconds, a diagnostic's. filter, by event type,
 * in this order:
 * - DULTXIBE_TRANSITION: target BSSID (6 octets), source BSSID (6), transition time threshold in TUs
 *   (2), match value (1), frequent transition (count threshold 1, interval in minutes 2);
 * - DULTXIBE_RSNA: target BSSID (6), authentication type (4), EAP method (8 where its first octet is
 *   254, else 1), match value of the result (1);
 * - DULTXIBE_PEER_LINK: peer address (6), regulatory class and channel (1 and 1; channel 0 is any).
 * A match value's bit 0 admits result 0, bit 1 every other. Conditions that a type does not have are
 * not written. */
struct dultxibe_request_element {
    uint8_t token;
    uint8_t type;
    uint16_t timeout;
    uint8_t limit;
    struct dultxibe_condition filter[5];
};

/* What the request writer takes; count elements. */
struct dultxibe_request {
    uint8_t kind;
    uint8_t dialog;
    size_t count;
    struct dultxibe_request_element elements[8];
};

/* A report frame: refused by a cause at a place; or cause 0, and its kind, dialog token and number of
 * elements. */
struct dultxibe_report_frame {
    uint8_t cause;
    uint8_t kind;
    uint8_t dialog;
    size_t place;
    size_t count;
};

/* A report element: length octets stand behind its status; subs of them subelements in a diagnostic;
 * an event of its type where logged (a flag). */
struct dultxibe_report_element {
    uint8_t token;
    uint8_t type;
    uint8_t status;
    uint8_t logged;
    size_t length;
    size_t subs;
};

/* What stands at a position of a report frame: refused by a cause at a place; or cause 0, and an
 * element of the frame's kind (found, a flag), with the position of what stands behind its status,
 * rest; or an element of another ID (not found). next is the position behind it. */
struct dultxibe_step {
    uint8_t cause;
    uint8_t found;
    size_t place;
    size_t rest;
    size_t next;
    struct dultxibe_report_element element;
};

/* A reported transition; took is its transition time in TUs. Of times, here and below, the fields that
 * the report's form does not carry are zeros. */
struct dultxibe_transition_report {
    struct dultxibe_times times;
    uint8_t source[6];
    uint8_t target[6];
    uint16_t took;
    uint8_t reason;
    uint16_t result;
    uint8_t signals[4];
};

/* A reported RSNA event. method has zeros past its length. rsn_length is 22, or 0 where there is no RSN
 * element, and rsn all zeros. */
struct dultxibe_rsna_report {
    struct dultxibe_times times;
    uint8_t target[6];
    uint8_t authentication[4];
    uint8_t method[8];
    uint8_t result;
    uint8_t rsn[22];
    size_t rsn_length;
};

/* A reported peer-to-peer link event. */
struct dultxibe_peer_link_report {
    struct dultxibe_times times;
    uint8_t peer[6];
    uint8_t regulatory_class;
    uint8_t channel;
    uint8_t power;
    uint8_t connection[3];
    uint8_t status;
};

/* Where the first element of a frame stands. */
enum { DULTXIBE_FIRST_ELEMENT = 3 };

/* Writes a request frame at the front of the buffer. Its length, octets past it as they were; or
 * refused by SHORT_BUFFER, ZERO_DIALOG_TOKEN, TOO_MANY_ELEMENTS, BAD_ELEMENT_TOKEN or NO_ELEMENT,
 * the buffer as it was. */
struct dultxibe_reply dultxibe_write_request(struct dultxibe_request request, uint8_t *buffer,
                                             size_t length);

/* Validates a whole report frame in a form: cause 0; or refused by BAD_REQUESTER_LIST (the form is
 * none), GROUP_DESTINATION, BAD_FRAME_LENGTH, BAD_HEADER, ELEMENT_PAST_END, SHORT_ELEMENT,
 * BAD_REPORT_BODY, BAD_TIME (DULTXIBE_DRAFT alone) or BAD_SUBELEMENT. */
struct dultxibe_report_frame dultxibe_read_report(uint8_t form, const uint8_t destination[6],
                                                  const uint8_t *frame, size_t length);

/* Reads what stands at a position of a report frame of a kind, in a form, from DULTXIBE_FIRST_ELEMENT
 * and then each step's next, while that is below length. Refused by BAD_REQUESTER_LIST, at 0, where the
 * form is none; else by ELEMENT_PAST_END, SHORT_ELEMENT, BAD_REPORT_BODY, BAD_TIME or BAD_SUBELEMENT
 * where the frame is. */
struct dultxibe_step dultxibe_next_element(uint8_t form, uint8_t kind, size_t position,
                                           const uint8_t *frame, size_t length);

/* The fields of an event of each type, from the octets behind the status of a logged element: at rest,
 * length of them, in the form that it was read in; any number but 0 is taken for DULTXIBE_PUBLISHED. Of
 * any other octets a field is what stands in its place, 0 past the end, and rsn_length how many stand
 * behind the result. */
struct dultxibe_transition_report dultxibe_read_transition(uint8_t form, const uint8_t *octets,
                                                           size_t length);

struct dultxibe_rsna_report dultxibe_read_rsna(uint8_t form, const uint8_t *octets, size_t length);

struct dultxibe_peer_link_report dultxibe_read_peer_link(uint8_t form, const uint8_t *octets,
                                                         size_t length);

/* ---- sizes and offsets */

#ifdef __cplusplus
#define DULTXIBE_ASSERT(test) static_assert(test, #test)
#else
#define DULTXIBE_ASSERT(test) _Static_assert(test, #test)
#endif
#define DULTXIBE_AT(type, field, place) DULTXIBE_ASSERT(offsetof(struct type, field) == (place))
#define DULTXIBE_SIZE(type, size) DULTXIBE_ASSERT(sizeof(struct type) == (size))

DULTXIBE_ASSERT(sizeof(size_t) == 8);

DULTXIBE_SIZE(dultxibe_reply, 24);
DULTXIBE_AT(dultxibe_reply, cause, 1);
DULTXIBE_AT(dultxibe_reply, place, 8);
DULTXIBE_AT(dultxibe_reply, length, 16);

DULTXIBE_SIZE(dultxibe_explanation, 16);
DULTXIBE_AT(dultxibe_explanation, condition, 1);
DULTXIBE_AT(dultxibe_explanation, cause, 2);
DULTXIBE_AT(dultxibe_explanation, place, 8);

DULTXIBE_SIZE(dultxibe_requester, 7);
DULTXIBE_AT(dultxibe_requester, form, 6);

DULTXIBE_SIZE(dultxibe_times, 32);
DULTXIBE_AT(dultxibe_times, tsf, 9);
DULTXIBE_AT(dultxibe_times, utc_offset, 17);
DULTXIBE_AT(dultxibe_times, time_error, 27);

DULTXIBE_SIZE(dultxibe_transition, 56);
DULTXIBE_AT(dultxibe_transition, source, 32);
DULTXIBE_AT(dultxibe_transition, target, 38);
DULTXIBE_AT(dultxibe_transition, reason, 44);
DULTXIBE_AT(dultxibe_transition, result, 46);
DULTXIBE_AT(dultxibe_transition, signals, 48);
DULTXIBE_AT(dultxibe_transition, departure, 52);

DULTXIBE_SIZE(dultxibe_rsna_event, 51);
DULTXIBE_AT(dultxibe_rsna_event, target, 32);
DULTXIBE_AT(dultxibe_rsna_event, authentication, 38);
DULTXIBE_AT(dultxibe_rsna_event, method, 42);
DULTXIBE_AT(dultxibe_rsna_event, result, 50);

DULTXIBE_SIZE(dultxibe_peer_link, 45);
DULTXIBE_AT(dultxibe_peer_link, peer, 32);
DULTXIBE_AT(dultxibe_peer_link, regulatory_class, 38);
DULTXIBE_AT(dultxibe_peer_link, channel, 39);
DULTXIBE_AT(dultxibe_peer_link, power, 40);
DULTXIBE_AT(dultxibe_peer_link, connection, 41);
DULTXIBE_AT(dultxibe_peer_link, status, 44);

DULTXIBE_AT(dultxibe_outcome, reply, sizeof(struct dultxibe_station));

DULTXIBE_SIZE(dultxibe_condition, 9);
DULTXIBE_AT(dultxibe_condition, octets, 1);

DULTXIBE_SIZE(dultxibe_request_element, 50);
DULTXIBE_AT(dultxibe_request_element, type, 1);
DULTXIBE_AT(dultxibe_request_element, timeout, 2);
DULTXIBE_AT(dultxibe_request_element, limit, 4);
DULTXIBE_AT(dultxibe_request_element, filter, 5);

DULTXIBE_SIZE(dultxibe_request, 416);
DULTXIBE_AT(dultxibe_request, dialog, 1);
DULTXIBE_AT(dultxibe_request, count, 8);
DULTXIBE_AT(dultxibe_request, elements, 16);

DULTXIBE_SIZE(dultxibe_report_frame, 24);
DULTXIBE_AT(dultxibe_report_frame, kind, 1);
DULTXIBE_AT(dultxibe_report_frame, dialog, 2);
DULTXIBE_AT(dultxibe_report_frame, place, 8);
DULTXIBE_AT(dultxibe_report_frame, count, 16);

DULTXIBE_SIZE(dultxibe_report_element, 24);
DULTXIBE_AT(dultxibe_report_element, type, 1);
DULTXIBE_AT(dultxibe_report_element, status, 2);
DULTXIBE_AT(dultxibe_report_element, logged, 3);
DULTXIBE_AT(dultxibe_report_element, length, 8);
DULTXIBE_AT(dultxibe_report_element, subs, 16);

DULTXIBE_SIZE(dultxibe_step, 56);
DULTXIBE_AT(dultxibe_step, found, 1);
DULTXIBE_AT(dultxibe_step, place, 8);
DULTXIBE_AT(dultxibe_step, rest, 16);
DULTXIBE_AT(dultxibe_step, next, 24);
DULTXIBE_AT(dultxibe_step, element, 32);

DULTXIBE_SIZE(dultxibe_transition_report, 54);
DULTXIBE_AT(dultxibe_transition_report, source, 32);
DULTXIBE_AT(dultxibe_transition_report, target, 38);
DULTXIBE_AT(dultxibe_transition_report, took, 44);
DULTXIBE_AT(dultxibe_transition_report, reason, 46);
DULTXIBE_AT(dultxibe_transition_report, result, 48);
DULTXIBE_AT(dultxibe_transition_report, signals, 50);

DULTXIBE_SIZE(dultxibe_rsna_report, 88);
DULTXIBE_AT(dultxibe_rsna_report, target, 32);
DULTXIBE_AT(dultxibe_rsna_report, authentication, 38);
DULTXIBE_AT(dultxibe_rsna_report, method, 42);
DULTXIBE_AT(dultxibe_rsna_report, result, 50);
DULTXIBE_AT(dultxibe_rsna_report, rsn, 51);
DULTXIBE_AT(dultxibe_rsna_report, rsn_length, 80);

DULTXIBE_SIZE(dultxibe_peer_link_report, 45);
DULTXIBE_AT(dultxibe_peer_link_report, peer, 32);
DULTXIBE_AT(dultxibe_peer_link_report, regulatory_class, 38);
DULTXIBE_AT(dultxibe_peer_link_report, channel, 39);
DULTXIBE_AT(dultxibe_peer_link_report, power, 40);
DULTXIBE_AT(dultxibe_peer_link_report, connection, 41);
DULTXIBE_AT(dultxibe_peer_link_report, status, 44);

#undef DULTXIBE_SIZE
#undef DULTXIBE_AT
#undef DULTXIBE_ASSERT

#ifdef __cplusplus
}
#endif

#endif
