/* A station logs a transition across the counter's rollover, departure 4,294,967,290 and arrival 10, so
 * 16 ms, 15 TUs; then an RSNA event, once refused for an RSN element that is cut, and a peer link. It
 * takes a requester's request for transitions of 15 TUs or more, RSNA events by EAP method and peer
 * links on any channel of a regulatory class, and reports one of each. Then it takes a request for
 * diagnostics, one that it is incapable of and its identity. The requester writes the requests and
 * reads the reports, with the octets behind each status: time and event, whose fields it reads by the
 * element's type, or the identity's subelements. */
#include <stdio.h>

#include "dultxibe.h"

static const uint8_t address[6] = {2, 0, 0, 0, 0, 1};
static const struct dultxibe_requester requesters[2] = {{{2, 0, 0, 0, 0, 16}, DULTXIBE_DRAFT},
                                                        {{2, 0, 0, 0, 0, 17}, DULTXIBE_DRAFT}};
static const uint8_t stranger[6] = {2, 0, 0, 0, 0, 18};

/* Manufacturer OI, ID string, model, serial number, firmware version: subelements 13, 11, 12, 14, 9. */
static const uint8_t identity[] = {13, 3, 0, 80, 194, 11, 1, 'K', 12, 1, 'G', 14, 1, '1', 9, 1, '1'};

static const struct dultxibe_transition transition = {
    .times.time = {231, 3, 59, 59, 23, 31, 12, 234, 7}, /* 2026-12-31 23:59:59.999 */
    .source = {2, 1, 1, 1, 1, 1},
    .target = {2, 1, 1, 1, 1, 2},
    .reason = 6,
    .result = 0,
    .signals = {110, 40, 150, 60},
    .departure = 4294967290u,
};

/* A login that failed. EAP method 254: the vendor 00:50:c2, its type 1. */
static const struct dultxibe_rsna_event login = {
    .times.time = {0, 0, 1, 0, 0, 1, 1, 235, 7}, /* 2027-01-01 00:00:01.000 */
    .target = {2, 1, 1, 1, 1, 2},
    .authentication = {0, 15, 172, 1},
    .method = {254, 0, 80, 194, 0, 0, 0, 1},
    .result = 1,
};

/* Version 1, CCMP for the group and for pairs, authentication 00-0F-AC:1. */
static const uint8_t rsn[22] = {48, 20,  1, 0, 0, 15, 172, 4,   1, 0, 0,
                                15, 172, 4, 1, 0, 0,  15,  172, 1, 0, 0};

/* A direct link, active for 10,000 seconds at an unknown time. */
static const struct dultxibe_peer_link direct_link = {
    .times.time = {255, 255, 255, 255, 255, 255, 255, 255, 255},
    .peer = {2, 2, 2, 2, 2, 2},
    .regulatory_class = 12,
    .channel = 6,
    .power = 20,
    .connection = {16, 39, 0},
    .status = 1,
};

static void print_reply(const char *call, struct dultxibe_reply reply) {
    printf("%s: ", call);
    switch (reply.code) {
    case DULTXIBE_ACCEPTED:
        printf("accepted\n");
        break;
    case DULTXIBE_NOTHING:
        printf("nothing\n");
        break;
    case DULTXIBE_LENGTH:
        printf("length %zu\n", reply.length);
        break;
    default:
        printf("refused %u at %zu\n", reply.cause, reply.place);
    }
}

static void print_octets(const uint8_t *octets, size_t length) {
    for (size_t i = 0; i < length; i++) printf(i == 0 ? "%02x" : " %02x", octets[i]);
    printf("\n");
}

static void print_field(const char *name, const uint8_t *octets, size_t length) {
    printf("  %s ", name);
    print_octets(octets, length);
}

static void print_transition(struct dultxibe_transition_report e) {
    print_field("time", e.times.time, sizeof e.times.time);
    print_field("source", e.source, sizeof e.source);
    print_field("target", e.target, sizeof e.target);
    print_field("signals", e.signals, sizeof e.signals);
    printf("  took %u TU reason %u result %u\n", e.took, e.reason, e.result);
}

static void print_rsna(struct dultxibe_rsna_report e) {
    print_field("time", e.times.time, sizeof e.times.time);
    print_field("target", e.target, sizeof e.target);
    print_field("authentication", e.authentication, sizeof e.authentication);
    print_field("method", e.method, sizeof e.method);
    print_field("rsn", e.rsn, e.rsn_length);
    printf("  result %u\n", e.result);
}

static void print_peer_link(struct dultxibe_peer_link_report e) {
    print_field("time", e.times.time, sizeof e.times.time);
    print_field("peer", e.peer, sizeof e.peer);
    print_field("connection", e.connection, sizeof e.connection);
    printf("  class %u channel %u power %u status %u\n", e.regulatory_class, e.channel, e.power,
           e.status);
}

/* The fields of an event of a type. */
static void print_event(uint8_t type, const uint8_t *octets, size_t length) {
    switch (type) {
    case DULTXIBE_TRANSITION:
        print_transition(dultxibe_read_transition(DULTXIBE_DRAFT, octets, length));
        break;
    case DULTXIBE_RSNA:
        print_rsna(dultxibe_read_rsna(DULTXIBE_DRAFT, octets, length));
        break;
    case DULTXIBE_PEER_LINK:
        print_peer_link(dultxibe_read_peer_link(DULTXIBE_DRAFT, octets, length));
        break;
    }
}

/* An element's fields, the octets behind its status, and the event that they are. */
static void print_element(struct dultxibe_step step, const uint8_t *frame) {
    struct dultxibe_report_element e = step.element;
    printf("element token %u type %u status %u subelements %zu octets %zu\n", e.token, e.type,
           e.status, e.subs, e.length);
    if (e.length > 0) print_octets(frame + step.rest, e.length);
    if (e.logged) print_event(e.type, frame + step.rest, e.length);
}

static void print_report(const uint8_t *frame, size_t length) {
    struct dultxibe_report_frame report =
        dultxibe_read_report(DULTXIBE_DRAFT, requesters[0].address, frame, length);
    printf("read: cause %u kind %u dialog %u elements %zu\n", report.cause, report.kind,
           report.dialog, report.count);
    size_t position = DULTXIBE_FIRST_ELEMENT;
    while (report.cause == 0 && position < length) {
        struct dultxibe_step step =
            dultxibe_next_element(DULTXIBE_DRAFT, report.kind, position, frame, length);
        if (step.found) print_element(step, frame);
        position = step.next;
    }
}

/* The requester's request, written; its length. */
static size_t write_request(struct dultxibe_request asked, uint8_t *request, size_t length) {
    struct dultxibe_reply wrote = dultxibe_write_request(asked, request, length);
    print_reply("write", wrote);
    print_octets(request, wrote.length);
    return wrote.length;
}

/* The first requester's requests. */
static struct dultxibe_request ask_for_events(void) {
    struct dultxibe_request asked = {.kind = DULTXIBE_EVENT, .dialog = 7, .count = 3};
    struct dultxibe_request_element *e = asked.elements;
    e[0].token = 5;
    e[0].type = DULTXIBE_TRANSITION;
    e[0].limit = 4;
    e[0].filter[2] = (struct dultxibe_condition){.present = 1, .octets = {15, 0}};
    e[1].token = 6;
    e[1].type = DULTXIBE_RSNA;
    e[1].limit = 4;
    e[1].filter[2] =
        (struct dultxibe_condition){.present = 1, .octets = {254, 0, 80, 194, 0, 0, 0, 1}};
    e[2].token = 8;
    e[2].type = DULTXIBE_PEER_LINK;
    e[2].limit = 4;
    e[2].filter[1] = (struct dultxibe_condition){.present = 1, .octets = {12, 0}};
    return asked;
}

static struct dultxibe_request ask_for_diagnostics(void) {
    struct dultxibe_request asked = {.kind = DULTXIBE_DIAGNOSTIC, .dialog = 9, .count = 2};
    struct dultxibe_request_element *e = asked.elements;
    e[0].token = 3;
    e[0].type = 2;
    e[0].timeout = 2;
    e[1].token = 4;
    e[1].type = 1;
    e[1].timeout = 2;
    return asked;
}

/* The station's report to the first requester, and what that reads in it. */
static void give_report(struct dultxibe_station *station, uint32_t reading, uint8_t kind) {
    uint8_t report[260] = {0};
    struct dultxibe_reply reply =
        dultxibe_report(station, reading, requesters[0].address, kind, report, sizeof report);
    print_reply("report", reply);
    if (reply.code == DULTXIBE_LENGTH) {
        print_octets(report, reply.length);
        print_report(report, reply.length);
    }
}

int main(void) {
    uint8_t request[267];
    size_t length = write_request(ask_for_events(), request, sizeof request);

    struct dultxibe_outcome o = dultxibe_setup(identity, sizeof identity, requesters, 2);
    print_reply("setup", o.reply);
    struct dultxibe_station *station = &o.station;
    print_reply("log a transition", dultxibe_log_transition(station, 10, transition));
    print_reply("log an RSNA event, cut", dultxibe_log_rsna(station, 11, login, rsn, sizeof rsn - 1));
    print_reply("log an RSNA event", dultxibe_log_rsna(station, 12, login, rsn, sizeof rsn));
    print_reply("log a peer link", dultxibe_log_peer_link(station, 13, direct_link));
    print_reply("stranger's frame", dultxibe_frame(station, 14, address, stranger, request, length));
    print_reply("frame", dultxibe_frame(station, 15, address, requesters[0].address, request, length));
    give_report(station, 16, DULTXIBE_EVENT);
    give_report(station, 17, DULTXIBE_EVENT);

    length = write_request(ask_for_diagnostics(), request, sizeof request);
    print_reply("frame", dultxibe_frame(station, 18, address, requesters[0].address, request, length));
    give_report(station, 19, DULTXIBE_DIAGNOSTIC);
    return 0;
}
