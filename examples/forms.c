/* Two forms of an event's time fields (document 02 (g)). A station has two requesters, one that reads
 * the draft's nine octets of time, and one that reads the published TSF, UTC offset and event time
 * error. It logs an event of each kind; both ask for all three, and each gets a frame in its own form.
 * A frame is read in its form, with the time fields of each event; in the other form the frame and each
 * of its elements is refused by 17, and in form 2, which is none, by 15, as a list with it is. */
#include <stdio.h>

#include "dultxibe.h"

static const uint8_t address[6] = {2, 0, 0, 0, 0, 1};
static const struct dultxibe_requester requesters[2] = {{{2, 0, 0, 0, 0, 16}, DULTXIBE_DRAFT},
                                                        {{2, 0, 0, 0, 0, 17}, DULTXIBE_PUBLISHED}};
static const struct dultxibe_requester formless[1] = {{{2, 0, 0, 0, 0, 16}, 2}};
static const uint8_t none[1] = {0};
static const uint8_t identity[] = {13, 3, 0, 80, 194, 11, 1, 'K', 12, 1, 'G', 14, 1, '1', 9, 1, '1'};

/* The published fields are carried unread: here each octet tells its place. */
static const struct dultxibe_transition transition = {
    .times = {.time = {231, 3, 59, 59, 23, 31, 12, 234, 7}, /* 2026-12-31 23:59:59.999 */
              .tsf = {0x10, 0x11, 0x12, 0x13, 0x14, 0x15, 0x16, 0x17},
              .utc_offset = {0x20, 0x21, 0x22, 0x23, 0x24, 0x25, 0x26, 0x27, 0x28, 0x29},
              .time_error = {0x30, 0x31, 0x32, 0x33, 0x34}},
    .source = {2, 1, 1, 1, 1, 1},
    .target = {2, 1, 1, 1, 1, 2},
    .reason = 6,
    .result = 0,
    .signals = {110, 40, 150, 60},
    .departure = 4294967290u,
};

static const struct dultxibe_rsna_event login = {
    .times = {.time = {0, 0, 1, 0, 0, 1, 1, 235, 7}, /* 2027-01-01 00:00:01.000 */
              .tsf = {0x40, 0x41, 0x42, 0x43, 0x44, 0x45, 0x46, 0x47},
              .utc_offset = {0x50, 0x51, 0x52, 0x53, 0x54, 0x55, 0x56, 0x57, 0x58, 0x59},
              .time_error = {0x60, 0x61, 0x62, 0x63, 0x64}},
    .target = {2, 1, 1, 1, 1, 2},
    .authentication = {0, 15, 172, 1},
    .method = {13},
    .result = 0,
};

static const struct dultxibe_peer_link direct_link = {
    .times = {.time = {255, 255, 255, 255, 255, 255, 255, 255, 255},
              .tsf = {0x70, 0x71, 0x72, 0x73, 0x74, 0x75, 0x76, 0x77},
              .utc_offset = {0x80, 0x81, 0x82, 0x83, 0x84, 0x85, 0x86, 0x87, 0x88, 0x89},
              .time_error = {0x90, 0x91, 0x92, 0x93, 0x94}},
    .peer = {2, 2, 2, 2, 2, 2},
    .regulatory_class = 12,
    .channel = 6,
    .power = 20,
    .connection = {16, 39, 0},
    .status = 1,
};

static void print_reply(const char *call, struct dultxibe_reply reply) {
    if (reply.code == DULTXIBE_ACCEPTED)
        printf("%s: accepted\n", call);
    else if (reply.code == DULTXIBE_LENGTH)
        printf("%s: length %zu\n", call, reply.length);
    else
        printf("%s: refused %u at %zu\n", call, reply.cause, reply.place);
}

static void print_octets(const uint8_t *octets, size_t length) {
    for (size_t i = 0; i < length; i++) printf(i == 0 ? "%02x" : " %02x", octets[i]);
    printf("\n");
}

static void print_field(const char *name, const uint8_t *octets, size_t length) {
    printf("  %s ", name);
    print_octets(octets, length);
}

/* The time fields of an event of a type; those that the form does not carry are zeros. */
static struct dultxibe_times times_of(uint8_t form, uint8_t type, const uint8_t *octets, size_t length) {
    switch (type) {
    case DULTXIBE_TRANSITION:
        return dultxibe_read_transition(form, octets, length).times;
    case DULTXIBE_RSNA:
        return dultxibe_read_rsna(form, octets, length).times;
    default:
        return dultxibe_read_peer_link(form, octets, length).times;
    }
}

static void print_times(struct dultxibe_times times) {
    print_field("time", times.time, sizeof times.time);
    print_field("tsf", times.tsf, sizeof times.tsf);
    print_field("utc offset", times.utc_offset, sizeof times.utc_offset);
    print_field("time error", times.time_error, sizeof times.time_error);
}

/* Whether a frame is one of a form: the number of its elements, or the refusal. */
static void print_frame(uint8_t form, struct dultxibe_requester to, const uint8_t *frame, size_t length) {
    struct dultxibe_report_frame report = dultxibe_read_report(form, to.address, frame, length);
    if (report.cause == 0)
        printf("read in form %u: elements %zu\n", form, report.count);
    else
        printf("read in form %u: refused %u at %zu\n", form, report.cause, report.place);
}

/* The elements of a requester's report, each read in its form and then in the other. */
static void print_elements(struct dultxibe_requester to, const uint8_t *frame, size_t length) {
    uint8_t other = to.form == DULTXIBE_DRAFT ? DULTXIBE_PUBLISHED : DULTXIBE_DRAFT;
    size_t position = DULTXIBE_FIRST_ELEMENT;
    while (position < length) {
        struct dultxibe_step step =
            dultxibe_next_element(to.form, DULTXIBE_EVENT, position, frame, length);
        if (step.cause != 0) return;
        struct dultxibe_report_element e = step.element;
        printf("element at %zu type %u octets %zu\n", position, e.type, e.length);
        print_times(times_of(to.form, e.type, frame + step.rest, e.length));
        struct dultxibe_step wrong =
            dultxibe_next_element(other, DULTXIBE_EVENT, position, frame, length);
        printf("  in form %u: refused %u at %zu\n", other, wrong.cause, wrong.place);
        position = step.next;
    }
}

/* A requester asks for one event of each type, and gets its report. */
static void serve(struct dultxibe_station *station, uint32_t reading, struct dultxibe_requester to,
                  uint8_t dialog) {
    struct dultxibe_request asked = {.kind = DULTXIBE_EVENT, .dialog = dialog, .count = 3};
    for (uint8_t type = DULTXIBE_TRANSITION; type <= DULTXIBE_PEER_LINK; type++) {
        asked.elements[type].token = type + 1;
        asked.elements[type].type = type;
        asked.elements[type].limit = 1;
    }
    uint8_t request[267], report[260] = {0};
    struct dultxibe_reply wrote = dultxibe_write_request(asked, request, sizeof request);
    print_reply("frame", dultxibe_frame(station, reading, address, to.address, request, wrote.length));
    struct dultxibe_reply reply =
        dultxibe_report(station, reading, to.address, DULTXIBE_EVENT, report, sizeof report);
    print_reply("report", reply);
    print_octets(report, reply.length);
    for (uint8_t form = DULTXIBE_DRAFT; form <= 2; form++)
        print_frame(form, to, report, reply.length);
    print_elements(to, report, reply.length);
}

int main(void) {
    print_reply("setup with form 2", dultxibe_setup(identity, sizeof identity, formless, 1).reply);
    struct dultxibe_outcome o = dultxibe_setup(identity, sizeof identity, requesters, 2);
    print_reply("setup", o.reply);
    struct dultxibe_station station = o.station;
    print_reply("log a transition", dultxibe_log_transition(&station, 10, transition));
    print_reply("log an RSNA event", dultxibe_log_rsna(&station, 11, login, none, 0));
    print_reply("log a peer link", dultxibe_log_peer_link(&station, 12, direct_link));
    serve(&station, 13, requesters[0], 7);
    serve(&station, 14, requesters[1], 8);
    return 0;
}
