/* Newest first. A station logs ten transitions with the reasons 1 to 10. Its requester asks for three,
 * and is given the latest three; then for all of them. A buffer of 260 octets takes seven, so the rest
 * comes with the next report, without the one that is logged in between. */
#include <stdio.h>

#include "dultxibe.h"

static const uint8_t address[6] = {2, 0, 0, 0, 0, 1};
static const struct dultxibe_requester requesters[1] = {{{2, 0, 0, 0, 0, 16}, DULTXIBE_DRAFT}};
static const uint8_t identity[] = {13, 3, 0, 80, 194, 11, 1, 'K', 12, 1, 'G', 14, 1, '1', 9, 1, '1'};

/* A transition at a time that is not known. */
static struct dultxibe_transition transition(uint8_t reason) {
    struct dultxibe_transition t = {
        .times.time = {255, 255, 255, 255, 255, 255, 255, 255, 255},
        .source = {2, 1, 1, 1, 1, 1},
        .target = {2, 1, 1, 1, 1, 2},
        .reason = reason,
        .signals = {110, 40, 150, 60},
    };
    return t;
}

/* A frame that asks for so many transitions. */
static void ask(struct dultxibe_station *station, uint8_t dialog, uint8_t limit) {
    struct dultxibe_request asked = {.kind = DULTXIBE_EVENT, .dialog = dialog, .count = 1};
    asked.elements[0].token = 5;
    asked.elements[0].type = DULTXIBE_TRANSITION;
    asked.elements[0].limit = limit;
    uint8_t frame[267];
    struct dultxibe_reply wrote = dultxibe_write_request(asked, frame, sizeof frame);
    struct dultxibe_reply reply =
        dultxibe_frame(station, 20, address, requesters[0].address, frame, wrote.length);
    printf("asked for %u: %s\n", limit, reply.code == DULTXIBE_ACCEPTED ? "accepted" : "refused");
}

/* A report, whose reasons are printed as they stand in it. */
static void report(struct dultxibe_station *station) {
    uint8_t frame[260] = {0};
    struct dultxibe_reply reply =
        dultxibe_report(station, 30, requesters[0].address, DULTXIBE_EVENT, frame, sizeof frame);
    if (reply.code != DULTXIBE_LENGTH) {
        printf("no report\n");
        return;
    }
    printf("report of %zu octets, reasons", reply.length);
    size_t position = DULTXIBE_FIRST_ELEMENT;
    while (position < reply.length) {
        struct dultxibe_step step =
            dultxibe_next_element(DULTXIBE_DRAFT, DULTXIBE_EVENT, position, frame, reply.length);
        if (step.cause != 0) break;
        if (step.element.logged)
            printf(" %u", dultxibe_read_transition(DULTXIBE_DRAFT, frame + step.rest,
                                                   step.element.length).reason);
        position = step.next;
    }
    printf("\n");
}

int main(void) {
    struct dultxibe_station station = dultxibe_setup(identity, sizeof identity, requesters, 1).station;
    for (uint8_t reason = 1; reason <= 10; reason++)
        dultxibe_log_transition(&station, 10, transition(reason));
    ask(&station, 7, 3);
    report(&station);
    report(&station);
    ask(&station, 8, 255);
    report(&station);
    dultxibe_log_transition(&station, 30, transition(11));
    report(&station);
    report(&station);
    return 0;
}
