/* A slow transition that is missing in a report (document 02 (f)): what dultxibe_explain says of each
 * event of the log, and of a position where none stands. docs/TRACES.md tells the same as a trace. */
#include <stdint.h>
#include <stdio.h>

#include "dultxibe.h"

/* Logs a transition that took so many milliseconds. */
static void log_transition(struct dultxibe_station *station, uint32_t arrival, uint32_t took) {
    struct dultxibe_transition t = {
        .times.time = {255, 255, 255, 255, 255, 255, 255, 255, 255},
        .source = {2, 1, 1, 1, 1, 1},
        .target = {2, 1, 1, 1, 1, 2},
        .reason = 6,
        .departure = arrival - took,
    };
    dultxibe_log_transition(station, arrival, t);
}

static void ask(struct dultxibe_station station, const uint8_t *element, size_t length, size_t count,
                size_t position) {
    struct dultxibe_explanation e = dultxibe_explain(station, element, length, count, position);
    printf("of %zu, position %zu: reason %d condition %d cause %d place %zu\n", count, position, e.reason,
           e.condition, e.cause, e.place);
}

int main(void) {
    static const uint8_t identity[] = {13, 3, 0, 80, 194, 11, 1, 75, 12, 1, 71, 14, 1, 49, 9, 1, 49};
    static const struct dultxibe_requester requesters[1] = {{{2, 0, 0, 0, 0, 16}, DULTXIBE_DRAFT}};
    /* transitions, limit 1, of 100 TUs or more */
    static const uint8_t element[] = {78, 7, 5, 0, 1, 2, 2, 100, 0};
    struct dultxibe_outcome o = dultxibe_setup(identity, sizeof identity, requesters, 1);
    if (o.reply.code != DULTXIBE_ACCEPTED)
        return 1;
    struct dultxibe_station station = o.station;
    log_transition(&station, 1000, 500);
    log_transition(&station, 2000, 10);
    log_transition(&station, 3000, 300);
    ask(station, element, sizeof element, 3, 0);
    ask(station, element, sizeof element, 3, 1);
    ask(station, element, sizeof element, 3, 2);
    ask(station, element, sizeof element, 3, 3);
    ask(station, element, sizeof element, 2, 2);
    ask(station, element, 8, 3, 0);
    /* a subelement that stands twice, at 9 */
    static const uint8_t twice[] = {78, 11, 5, 0, 1, 2, 2, 100, 0, 2, 2, 100, 0};
    ask(station, twice, sizeof twice, 3, 0);
    /* RSNA events */
    static const uint8_t other[] = {78, 3, 5, 1, 1};
    ask(station, other, sizeof other, 3, 0);
    return 0;
}
