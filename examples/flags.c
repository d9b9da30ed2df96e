/* Flags: any number but 0 is true where one is handed in, and 0 or 1 is given. A request whose
 * conditions are present by 1, then the same by 2 and 255, with one that is absent; a diagnostic
 * request by kind 200. Then the flags of three elements of a report frame: one of another ID, one
 * with no event, one with an event. */
#include <stdio.h>

#include "dultxibe.h"

static void print_request(struct dultxibe_request request) {
    uint8_t frame[267];
    struct dultxibe_reply reply = dultxibe_write_request(request, frame, sizeof frame);
    printf("length %zu:", reply.length);
    for (size_t i = 0; i < reply.length; i++) printf(" %02x", frame[i]);
    printf("\n");
}

/* Target BSSID where present, threshold 15 TUs, match value 1. */
static struct dultxibe_request transitions(uint8_t target, uint8_t threshold, uint8_t match) {
    struct dultxibe_request request = {.kind = DULTXIBE_EVENT, .dialog = 7, .count = 1};
    struct dultxibe_request_element *element = &request.elements[0];
    element->token = 5;
    element->limit = 4;
    element->filter[0] = (struct dultxibe_condition){target, {2, 1, 1, 1, 1, 2}};
    element->filter[2] = (struct dultxibe_condition){threshold, {15, 0}};
    element->filter[3] = (struct dultxibe_condition){match, {1}};
    return request;
}

/* ID 221, empty; token 5, Successful, with nothing behind; token 6, with an unknown time. */
static const uint8_t report[] = {
    10, 1, 7, 221, 0, 79, 3, 5, 0, 0, 79, 33, 6, 0, 0, 255, 255, 255, 255, 255, 255, 255, 255, 255,
    2, 1, 1, 1, 1, 1, 2, 1, 1, 1, 1, 2, 15, 0, 6, 0, 0, 110, 40, 150, 60};

int main(void) {
    print_request(transitions(0, 1, 1));
    print_request(transitions(0, 2, 255));
    print_request(transitions(128, 2, 0));

    struct dultxibe_request diagnostics = {.kind = 200, .dialog = 9, .count = 1};
    diagnostics.elements[0].token = 4;
    diagnostics.elements[0].type = 1;
    diagnostics.elements[0].timeout = 2;
    print_request(diagnostics);

    size_t position = DULTXIBE_FIRST_ELEMENT;
    while (position < sizeof report) {
        struct dultxibe_step step =
            dultxibe_next_element(DULTXIBE_DRAFT, DULTXIBE_EVENT, position, report, sizeof report);
        printf("cause %u found %u logged %u next %zu\n", step.cause, step.found,
               step.element.logged, step.next);
        if (step.cause != 0) return 1;
        position = step.next;
    }
    return 0;
}
