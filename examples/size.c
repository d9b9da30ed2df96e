/* The size of a station, read from the archive. An outcome is a station and the reply behind it; C
 * returns it through a pointer that goes before the parameters (x86-64, System V). Here that pointer
 * is to an area larger than any outcome:
 * - setup refused for its list and setup refused for its identity give the same station and place, so
 *   the one octet where they hold 15 and 16 is the reply's cause;
 * - no octet is written past the outcome, and its last, in the reply's length, is written whatever
 *   stood there.
 * Both must be where the header has them. */
#include <stdio.h>
#include <string.h>

#include "dultxibe.h"

enum { AREA = 1 << 16 };

typedef void *setup_into(void *outcome, const uint8_t *identity, size_t length,
                         const struct dultxibe_requester *requesters, size_t count);

static const struct dultxibe_requester requester[1] = {{{2, 0, 0, 0, 0, 16}, DULTXIBE_DRAFT}};
static const uint8_t none[1] = {0};

/* A setup with an empty identity and count requesters, into an area filled with an octet. */
static void set_up(uint64_t *area, int fill, size_t count) {
    setup_into *setup = (setup_into *)(void (*)(void))dultxibe_setup;
    memset(area, fill, AREA);
    setup(area, none, 0, requester, count);
}

int main(void) {
    static uint64_t list[AREA / 8], identity[AREA / 8], other[AREA / 8];
    set_up(list, 0xAA, 0);
    set_up(identity, 0xAA, 1);
    set_up(other, 0x55, 1);

    const uint8_t *a = (const uint8_t *)list, *b = (const uint8_t *)identity;
    const uint8_t *c = (const uint8_t *)other;
    size_t causes = 0, cause = 0, end = 0;
    for (size_t i = 0; i < AREA; i++) {
        if (a[i] == DULTXIBE_CAUSE_BAD_REQUESTER_LIST && b[i] == DULTXIBE_CAUSE_BAD_IDENTITY) {
            causes++;
            cause = i;
        }
        if (b[i] != 0xAA || c[i] != 0x55) end = i + 1;
    }
    size_t station = cause - offsetof(struct dultxibe_reply, cause);
    if (causes != 1 || station != sizeof(struct dultxibe_station) ||
        end != sizeof(struct dultxibe_outcome)) {
        printf("station: %zu octets in the archive, %zu in the header; outcome: %zu and %zu\n",
               station, sizeof(struct dultxibe_station), end, sizeof(struct dultxibe_outcome));
        return 1;
    }
    printf("the station and the outcome are as large as the archive's\n");
    return 0;
}
