/* When each link's last frame went to the interfaces, so that the next one comes a BAG after it on the wire too. */
#include "play.h"

/* The time between the messages by which BAGs are found, in microseconds: more than the greatest BAG. */
enum { APART = 1000000 };

static struct sent *sent_of(struct sent *sent, const uint8_t *frame) { return &sent[frame[4] << 8 | frame[5]]; }

int find_bags(struct sent *sent, const uint8_t *text, size_t length) {
    static struct tx tx;
    static struct frame frame;
    static const uint8_t message[1];
    uint8_t standing = 0;
    uint64_t due = AFDX_NEVER, at = 0;
    int failed = open_tx(&tx, text, length);
    for (size_t k = 0; k < tx.count && !failed; k++, at += APART) {
        if (afdx_send(&tx.ports[k], message, sizeof message) != AFDX_OK || afdx_poll(&tx.end_system, at, &standing) != AFDX_OK
            || afdx_next_due(&tx.end_system, &due) != AFDX_OK) continue;
        /* (only the link of this port isn't due) */
        for (uint8_t n = 0; n < 2; n++)
            if (afdx_frame(&tx.end_system, n, 0, frame.bytes, sizeof frame.bytes, &frame.length) == AFDX_OK)
                sent_of(sent, frame.bytes)->bag = due - at;
    }
    free_tx(&tx);
    return failed;
}

void note_sent(struct sent *sent, const struct frame *frames, size_t count, uint64_t gone) {
    for (size_t k = 0; k < count; k++) {
        struct sent *last = sent_of(sent, frames[k].bytes);
        last->polled = frames[k].at;
        last->gone = gone;
    }
}

uint64_t clear_time(const struct sent *sent, const uint16_t *links, size_t count, uint64_t at) {
    uint64_t clear = at;
    for (size_t k = 0; k < count; k++) {
        const struct sent *last = &sent[links[k]];
        uint64_t due = last->polled + last->bag, kept = last->gone + last->bag;
        if (due <= at && at < kept && clear < kept) clear = kept;
    }
    return clear;
}
