/* What afdx_play prints at its end: what was sent, how late, and how far apart. */
#include "play.h"

#include <inttypes.h>

/* The lateness of the poll of this rank, from 0, in microseconds, rounded up. */
static uint64_t late_micros(const struct play *play, uint64_t rank) {
    uint64_t before = 0;
    for (uint64_t micros = 0; micros < MICROS; micros++) {
        before += play->late.polls[micros];
        if (before > rank) return micros;
    }
    return (play->late.greatest + 999) / 1000;
}

/* Prints the faults that were made, or those that weren't. Returns whether there were any. */
static bool tell_faults(const struct play *play, bool were_made, const char *front) {
    const char *before = front;
    for (size_t k = 0; k < play->words.faults.count; k++) {
        const struct fault *fault = &play->words.faults.list[k];
        if ((play->networks[fault->network].faults >> k & 1) != were_made) continue;
        printf("%s %s", before, fault->text);
        before = ",";
    }
    if (before != front) printf("\n");
    return before != front;
}

/* Prints the least gap of a link in each network, by the kernel's times. */
static void tell_gaps(const struct play *play, uint16_t link) {
    const char *front = ", least gap in microseconds:";
    for (int n = 0; n < 2; n++) {
        uint64_t least = play->networks[n].stamps.least[link];
        if (least == 0) continue;
        printf("%s %c %" PRIu64 ".%" PRIu64, front, "AB"[n], least / 1000, least / 100 % 10);
        front = ",";
    }
}

/* Prints what an interface took, and what it lost by its own counters. */
static void tell_network(const struct network *network, uint64_t lost, const struct counters *counted) {
    printf("network %c, %s: took %" PRIu64 " of %" PRIu64 " frames%s\n", "AB"[network->which], network->interface, network->taken,
           network->made, network->failed ? ", failed" : "");
    if (lost > 0 || counted->dropped > 0 || counted->errors > 0)
        printf("network %c, %s: lost %" PRIu64 " of these, by its counters: sent %" PRIu32 ", dropped %" PRIu32 ", errors %" PRIu32 "\n",
               "AB"[network->which], network->interface, lost, counted->sent, counted->dropped, counted->errors);
}

int tell(struct play *play) {
    uint16_t ids[AFDX_MOST_LINKS];
    size_t count = 0;
    afdx_counts counts;
    struct counters counted[2];
    uint64_t lost[2];
    for (int n = 0; n < 2; n++) lost[n] = find_losses(&play->networks[n], &counted[n]);
    afdx_links(&play->tx.end_system, ids, AFDX_MOST_LINKS, &count);
    for (size_t k = 0; k < count; k++) {
        if (afdx_link_counts(&play->tx.end_system, ids[k], &counts) != AFDX_OK) continue;
        printf("link %u: frames %" PRIu64 ", bytes %" PRIu64 ", messages %" PRIu64, ids[k], counts.frames, counts.bytes, counts.messages);
        tell_gaps(play, ids[k]);
        printf("\n");
    }
    for (int n = 0; n < 2; n++) tell_network(&play->networks[n], lost[n], &counted[n]);
    printf("lines refused %zu\n", play->refused);
    uint64_t last = play->polls == 0 ? 0 : play->polls - 1;
    printf("polls %" PRIu64 ", late in microseconds: half %" PRIu64 ", 99.99 %% %" PRIu64 ", greatest %" PRIu64 "\n", play->polls,
           late_micros(play, play->polls / 2 < last ? play->polls / 2 : last), late_micros(play, last - play->polls / 10000),
           (play->late.greatest + 999) / 1000);
    tell_faults(play, true, "faults on purpose, after the library:");
    bool has_all = !tell_faults(play, false, "faults that weren't made:");
    return lost[0] + lost[1] > 0 ? ENDS_BROKEN : has_all ? 0 : ENDS_REFUSED;
}
