/* What the kernel tells of the frames that it took: when it gave each to its interface, and what interfaces count. */
#define _GNU_SOURCE
#include "play.h"

#include <errno.h>
#include <ifaddrs.h>
#include <linux/errqueue.h>
#include <linux/if_link.h>
#include <linux/net_tstamp.h>
#include <netpacket/packet.h>
#include <string.h>
#include <sys/socket.h>
#include <time.h>

/* How often counters and times are read again, 5 milliseconds apart: some drivers count once a second. */
enum { COUNTER_WAITS = 400, STAMP_WAITS = 20, WAIT_NANOS = 5000000, NANOS = 1000000000 };

bool ask_for_stamps(int socket) {
    int wanted = SOF_TIMESTAMPING_TX_SOFTWARE | SOF_TIMESTAMPING_SOFTWARE | SOF_TIMESTAMPING_OPT_ID | SOF_TIMESTAMPING_OPT_TSONLY;
    return setsockopt(socket, SOL_SOCKET, SO_TIMESTAMPING, &wanted, sizeof wanted) == 0;
}

void number_frame(struct stamps *stamps, uint64_t number, const struct frame *frame) {
    stamps->links[number % LAST_FRAMES] = (uint16_t)(frame->bytes[4] << 8 | frame->bytes[5]);
}

/* Notes when the kernel gave frame `number` to the interface. */
static void note_time(struct stamps *stamps, uint32_t number, uint64_t nanos) {
    uint16_t link = stamps->links[number % LAST_FRAMES];
    uint64_t gap = nanos - stamps->last[link];
    if (stamps->last[link] != 0 && (stamps->least[link] == 0 || gap < stamps->least[link])) stamps->least[link] = gap;
    stamps->last[link] = nanos;
    stamps->count++;
}

/* Reads one answer of the kernel. Returns whether there was one. */
static bool read_answer(struct network *network) {
    char room[512];
    struct msghdr message = {.msg_control = room, .msg_controllen = sizeof room};
    if (recvmsg(network->socket, &message, MSG_ERRQUEUE | MSG_DONTWAIT) < 0) return false;
    struct scm_timestamping times = {0};
    struct sock_extended_err tells = {0};
    for (struct cmsghdr *part = CMSG_FIRSTHDR(&message); part != NULL; part = CMSG_NXTHDR(&message, part)) {
        if (part->cmsg_level == SOL_SOCKET && part->cmsg_type == SCM_TIMESTAMPING) memcpy(&times, CMSG_DATA(part), sizeof times);
        if (part->cmsg_level == SOL_PACKET && part->cmsg_type == PACKET_TX_TIMESTAMP) memcpy(&tells, CMSG_DATA(part), sizeof tells);
    }
    if (tells.ee_origin == SO_EE_ORIGIN_TIMESTAMPING && times.ts[0].tv_sec != 0)
        note_time(&network->stamps, tells.ee_data, (uint64_t)times.ts[0].tv_sec * NANOS + (uint64_t)times.ts[0].tv_nsec);
    return true;
}

void read_stamps(struct network *network) {
    while (network->stamps.are_asked && read_answer(network)) continue;
}

bool read_counters(const char *interface, struct counters *counters) {
    struct ifaddrs *list = NULL;
    bool is_found = false;
    if (getifaddrs(&list) != 0) return false;
    for (const struct ifaddrs *it = list; it != NULL && !is_found; it = it->ifa_next) {
        if (it->ifa_addr == NULL || it->ifa_addr->sa_family != AF_PACKET || it->ifa_data == NULL || strcmp(it->ifa_name, interface) != 0) continue;
        struct rtnl_link_stats counted;
        memcpy(&counted, it->ifa_data, sizeof counted);
        *counters = (struct counters){.sent = counted.tx_packets, .dropped = counted.tx_dropped, .errors = counted.tx_errors};
        is_found = true;
    }
    freeifaddrs(list);
    return is_found;
}

uint64_t find_losses(struct network *network, struct counters *counted) {
    const struct timespec wait = {.tv_nsec = WAIT_NANOS};
    uint64_t lost = 0;
    *counted = (struct counters){0};
    for (int k = 0; k < COUNTER_WAITS; k++) {
        struct counters now;
        if (!network->has_counters || !read_counters(network->interface, &now)) return 0;
        read_stamps(network);
        *counted = (struct counters){now.sent - network->before.sent, now.dropped - network->before.dropped, now.errors - network->before.errors};
        lost = network->taken > counted->sent ? network->taken - counted->sent : 0;
        bool has_times = !network->stamps.are_asked || network->stamps.count >= network->taken || k >= STAMP_WAITS;
        if (lost == 0 && has_times) break;
        nanosleep(&wait, NULL);
    }
    return lost;
}
