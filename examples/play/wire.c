/* The networks of afdx_play: packet sockets, the clock, and a capture of what the kernel took. */
#define _GNU_SOURCE
#include "play.h"

#include <errno.h>
#include <linux/if_packet.h>
#include <net/if.h>
#include <string.h>
#include <sys/socket.h>
#include <time.h>

enum { NANOS = 1000000000, BUFFER = 1 << 20, SOCKET_ROOM = 1 << 22 };

uint64_t nanos_now(void) {
    struct timespec now;
    clock_gettime(CLOCK_MONOTONIC, &now);
    return (uint64_t)now.tv_sec * NANOS + (uint64_t)now.tv_nsec;
}

void tell_unwritten(const char *what, int error) { fprintf(stderr, "write failed\n%s: %s\n", what, strerror(error)); }

bool end_output(void) {
    int error = fflush(stdout) != 0 ? errno : ferror(stdout) ? EIO : 0;
    if (error != 0) tell_unwritten("standard output", error);
    return error == 0;
}

bool open_network(struct network *network) {
    struct sockaddr_ll to = {.sll_family = AF_PACKET, .sll_ifindex = (int)if_nametoindex(network->interface)};
    int room = SOCKET_ROOM;
    network->socket = to.sll_ifindex == 0 ? -1 : socket(AF_PACKET, SOCK_RAW, 0);
    if (network->socket < 0 && errno == EPERM) {
        fprintf(stderr, "write failed\n%s: %s; packet sockets need root or CAP_NET_RAW\n", network->interface, strerror(EPERM));
        return false;
    }
    if (network->socket < 0 || bind(network->socket, (struct sockaddr *)&to, sizeof to) != 0) {
        tell_unwritten(network->interface, errno);
        return false;
    }
    if (setsockopt(network->socket, SOL_SOCKET, SO_SNDBUFFORCE, &room, sizeof room) != 0)
        setsockopt(network->socket, SOL_SOCKET, SO_SNDBUF, &room, sizeof room);
    network->stamps.are_asked = ask_for_stamps(network->socket);
    network->has_counters = read_counters(network->interface, &network->before);
    return true;
}

/* Writes the frames from `from` on. Returns how many the interface took by one call, or -1. */
static int send_from(struct network *network, struct frame *frames, size_t from, size_t count) {
    static struct mmsghdr messages[2 * AFDX_MOST_FRAMES];
    static struct iovec parts[2 * AFDX_MOST_FRAMES];
    for (size_t k = from; k < count; k++) {
        parts[k] = (struct iovec){.iov_base = frames[k].bytes, .iov_len = frames[k].length};
        messages[k] = (struct mmsghdr){.msg_hdr = {.msg_iov = &parts[k], .msg_iovlen = 1}};
        number_frame(&network->stamps, network->taken + k - from, &frames[k]);
    }
    int took;
    do took = sendmmsg(network->socket, messages + from, (unsigned)(count - from), 0);
    while (took < 0 && errno == EINTR);
    return took;
}

void transmit(struct network *network, struct frame *frames, size_t count, struct capture *capture, uint64_t offset) {
    for (size_t from = 0; from < count && !network->failed;) {
        int took = send_from(network, frames, from, count);
        uint64_t now = nanos_now() + offset;
        if (took <= 0) {
            tell_unwritten(network->interface, errno);
            network->failed = true;
            return;
        }
        network->taken += (uint64_t)took;
        for (int k = 0; k < took; k++, from++) {
            network->faults |= frames[from].faults;
            add_packet(capture, network->which, now, frames[from].bytes, frames[from].length);
        }
    }
    read_stamps(network);
}

/* Writes a block of pcapng: its body is `front`, and then `bytes` with zeros up to a multiple of four. */
static void block(struct capture *capture, uint32_t kind, const void *front, size_t size, const uint8_t *bytes, size_t length) {
    static const uint8_t zeros[4] = {0};
    size_t padding = (4 - length % 4) % 4;
    uint32_t total = (uint32_t)(12 + size + length + padding), head[2] = {kind, total};
    bool is_written = fwrite(head, sizeof head, 1, capture->file) == 1 && fwrite(front, size, 1, capture->file) == 1
        && (length == 0 || fwrite(bytes, 1, length, capture->file) == length) && fwrite(zeros, 1, padding, capture->file) == padding
        && fwrite(&total, sizeof total, 1, capture->file) == 1;
    if (!is_written && capture->error == 0) capture->error = errno;
}

/* A capture has the byte order of the machine, interfaces A and B, and times in nanoseconds. */
bool open_capture(struct capture *capture, const char *path) {
    static char buffer[BUFFER];
    static const uint32_t section[4] = {0x1a2b3c4d, 1, UINT32_MAX, UINT32_MAX};
    capture->path = path;
    capture->file = fopen(path, "wb");
    if (capture->file == NULL) {
        tell_unwritten(path, errno);
        return false;
    }
    setvbuf(capture->file, buffer, _IOFBF, sizeof buffer);
    block(capture, 0x0a0d0d0a, section, sizeof section, NULL, 0);
    for (size_t k = 0; k < 2; k++) {
        const struct {
            uint16_t link_type, reserved;
            uint32_t most;
            uint16_t of_name, name_length;
            char name[4];
            uint16_t of_resolution, resolution_length;
            uint8_t resolution[4];
            uint32_t end;
        } interface = {1, 0, AFDX_GREATEST_FRAME, 2, 1, {"AB"[k]}, 9, 1, {9}, 0};
        block(capture, 1, &interface, sizeof interface, NULL, 0);
    }
    return true;
}

void add_packet(struct capture *capture, uint8_t network, uint64_t nanos, const uint8_t *bytes, size_t length) {
    if (capture->file == NULL) return;
    const uint32_t front[5] = {network, (uint32_t)(nanos >> 32), (uint32_t)nanos, (uint32_t)length, (uint32_t)length};
    block(capture, 6, front, sizeof front, bytes, length);
}

bool close_capture(struct capture *capture) {
    if (capture->file != NULL && fclose(capture->file) != 0 && capture->error == 0) capture->error = errno;
    if (capture->error != 0) tell_unwritten(capture->path, capture->error);
    return capture->error == 0;
}
