#include "hand.h"
#include "queue.h"

#include <string.h>

enum { HAND_HEAD = 38 };

struct link {
    uint16_t id;
    size_t room;
    uint64_t gap, last;
    bool served;
    uint8_t number;
    struct queue queue;
    /* the message that is being sent, its datagram's length and how much of that is sent, and its place */
    struct item cut;
    size_t total, sent;
    uint16_t place;
#ifdef DUTIES
    bool lost;
    uint64_t due, frames, bytes, messages, latest;
#endif
};

struct port {
    unsigned link;
    size_t max;
    struct sender sender;
    /* the headers up to the UDP ports, zeros where each frame has its own, and the sums of the words of its IPv4 header, and
       of its UDP pseudo header and ports without the lengths */
    uint8_t head[HAND_HEAD];
    uint32_t sum, udp_sum;
};

/* A network: the frames of the last poll. */
struct kept {
    uint64_t at;
    size_t length;
    uint8_t frame[HAND_FRAME];
};

struct out {
    uint64_t begun, count;
#ifdef DUTIES
    uint64_t failures;
    bool stands;
    _Atomic bool fails;
#endif
    struct kept kept[HAND_LINKS];
};

struct hand {
    unsigned links, ports;
    struct link link[HAND_LINKS];
    struct port port[HAND_PORTS];
    struct out out[2];
#ifdef DUTIES
    uint64_t now;
    uint8_t frame[HAND_FRAME];
#endif
};

static void put16(uint8_t *to, unsigned value) {
    to[0] = (uint8_t)(value >> 8);
    to[1] = (uint8_t)value;
}

/* The headers of a port from this UDP port to 2,000, of partition 1. */
static void write_head(struct port *port, uint16_t end_system, uint16_t vl, unsigned source) {
    static const uint8_t fixed[HAND_HEAD] = {0x03, 0, 0, 0, 0, 0, 0x02, 0, 0, 0, 0, 0x20, 0x08, 0, 0x45, 0, 0, 0, 0, 0, 0, 0, 1, 17, 0, 0, 10, 0, 0,
        1, 0xe0, 0xe0, 0, 0, 0, 0, 0x07, 0xd0};
    memcpy(port->head, fixed, HAND_HEAD);
    put16(port->head + 4, vl);
    put16(port->head + 9, end_system);
    put16(port->head + 27, end_system);
    put16(port->head + 32, vl);
    put16(port->head + 34, source);
    port->udp_sum = 17;
    for (int k = 14; k < 34; k += 2) port->sum += (uint32_t)port->head[k] << 8 | port->head[k + 1];
    for (int k = 26; k < 38; k += 2) port->udp_sum += (uint32_t)port->head[k] << 8 | port->head[k + 1];
}

struct hand *hand_open(uint16_t end_system, unsigned links, unsigned lmax, unsigned capacity, unsigned ports, size_t max, bool sums) {
    struct hand *it = aligned_alloc(128, (sizeof *it + 127) / 128 * 128);
    if (!it) return NULL;
    memset(it, 0, sizeof *it);
    it->links = links;
    it->ports = ports;
    for (unsigned k = 0; k < links; k++) {
        struct link *link = &it->link[k];
        link->id = (uint16_t)(k + 1);
        link->room = lmax - 39;
        link->gap = 1000;
        open_queue(&link->queue, capacity, max);
    }
    for (unsigned k = 0; k < ports; k++) {
        it->port[k] = (struct port){.link = k % links, .max = max, .sender = {.sums = sums, .most = (uint64_t)1 << 40}};
        write_head(&it->port[k], end_system, it->link[k % links].id, 1000 + k);
    }
#ifdef DUTIES
    for (unsigned k = 0; k < links; k++) it->link[k].cut.bytes = malloc(max);
    for (unsigned k = 0; k < ports; k++) it->port[k].sender.spare.bytes = malloc(max);
    it->out[0].stands = it->out[1].stands = true;
#endif
    return it;
}

void hand_free(struct hand *it) {
    for (unsigned k = 0; k < it->links; k++) {
#ifndef DUTIES
        struct item item;
        while (pop(&it->link[k].queue, &item)) free(item.bytes);
#endif
        free(it->link[k].cut.bytes);
        free_queue(&it->link[k].queue);
    }
    for (unsigned k = 0; k < it->ports; k++) free(it->port[k].sender.spare.bytes);
    free(it);
}

int hand_send(struct hand *it, unsigned port, const uint8_t *message, size_t length) {
    struct port *from = &it->port[port];
    if (length == 0) return HAND_EMPTY;
    if (length > from->max) return HAND_TOO_LONG;
    return push(&it->link[from->link].queue, &from->sender, port, message, length) ? HAND_OK : HAND_FULL;
}

/* The sum of 16-bit words, folded to 16 bits. */
static uint32_t folded(uint32_t sum) {
    sum = (sum & 0xffff) + (sum >> 16);
    return (sum & 0xffff) + (sum >> 16);
}

/* The UDP checksum of the link's message, which is never zero, or zero if its port has none. */
static unsigned udp_checksum(const struct port *port, const struct link *link) {
    if (!port->sender.sums) return 0;
    uint32_t words = link->cut.sum << 8 | link->cut.sum >> 8;
    uint32_t sum = folded(port->udp_sum + 2 * (uint32_t)link->total + (words & 0xffff));
    return sum == 0xffff ? 0xffff : 0xffff - sum;
}

/* Writes the next piece of the link's message as a frame for network A, and returns the frame's length. */
static size_t write_frame(const struct hand *it, struct link *link, uint8_t *frame) {
    const struct port *port = &it->port[link->cut.port];
    size_t left = link->total - link->sent, step = link->room & ~(size_t)7, piece = left <= link->room ? left : step;
    unsigned length = (unsigned)(20 + piece), place = (link->place * 4u) & 0xffff;
    unsigned offset = (unsigned)((piece < left ? 0x2000 : 0) | link->sent / 8);
    memcpy(frame, port->head, HAND_HEAD);
    put16(frame + 16, length);
    put16(frame + 18, place);
    put16(frame + 20, offset);
    put16(frame + 24, ~folded(port->sum + length + place + offset) & 0xffff);
    uint8_t *to = frame + 34;
    if (link->sent == 0) {
        put16(to + 4, (unsigned)link->total);
        put16(to + 6, udp_checksum(port, link));
        memcpy(to + 8, link->cut.bytes, piece - 8);
    } else {
        memcpy(to, link->cut.bytes + link->sent - 8, piece);
    }
    size_t end = 34 + piece;
    if (end < 59) {
        memset(frame + end, 0, 59 - end);
        end = 59;
    }
    frame[end] = link->number;
    link->sent += piece;
    return end + 1;
}

/* Ends the turn of a link that sent a frame. */
static void end_turn(struct link *link, uint64_t now) {
    link->number = link->number == 255 ? 1 : (uint8_t)(link->number + 1);
    link->last = now;
    link->served = true;
    if (link->sent == link->total) {
#ifndef DUTIES
        free(link->cut.bytes);
        link->cut.bytes = NULL;
#endif
        link->cut.length = 0;
        link->place++;
    }
}

/* Whether a message of the link is being sent, after a look into its queue if none was. */
static bool has_message(struct link *link) {
    if (link->cut.length) return true;
    if (!pop(&link->queue, &link->cut)) return false;
    link->total = 8 + link->cut.length;
    link->sent = 0;
    return true;
}

#ifdef DUTIES
/* Gives a network a frame that is only lent, unless it failed before or fails now. */
static void give(struct out *out, uint64_t now, const uint8_t *frame, size_t length) {
    if (!out->stands) return;
    if (atomic_load(&out->fails) || out->count == UINT64_MAX) {
        out->failures++;
        out->stands = false;
        return;
    }
    struct kept *kept = &out->kept[out->count++ - out->begun];
    kept->at = now;
    memcpy(kept->frame, frame, length);
    kept->length = length;
}

static uint64_t plus(uint64_t count, uint64_t more) {
    return count > UINT64_MAX - more ? UINT64_MAX : count + more;
}

static void serve(struct hand *it, struct link *link, uint64_t now) {
    if (!has_message(link)) return;
    uint8_t *frame = it->frame;
    size_t length = write_frame(it, link, frame);
    give(&it->out[0], now, frame, length);
    frame[11] = 0x40;
    give(&it->out[1], now, frame, length);
    frame[11] = 0x20;
    link->due = plus(now, link->gap);
    if (it->out[0].stands || it->out[1].stands) {
        link->frames = plus(link->frames, 1);
        link->bytes = plus(link->bytes, length);
        link->messages = plus(link->messages, frame[20] < 0x20);
        link->latest = now;
    } else {
        link->lost = true;
    }
    end_turn(link, now);
}

void hand_poll(struct hand *it, uint64_t now) {
    if (now < it->now || !(it->out[0].stands || it->out[1].stands)) return;
    it->now = now;
    it->out[0].begun = it->out[0].count;
    it->out[1].begun = it->out[1].count;
    for (unsigned k = 0; k < it->links; k++) {
        struct link *link = &it->link[k];
        if (now >= link->due && (it->out[0].stands || it->out[1].stands)) serve(it, link, now);
    }
}
#else
static void serve(struct hand *it, struct link *link, uint64_t now) {
    if (!has_message(link)) return;
    struct kept *a = &it->out[0].kept[it->out[0].count++], *b = &it->out[1].kept[it->out[1].count++];
    a->length = b->length = write_frame(it, link, a->frame);
    memcpy(b->frame, a->frame, a->length);
    b->frame[11] = 0x40;
    end_turn(link, now);
}

void hand_poll(struct hand *it, uint64_t now) {
    it->out[0].count = it->out[1].count = 0;
    for (unsigned k = 0; k < it->links; k++) {
        struct link *link = &it->link[k];
        if (!link->served || now - link->last >= link->gap) serve(it, link, now);
    }
}
#endif

size_t hand_frames(const struct hand *it, unsigned network) {
    return it->out[network].count - it->out[network].begun;
}

const uint8_t *hand_frame(const struct hand *it, unsigned network, size_t k, size_t *length) {
    const struct kept *kept = &it->out[network].kept[k];
    *length = kept->length;
    return kept->frame;
}
