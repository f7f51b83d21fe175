/* The two that are compared: the proved library and the transmitter written by hand, each with an end system of one
   plan, and that both make the same frames. */
#ifndef SIDES_H
#define SIDES_H

#include "afdx.h"
#include "hand.h"

#include <stdbool.h>
#include <stdint.h>
#include <stdio.h>

enum { GREATEST = 8192 };

/* Ends the program if this doesn't hold. */
void want(bool holds, const char *what);

/* Virtual links of a queue each, and ports in turn on them, with or without UDP checksums, as hand_open has them. */
struct plan {
    unsigned links, lmax, capacity, ports;
    size_t max;
    bool sums;
};

/* One of the two that are compared, with its end system. */
struct side {
    afdx_end_system it;
    afdx_port ports[HAND_PORTS];
    unsigned out;
    struct hand *hand;
    uint64_t now;
};

/* The bytes of each message: byte i is 7 i + 3 modulo 256. */
extern uint8_t message[GREATEST];

/* Writes these bytes, before all else. */
void make_message(void);

void open_both(struct side sides[2], struct plan plan);
void close_both(struct side sides[2]);

static inline int send_bytes(struct side *side, unsigned port, const uint8_t *bytes, size_t length) {
    return side->hand ? hand_send(side->hand, port, bytes, length) : afdx_send(&side->ports[port], bytes, length);
}

static inline void poll_at(struct side *side, uint64_t now) {
    uint8_t up;
    if (side->hand) {
        hand_poll(side->hand, now);
    } else if (afdx_poll(&side->it, now, &up) != 0) {
        want(false, "a poll is refused");
    }
}

/* A poll at which each link is due. */
static inline void poll_due(struct side *side) {
    poll_at(side, side->now += 1000);
}

/* That both make the same frames of messages of several lengths. */
void check_frames(void);

/* The number that a program prints. */
double printed(FILE *program);

#endif
