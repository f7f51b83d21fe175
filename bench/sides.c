/* The two sides of a comparison: sides.h. */
#define _GNU_SOURCE
#include "sides.h"

#include <stdlib.h>
#include <string.h>

void want(bool holds, const char *what) {
    if (holds) return;
    fprintf(stderr, "bench: %s\n", what);
    exit(1);
}

uint8_t message[GREATEST];

void make_message(void) {
    for (size_t i = 0; i < sizeof message; i++) message[i] = (uint8_t)(i * 7 + 3);
}

/* The text of the plan that was opened last. */
static char text[64 * 1024];

static void open_library(struct side *side, struct plan plan) {
    size_t end = (size_t)snprintf(text, sizeof text, "version = 2\n[end_system]\nid = 1\n");
    for (unsigned k = 0; k < plan.links; k++)
        end += (size_t)snprintf(text + end, sizeof text - end, "[[vl]]\nid = %u\nbag_ms = 1\nlmax = %u\nsub_vls = 1\ncapacity = %u\n",
            k + 1, plan.lmax, plan.capacity);
    for (unsigned k = 0; k < plan.ports; k++)
        end += (size_t)snprintf(text + end, sizeof text - end,
            "[[port]]\nid = %u\nvl = %u\nsub = 0\npartition = 1\nkind = \"queuing\"\nsource = %u\ndestination = 2000\nmax = %zu\nchecksum = \"%s\"\n",
            k, k % plan.links + 1, 1000 + k, plan.max, plan.sums ? "udp" : "none");
    want(afdx_open(&side->it, (const uint8_t *)text, end) == 0, "the plan is refused");
    for (side->out = 0; side->out < plan.ports; side->out++)
        want(afdx_port_of(&side->it, (uint16_t)side->out, &side->ports[side->out]) == 0, "a port is refused");
}

void open_both(struct side sides[2], struct plan plan) {
    memset(sides, 0, 2 * sizeof *sides);
    open_library(&sides[0], plan);
    sides[1].hand = hand_open(1, plan.links, plan.lmax, plan.capacity, plan.ports, plan.max, plan.sums);
    want(sides[1].hand, "no memory");
}

void close_both(struct side sides[2]) {
    while (sides[0].out > 0) afdx_free_port(&sides[0].ports[--sides[0].out]);
    afdx_free(&sides[0].it);
    hand_free(sides[1].hand);
}

/* Whether the last polls of both made the same frames. */
static bool are_same(struct side sides[2]) {
    for (uint8_t net = 0; net < 2; net++) {
        size_t count = 0;
        want(afdx_frames(&sides[0].it, net, &count) == 0, "no frames");
        if (count != hand_frames(sides[1].hand, net)) return false;
        for (size_t k = 0; k < count; k++) {
            uint8_t frame[AFDX_GREATEST_FRAME];
            size_t length = 0, other = 0;
            want(afdx_frame(&sides[0].it, net, k, frame, sizeof frame, &length) == 0, "no frame");
            const uint8_t *bytes = hand_frame(sides[1].hand, net, k, &other);
            if (length != other || memcmp(frame, bytes, length) != 0) return false;
        }
    }
    return true;
}

void check_frames(void) {
    static const size_t lengths[] = {1, 17, 18, 41, 100, 1471, 1472, 1480, 8192};
    static const unsigned lmaxes[] = {64, 200, 1518};
    static struct side sides[2];
    for (size_t m = 0; m < 2 * sizeof lmaxes / sizeof *lmaxes; m++) {
        open_both(sides, (struct plan){3, lmaxes[m / 2], 16, 7, GREATEST, m % 2});
        size_t frames = 0;
        for (unsigned k = 0; k < 600; k++) {
            for (unsigned p = 0; p < 7; p++) {
                size_t length = lengths[(k + p) % (sizeof lengths / sizeof *lengths)];
                if (length == GREATEST) length -= k % 10;
                int answer = send_bytes(&sides[0], p, message + k % 10, length);
                want(send_bytes(&sides[1], p, message + k % 10, length) == answer, "another answer to a send");
            }
            for (unsigned j = 0; j < 7; j++) {
                uint64_t at = 2100 * (uint64_t)k + 300 * j;
                poll_at(&sides[0], at);
                poll_at(&sides[1], at);
                want(are_same(sides), "other frames");
                frames += hand_frames(sides[1].hand, 0);
            }
        }
        want(frames > 500, "few frames");
        close_both(sides);
    }
}

double printed(FILE *program) {
    double number = 0;
    want(program && fscanf(program, "%lf", &number) == 1 && pclose(program) == 0, "a program doesn't answer");
    return number;
}
