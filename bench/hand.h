/* A transmitting AFDX end system written by hand in C: what bench.c compares the proved library with. It makes the
   same frames of the same messages at the same times, over bounded queues that any number of threads may send to; the
   headers of a port are made once, as the library's are. It checks only what it has to: no configuration text, no
   closing, no networks that fail, no gathering. Built with DUTIES it does in each call what the library owes there:
   queues that close, whose slots own rooms and whose room is known before a place is drawn, a number of sends that ends, networks that are
   lent a frame and may fail, counts of each link, and times that don't go back. Each of its polls looks at each link;
   the library's look at none before one may be due. */
#ifndef HAND_H
#define HAND_H

#include <stdbool.h>
#include <stddef.h>
#include <stdint.h>

enum { HAND_LINKS = 64, HAND_PORTS = 256, HAND_FRAME = 1514 };
enum { HAND_OK = 0, HAND_EMPTY = 1, HAND_TOO_LONG = 2, HAND_FULL = 5 };

struct hand;

/* An end system of `links` virtual links with the identifiers 1 and up, each with a BAG of 1 ms, one sub-VL and a queue of
   `capacity` messages, and `ports` ports with the identifiers 0 and up, port k on link k modulo `links`, all of partition
   1, from UDP port 1,000 + k to 2,000, with UDP checksums if it sums. */
struct hand *hand_open(uint16_t end_system, unsigned links, unsigned lmax, unsigned capacity, unsigned ports, size_t max, bool sums);
void hand_free(struct hand *it);

/* Copies a message in, from any thread that has the port. */
int hand_send(struct hand *it, unsigned port, const uint8_t *message, size_t length);

/* Gives each link its turn at a time in microseconds. */
void hand_poll(struct hand *it, uint64_t now);

/* The frames of the last poll for network A (0) or B (1). */
size_t hand_frames(const struct hand *it, unsigned network);
const uint8_t *hand_frame(const struct hand *it, unsigned network, size_t k, size_t *length);

/* Sends a message by lwIP (lwip.c) to a multicast address, with a UDP checksum if it sums, over one network that reads a byte of
   each frame. Returns how many frames it got, 0 if the message isn't sent. */
unsigned lwip_send(const uint8_t *message, size_t length, bool sums);

#endif
