/* The bounded queues of the transmitter by hand (hand.c), to which any number of threads may send and from which one takes. */
#ifndef QUEUE_H
#define QUEUE_H

#include <stdatomic.h>
#include <stdbool.h>
#include <stddef.h>
#include <stdint.h>
#include <stdlib.h>
#include <string.h>

/* A message in a queue, and the sum of its words if its sender sums. With DUTIES its bytes are in a room that a slot, a sender
   or the receiver owns, and that has no message while `length` is 0; otherwise they are a block of its own. */
struct item {
    uint8_t *bytes;
    size_t length;
    unsigned port;
    uint32_t sum;
};

/* Whether a sender of a queue sums, and what it knows with DUTIES: how often it may ask for a slot and has asked, how many of its
   messages were accepted, its last place and slot, and its spare room. */
struct sender {
    bool sums;
    uint64_t most, asked, accepted, place, slot;
    struct item spare;
};

/* Copies a message, and returns the sum of its 16-bit words, of which the first byte is the lower, folded to 16 bits. */
static uint32_t copy_summed(uint8_t *restrict to, const uint8_t *restrict from, size_t length) {
    uint64_t sum = 0;
    size_t k = 0;
    for (uint32_t words; k + sizeof words <= length; k += sizeof words) {
        memcpy(&words, from + k, sizeof words);
        memcpy(to + k, &words, sizeof words);
        sum += words;
    }
    for (; k < length; k++) {
        to[k] = from[k];
        sum += (uint32_t)from[k] << (k % 2 * 8);
    }
    while (sum >> 16) sum = (sum & 0xffff) + (sum >> 16);
    return (uint32_t)sum;
}

/* Copies a message, and sums it if its sender does. */
static uint32_t copy(const struct sender *sender, uint8_t *to, const uint8_t *from, size_t length) {
    if (sender->sums) return copy_summed(to, from, length);
    memcpy(to, from, length);
    return 0;
}

#ifdef DUTIES
/* A bounded queue as the library's, in which nothing is accepted after a close, a sender that stops holds back its own
   queue alone, and each slot owns a room for the greatest message. `room` is over NO_ROOM by the number of free slots, the upper bit of `tail` says that the queue is closed,
   and ready[k] is one more than the place that is ready in slot k. */
#define NO_ROOM ((uint64_t)1 << 32)

static void swap_items(struct item *one, struct item *other) {
    struct item item = *one;
    *one = *other;
    *other = item;
}

struct queue {
    _Atomic uint64_t room, tail, *ready;
    struct item *slots;
    uint64_t capacity, taken, slot;
};

static void open_queue(struct queue *queue, unsigned capacity, size_t greatest) {
    *queue = (struct queue){.capacity = capacity};
    queue->slots = calloc(capacity, sizeof *queue->slots);
    for (unsigned k = 0; k < capacity; k++) queue->slots[k].bytes = malloc(greatest);
    queue->ready = calloc(capacity, sizeof *queue->ready);
    atomic_init(&queue->room, NO_ROOM + capacity);
}

static void free_queue(struct queue *queue) {
    for (uint64_t k = 0; k < queue->capacity; k++) free(queue->slots[k].bytes);
    free(queue->slots);
    free((void *)queue->ready);
}

static bool push(struct queue *queue, struct sender *sender, unsigned port, const uint8_t *message, size_t length) {
    if (atomic_load(&queue->tail) >> 63 || sender->asked == sender->most) return false;
    sender->asked++;
    if (atomic_fetch_sub(&queue->room, 1) <= NO_ROOM) {
        atomic_fetch_add(&queue->room, 1);
        return false;
    }
    sender->spare.sum = copy(sender, sender->spare.bytes, message, length);
    sender->spare.length = length;
    sender->spare.port = port;
    uint64_t place = atomic_fetch_add(&queue->tail, 1);
    if (place >> 63) {
        atomic_fetch_add(&queue->room, 1);
        return false;
    }
    uint64_t ahead = place - sender->place, slot = sender->slot + ahead;
    if (ahead >= queue->capacity) {
        slot = place % queue->capacity;
    } else if (slot >= queue->capacity) {
        slot -= queue->capacity;
    }
    if (queue->slots[slot].length) abort();
    swap_items(&queue->slots[slot], &sender->spare);
    atomic_store(&queue->ready[slot], place + 1);
    sender->place = place;
    sender->slot = slot;
    sender->accepted++;
    return true;
}

/* Exchanges an empty room for the one of the next message. */
static bool pop(struct queue *queue, struct item *item) {
    if (atomic_load(&queue->ready[queue->slot]) != queue->taken + 1) return false;
    swap_items(&queue->slots[queue->slot], item);
    atomic_fetch_add(&queue->room, 1);
    queue->taken++;
    queue->slot = queue->slot + 1 < queue->capacity ? queue->slot + 1 : 0;
    return true;
}
#else
/* A bounded queue by compare-and-swap, as crossbeam's ArrayQueue: a slot's stamp is its turn's number when it is free to
   be written, and one more when it is written. */
struct slot {
    _Atomic uint64_t stamp;
    struct item item;
};

struct queue {
    _Alignas(128) _Atomic uint64_t head;
    _Alignas(128) _Atomic uint64_t tail;
    _Alignas(128) struct slot *slots;
    uint64_t capacity, lap;
};

static void open_queue(struct queue *queue, unsigned capacity, size_t greatest) {
    (void)greatest;
    queue->capacity = capacity;
    for (queue->lap = 1; queue->lap <= capacity; queue->lap *= 2) {}
    queue->slots = calloc(capacity, sizeof *queue->slots);
    for (unsigned s = 0; queue->slots && s < capacity; s++) atomic_init(&queue->slots[s].stamp, s);
}

static void free_queue(struct queue *queue) {
    free(queue->slots);
}

static bool push_item(struct queue *queue, struct item item) {
    uint64_t tail = atomic_load_explicit(&queue->tail, memory_order_relaxed);
    for (;;) {
        uint64_t index = tail & (queue->lap - 1), next = index + 1 < queue->capacity ? tail + 1 : (tail & ~(queue->lap - 1)) + queue->lap;
        struct slot *slot = &queue->slots[index];
        uint64_t stamp = atomic_load_explicit(&slot->stamp, memory_order_acquire);
        if (stamp == tail) {
            if (atomic_compare_exchange_weak_explicit(&queue->tail, &tail, next, memory_order_seq_cst, memory_order_relaxed)) {
                slot->item = item;
                atomic_store_explicit(&slot->stamp, tail + 1, memory_order_release);
                return true;
            }
        } else if (stamp + queue->lap == tail + 1) {
            atomic_thread_fence(memory_order_seq_cst);
            if (atomic_load_explicit(&queue->head, memory_order_relaxed) + queue->lap == tail) return false;
            tail = atomic_load_explicit(&queue->tail, memory_order_relaxed);
        } else {
            tail = atomic_load_explicit(&queue->tail, memory_order_relaxed);
        }
    }
}

static bool push(struct queue *queue, struct sender *sender, unsigned port, const uint8_t *message, size_t length) {
    uint8_t *bytes = malloc(length);
    if (!bytes) return false;
    uint32_t sum = copy(sender, bytes, message, length);
    if (push_item(queue, (struct item){bytes, length, port, sum})) return true;
    free(bytes);
    return false;
}

static bool pop(struct queue *queue, struct item *item) {
    uint64_t head = atomic_load_explicit(&queue->head, memory_order_relaxed);
    for (;;) {
        uint64_t index = head & (queue->lap - 1), next = index + 1 < queue->capacity ? head + 1 : (head & ~(queue->lap - 1)) + queue->lap;
        struct slot *slot = &queue->slots[index];
        uint64_t stamp = atomic_load_explicit(&slot->stamp, memory_order_acquire);
        if (stamp == head + 1) {
            if (atomic_compare_exchange_weak_explicit(&queue->head, &head, next, memory_order_seq_cst, memory_order_relaxed)) {
                *item = slot->item;
                atomic_store_explicit(&slot->stamp, head + queue->lap, memory_order_release);
                return true;
            }
        } else if (stamp == head) {
            atomic_thread_fence(memory_order_seq_cst);
            if (atomic_load_explicit(&queue->tail, memory_order_relaxed) == head) return false;
            head = atomic_load_explicit(&queue->head, memory_order_relaxed);
        } else {
            head = atomic_load_explicit(&queue->head, memory_order_relaxed);
        }
    }
}

#endif

#endif
