/* Tests ports that send from threads of their own, while this thread polls: 16 through one queue of four places until it
   is closed, 16 through one place, 64, as many as a sub-VL may have, through 256, and 8 over two links, which send a
   million messages together. Each frame is read: what was accepted is transmitted whole, once, each port's messages in
   its order. No call requests or frees memory between opening and freeing.

   threads [MESSAGES]: how many in place of the million

   tests/c/c_library.py builds and runs it. */
#include "afdx.h"

#include "checks.h"

#include <pthread.h>
#include <sched.h>

enum { MOST = 64, LINKS = 2, LONGEST = 3000, TURNS = 1000000000 };

/* Writes the bytes of a port's message of a number, and returns its length. No two messages have the same four first
   bytes. One of 64 may have several fragments. */
static size_t message_of(unsigned port, uint32_t number, uint8_t *bytes) {
    uint32_t word = (number * MOST + port) * 2654435761u;
    size_t length = 1 + (word >> 8) % (word >> 26 == 0 ? LONGEST : 300);
    for (size_t k = 0; k < length; k++) bytes[k] = (uint8_t)((word >> k % 4 * 8) + k / 4);
    return length;
}

struct sender {
    afdx_port port;
    unsigned index;
    uint32_t messages;
    uint8_t answer;
    pthread_t thread;
};

/* Sends each message, again while the queue is full. The last answer stays. */
static void *send_all(void *argument) {
    struct sender *it = argument;
    uint8_t message[LONGEST];
    for (uint32_t number = 0; number < it->messages && it->answer == AFDX_OK; number++) {
        size_t length = message_of(it->index, number, message);
        for (int turn = 0; turn < TURNS; turn++) {
            it->answer = afdx_send(&it->port, message, length);
            if (it->answer != AFDX_FULL) break;
            sched_yield();
        }
    }
    return NULL;
}

/* What was received of a sub-VL: the number of whole datagrams, and the bytes of the next one. */
struct stream {
    uint32_t whole;
    size_t have;
    uint8_t datagram[8 + LONGEST];
};

/* What was received: the frames of each link, the messages of each port, and all messages. */
static struct {
    uint32_t frames[LINKS], of_port[MOST];
    uint64_t messages;
    struct stream streams[LINKS][4];
} got;

static unsigned word_at(const uint8_t *bytes) { return (unsigned)bytes[0] << 8 | bytes[1]; }

/* Counts a whole datagram. Returns whether it is the next message of its port. */
static bool is_next(struct stream *it) {
    static uint8_t wanted[LONGEST];
    unsigned port = word_at(it->datagram) - 1000;
    if (port >= MOST || word_at(it->datagram + 4) != it->have) return false;
    size_t length = message_of(port, got.of_port[port]++, wanted);
    bool is_well = it->have == 8 + length && memcmp(it->datagram + 8, wanted, length) == 0;
    it->whole++;
    it->have = 0;
    got.messages++;
    return is_well;
}

/* Keeps a frame's data. Returns whether it is the next frame of its link, and the next piece of its sub-VL's datagram,
   which has a number of its own. */
static bool is_taken(const uint8_t *frame, size_t length) {
    unsigned link = 900 - word_at(frame + 4), size = word_at(frame + 16);
    unsigned ident = word_at(frame + 18), place = word_at(frame + 20);
    if (link >= LINKS || length != (size < 45 ? 60 : 15 + size)) return false;
    uint32_t before = got.frames[link]++;
    struct stream *it = &got.streams[link][ident % 4];
    bool is_well = frame[length - 1] == (before == 0 ? 0 : (before - 1) % 255 + 1) && size > 20;
    is_well = is_well && ident == (4 * it->whole + ident % 4) % 65536 && it->have == place % 8192 * 8;
    if (!is_well || it->have + size - 20 > sizeof it->datagram) return false;
    memcpy(it->datagram + it->have, frame + 34, size - 20);
    it->have += size - 20;
    return (place & 0x2000) != 0 || is_next(it);
}

/* Polls a gap after the last poll. Returns whether that made the frames that were to come, the same for A and B. */
static bool is_polled(afdx_end_system *it, uint64_t *now) {
    uint8_t standing = 0, frame[AFDX_GREATEST_FRAME], twin[AFDX_GREATEST_FRAME];
    size_t count = 0, twins = 0, length = 0;
    bool is_well = afdx_poll(it, *now += 1000, &standing) == AFDX_OK && standing == (AFDX_A_STANDS | AFDX_B_STANDS);
    is_well = is_well && afdx_frames(it, AFDX_A, &count) == AFDX_OK && afdx_frames(it, AFDX_B, &twins) == AFDX_OK;
    is_well = is_well && count == twins;
    for (size_t k = 0; is_well && k < count; k++) {
        is_well = afdx_frame(it, AFDX_B, k, twin, sizeof twin, &twins) == AFDX_OK
            && afdx_frame(it, AFDX_A, k, frame, sizeof frame, &length) == AFDX_OK && length == twins
            && memcmp(frame, twin, 11) == 0 && frame[11] == 0x20 && twin[11] == 0x40
            && memcmp(frame + 12, twin + 12, length - 12) == 0 && is_taken(frame, length);
    }
    if (count == 0) sched_yield();
    return is_well;
}

static struct sender senders[MOST];

/* Takes ports, and starts a thread for each, which sends these many messages. */
static void start(afdx_end_system *it, unsigned ports, uint32_t messages) {
    for (unsigned k = 0; k < ports; k++) {
        senders[k] = (struct sender){.index = k, .messages = messages};
        CHECK(afdx_port_of(it, (uint16_t)k, &senders[k].port) == AFDX_OK);
        CHECK(pthread_create(&senders[k].thread, NULL, send_all, &senders[k]) == 0);
    }
}

/* Waits for the threads, and gives back their ports. Returns how many messages were accepted: all, if no queue was
   closed. */
static uint64_t joined(afdx_end_system *it, unsigned ports, bool is_closed) {
    uint64_t sum = 0, count = 0;
    for (unsigned k = 0; k < ports; k++) {
        CHECK(pthread_join(senders[k].thread, NULL) == 0);
        CHECK(senders[k].answer == AFDX_OK || (is_closed && senders[k].answer == AFDX_CLOSED));
        CHECK(afdx_accepted(&senders[k].port, &count) == AFDX_OK && (is_closed || count == senders[k].messages));
        CHECK(afdx_give_back(it, &senders[k].port) == AFDX_OK);
        senders[k].messages = (uint32_t)count;
        sum += count;
    }
    return sum;
}

/* Threads send, until so many messages were received; then the queue of the first link may be closed. Returns how many
   messages were accepted, and received. */
static uint64_t run(const char *text, unsigned ports, uint32_t messages, uint64_t taken, bool is_closed) {
    afdx_end_system it = {0};
    uint64_t now = 0, total = 0;
    uint8_t done = 0;
    bool is_well = true;
    memset(&got, 0, sizeof got);
    open_plan(&it, text);
    size_t asked = requests, freed = frees;
    start(&it, ports, messages);
    for (int turn = 0; is_well && got.messages < taken && turn < TURNS; turn++) is_well = is_polled(&it, &now);
    CHECK(is_well && got.messages >= taken && (!is_closed || afdx_close(&it, 900, 0, &total) == AFDX_OK));
    /* (or else threads would wait for room) */
    if (!is_well) exit(end_of_checks());
    uint64_t sum = joined(&it, ports, is_closed);
    CHECK(afdx_gather(&it) == AFDX_OK && (!is_closed || total == sum));
    for (int turn = 0; is_well && done == 0 && turn < TURNS; turn++)
        is_well = is_polled(&it, &now) && afdx_is_done(&it, &done) == AFDX_OK;
    CHECK(is_well && done == 1 && got.messages == sum && is_polled(&it, &now) && got.messages == sum);
    for (unsigned k = 0; k < ports; k++) CHECK(got.of_port[k] == senders[k].messages);
    CHECK(requests == asked && frees == freed);
    CHECK(afdx_free(&it) == AFDX_OK && blocks == 0 && bytes == 0);
    return sum;
}

#ifdef HAS_NO_TSAN_MEMCPY
/* What the library calls if the kit's compiler put the sanitizer in, and what the runtime of older compilers lacks. */
void *__tsan_memcpy(void *to, const void *from, size_t length) { return memcpy(to, from, length); }
void *__tsan_memmove(void *to, const void *from, size_t length) { return memmove(to, from, length); }
void *__tsan_memset(void *to, int byte, size_t length) { return memset(to, byte, length); }
#endif

int main(int count, char **words) {
    uint32_t each = (uint32_t)((count > 1 ? strtoul(words[1], NULL, 10) : 1000000) / 8);
    uint64_t sum = run(plan(1, 1, 4, 16), 16, 100, 200, true);
    CHECK(200 <= sum && sum <= 204);
    CHECK(run(plan(1, 1, 1, 16), 16, 100, 1599, false) == 1600);
    CHECK(run(plan(1, 1, 256, MOST), MOST, 100, 6144, false) == 6400);
    CHECK(run(plan(2, 1, 256, 4), 8, each, 8 * (uint64_t)each - 256, false) == 8 * (uint64_t)each);
    return end_of_checks();
}
