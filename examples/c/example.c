/* Sends messages from threads of their own to both networks, by the proved AFDX end system.

       example CONFIG INTERFACE_A INTERFACE_B PORT[:MESSAGES[:BYTES]]..
       example --dump CONFIG PORT[:MESSAGES[:BYTES]]..

   CONFIG is the file of a plan. Each PORT sends MESSAGES messages of BYTES bytes, 1 of each by default: byte i
   of message k is k + 1 + i modulo 256, both counted from 0.

   In the first form each port has a thread that sends; the main thread polls by the monotonic clock and writes the frames
   to two network interfaces, which needs the right to open raw sockets. Between polls it sleeps until a link is due
   (afdx_next_due), or until a port has sent, which an eventfd reports: no call of the library does. An interface that
   doesn't take a frame gets no other here; a driver may as well count the loss and go on. Then the ports are given back, the remaining frames are transmitted,
   and the counts are printed.

   With --dump only standard output is written and no clock is read: polls are 1,000 microseconds apart, from 0 on, and
   before each of them the ports send, in their order, until there is no room. The frames are printed as `afdx_bench run`
   prints them: those for network A and then those for network B. */
#define _GNU_SOURCE
#include "afdx.h"

#include <errno.h>
#include <inttypes.h>
#include <linux/if_packet.h>
#include <net/if.h>
#include <poll.h>
#include <pthread.h>
#include <stdarg.h>
#include <stdatomic.h>
#include <stdbool.h>
#include <stdio.h>
#include <stdlib.h>
#include <string.h>
#include <sys/eventfd.h>
#include <sys/socket.h>
#include <time.h>
#include <unistd.h>

/* The most ports, the longest message and the longest text of a plan that this example takes. */
enum { MOST_PORTS = 128, GREATEST_MESSAGE = 8192, GREATEST_TEXT = 1 << 20 };

/* The time between polls of a dump, and how long a sender waits for room, in microseconds. */
enum { DUMP_STEP = 1000, PAUSE = 100 };

/* The longest run of the other form, in microseconds. */
static const uint64_t PATIENCE = UINT64_C(60) * 1000 * 1000;

/* A port that sends, in its thread or before each poll. */
struct sender {
    afdx_port port;
    unsigned id;
    uint32_t messages, sent;
    size_t bytes;
    uint8_t refused; /* the answer that ended its sending, or 0 */
    int wake;        /* the eventfd that is written once messages were accepted, and at the end */
    atomic_bool ended;
    pthread_t thread;
};

/* A network: an interface or a dump. */
struct network {
    uint8_t which;
    const char *name;
    int socket;         /* -1 in a dump */
    FILE *lines;        /* NULL but in a dump */
    char *text;
    size_t text_length;
    uint64_t frames;
};

static int complain(const char *format, ...) {
    va_list rest;
    va_start(rest, format);
    vfprintf(stderr, format, rest);
    va_end(rest);
    return -1;
}

/* Sends until all messages are sent or one is refused. Returns whether to try again later. */
static int send_some(struct sender *sender) {
    uint8_t message[GREATEST_MESSAGE + 1];
    while (sender->sent < sender->messages) {
        for (size_t i = 0; i < sender->bytes; i++) message[i] = (uint8_t)(sender->sent + 1 + i);
        uint8_t answer = afdx_send(&sender->port, message, sender->bytes);
        if (answer == AFDX_FULL) return 1;
        if (answer != 0) {
            sender->refused = answer;
            return 0;
        }
        sender->sent++;
    }
    return 0;
}

/* Wakes the thread that polls. */
static void wake_up(int wake) {
    const uint64_t one = 1;
    /* (it only fails if the thread has been woken 2^64 - 2 times and hasn't slept since) */
    if (write(wake, &one, sizeof one) != (ssize_t)sizeof one) perror("eventfd");
}

/* The thread of a port. */
static void *send_all(void *port) {
    struct sender *sender = port;
    uint32_t sent = 0;
    while (send_some(sender)) {
        if (sender->sent > sent) wake_up(sender->wake);
        sent = sender->sent;
        usleep(PAUSE);
    }
    atomic_store(&sender->ended, true);
    wake_up(sender->wake);
    return NULL;
}

/* Microseconds of the monotonic clock. */
static uint64_t clock_micros(void) {
    struct timespec now;
    clock_gettime(CLOCK_MONOTONIC, &now);
    return (uint64_t)now.tv_sec * 1000000 + (uint64_t)now.tv_nsec / 1000;
}

/* Sends a frame to the interface of its network, or adds it to the lines of a dump. */
static int carry(struct network *network, uint64_t now, const uint8_t *frame, size_t length) {
    network->frames++;
    if (network->lines == NULL) return send(network->socket, frame, length, 0) == (ssize_t)length ? 0 : -1;
    fprintf(network->lines, "%s %" PRIu64 " ", network->name, now);
    for (size_t i = 0; i < length; i++) fprintf(network->lines, "%02x", frame[i]);
    return fputc('\n', network->lines) == EOF ? -1 : 0;
}

/* Transmits the frames that the last poll made for a network. One that doesn't take a frame fails here for good; a driver
   whose network may come back counts the loss instead, and goes on. */
static void carry_all(afdx_end_system *end_system, struct network *network, uint64_t now) {
    uint8_t frame[AFDX_GREATEST_FRAME];
    size_t count = 0, length = 0;
    if (afdx_frames(end_system, network->which, &count) != 0) return;
    for (size_t k = 0; k < count; k++) {
        if (afdx_frame(end_system, network->which, k, frame, sizeof frame, &length) != 0) return;
        if (carry(network, now, frame, length) != 0) {
            perror(network->name);
            afdx_fail(end_system, network->which);
            return;
        }
    }
}

/* Polls once, and transmits the frames. */
static int poll_once(afdx_end_system *end_system, struct network networks[2], uint64_t now) {
    uint8_t standing = 0;
    uint8_t answer = afdx_poll(end_system, now, &standing);
    if (answer != 0) return complain("a poll was refused: %d\n", answer);
    carry_all(end_system, &networks[0], now);
    carry_all(end_system, &networks[1], now);
    return 0;
}

/* Gives back all ports and calls afdx_gather, so that all that they had accepted can be sent. */
static int gather(afdx_end_system *end_system, struct sender *senders, size_t count) {
    for (size_t k = 0; k < count; k++) {
        uint8_t answer = afdx_give_back(end_system, &senders[k].port);
        if (answer != 0) return complain("port %u doesn't come back: %d\n", senders[k].id, answer);
    }
    uint8_t answer = afdx_gather(end_system);
    if (answer != 0) return complain("the ports can't be gathered: %d\n", answer);
    return 0;
}

/* Sleeps until a link is due, until a port has sent or its thread has ended, or until the longest run is over. */
static void sleep_until_due(afdx_end_system *end_system, int wake, uint64_t begun) {
    uint64_t until = AFDX_NEVER, now = clock_micros() - begun, count = 0;
    if (afdx_next_due(end_system, &until) != 0 || until > PATIENCE) until = PATIENCE + 1;
    uint64_t left = until > now ? until - now : 0;
    struct timespec time = {.tv_sec = (time_t)(left / 1000000), .tv_nsec = (long)(left % 1000000 * 1000)};
    struct pollfd sent = {.fd = wake, .events = POLLIN};
    if (ppoll(&sent, 1, &time, NULL) > 0 && read(wake, &count, sizeof count) < 0) perror("eventfd");
}

/* Polls until all that was accepted is sent. */
static int drain(afdx_end_system *end_system, struct network networks[2], uint64_t now, uint64_t begun, int wake) {
    uint8_t done = 0;
    for (bool is_polled = false;; is_polled = true) {
        if (afdx_is_done(end_system, &done) != 0) return complain("it doesn't drain\n");
        if (done) return 0;
        if (begun == UINT64_MAX) {
            now += DUMP_STEP;
        } else {
            /* (a message may have come since the last poll: afdx_next_due doesn't speak of links that are due) */
            if (is_polled) sleep_until_due(end_system, wake, begun);
            now = clock_micros() - begun;
            if (now > PATIENCE) return complain("not all was sent in time\n");
        }
        if (poll_once(end_system, networks, now) != 0) return -1;
    }
}

/* The ports send in their order before each poll. Polls are DUMP_STEP apart. */
static int dump(afdx_end_system *end_system, struct sender *senders, size_t count, struct network networks[2]) {
    uint64_t now = 0;
    for (;;) {
        int again = 0;
        for (size_t k = 0; k < count; k++) again |= send_some(&senders[k]);
        if (poll_once(end_system, networks, now) != 0) return -1;
        if (!again) break;
        now += DUMP_STEP;
    }
    if (gather(end_system, senders, count) != 0) return -1;
    return drain(end_system, networks, now, UINT64_MAX, -1);
}

/* Joins the threads in order, up to the first that still sends. Returns whether all are joined. */
static int join_sent(struct sender *senders, size_t *joined, size_t count) {
    while (*joined < count && atomic_load(&senders[*joined].ended)) pthread_join(senders[(*joined)++].thread, NULL);
    return *joined == count;
}

/* The ports send in threads of their own; this one polls by the clock. */
static int run(afdx_end_system *end_system, struct sender *senders, size_t count, struct network networks[2]) {
    uint64_t begun = clock_micros(), now = 0;
    size_t started = 0, joined = 0;
    int failed = 0, wake = eventfd(0, EFD_NONBLOCK | EFD_CLOEXEC);
    if (wake < 0) return complain("eventfd: %s\n", strerror(errno));
    for (size_t k = 0; k < count; k++) senders[k].wake = wake;
    while (started < count && pthread_create(&senders[started].thread, NULL, send_all, &senders[started]) == 0) started++;
    if (started < count) failed = complain("a thread can't be started\n");
    while (!join_sent(senders, &joined, started)) {
        now = clock_micros() - begun;
        if (!failed && now > PATIENCE) failed = complain("not all was accepted in time\n");
        /* (the threads of an end system that is no longer polled would try on) */
        if (failed || poll_once(end_system, networks, now) != 0) exit(1);
        sleep_until_due(end_system, wake, begun);
    }
    if (!failed && gather(end_system, senders, count) != 0) failed = -1;
    if (!failed) failed = drain(end_system, networks, clock_micros() - begun, begun, wake);
    close(wake);
    return failed;
}

/* The text of a file. */
static size_t read_text(const char *path, uint8_t *text, size_t room) {
    FILE *file = fopen(path, "rb");
    if (file == NULL) return 0;
    size_t length = fread(text, 1, room, file);
    fclose(file);
    return length;
}

static int open_end_system(afdx_end_system *end_system, const char *path) {
    uint8_t *text = malloc(GREATEST_TEXT);
    if (text == NULL) return complain("out of memory\n");
    size_t length = read_text(path, text, GREATEST_TEXT);
    uint8_t fault = afdx_open(end_system, text, length);
    free(text);
    return fault == 0 ? 0 : complain("%s is refused: fault %d\n", path, fault);
}

/* Reads a sender from a word: PORT[:MESSAGES[:BYTES]]. */
static int read_sender(const char *word, struct sender *sender) {
    unsigned long messages = 1, bytes = 1;
    char rest;
    int fields = sscanf(word, "%u:%lu:%lu%c", &sender->id, &messages, &bytes, &rest);
    if (fields < 1 || fields > 3 || sender->id > UINT16_MAX || messages > UINT32_MAX || bytes > GREATEST_MESSAGE + 1)
        return complain("%s: PORT[:MESSAGES[:BYTES]] is wanted\n", word);
    sender->messages = (uint32_t)messages;
    sender->bytes = bytes;
    return 0;
}

/* Takes the ports that the words name. */
static int open_senders(afdx_end_system *end_system, char **words, size_t count, struct sender *senders) {
    if (count > MOST_PORTS) return complain("too many ports\n");
    for (size_t k = 0; k < count; k++) {
        if (read_sender(words[k], &senders[k]) != 0) return -1;
        uint8_t answer = afdx_port_of(end_system, (uint16_t)senders[k].id, &senders[k].port);
        if (answer != 0) return complain("port %u can't be had: %d\n", senders[k].id, answer);
    }
    return 0;
}

/* Opens a raw socket on an interface, or the lines of a dump if there is none. */
static int open_network(struct network *network, const char *interface) {
    if (interface == NULL) {
        network->lines = open_memstream(&network->text, &network->text_length);
        return network->lines == NULL ? complain("out of memory\n") : 0;
    }
    struct sockaddr_ll to = {.sll_family = AF_PACKET, .sll_ifindex = (int)if_nametoindex(interface)};
    network->socket = socket(AF_PACKET, SOCK_RAW, 0);
    if (network->socket < 0 || to.sll_ifindex == 0 || bind(network->socket, (struct sockaddr *)&to, sizeof to) != 0)
        return complain("%s: %s\n", interface, strerror(errno));
    return 0;
}

/* Prints what was sent to standard error, and the lines of a dump to standard output. */
static int tell(struct sender *senders, size_t count, struct network networks[2]) {
    int failed = 0;
    for (size_t k = 0; k < count; k++) {
        fprintf(stderr, "port %u: %" PRIu32 " accepted of %" PRIu32 "\n", senders[k].id, senders[k].sent, senders[k].messages);
        if (senders[k].refused != 0) failed = complain("port %u: message refused: %d\n", senders[k].id, senders[k].refused);
    }
    for (int n = 0; n < 2; n++) {
        fprintf(stderr, "network %s: %" PRIu64 " frames\n", networks[n].name, networks[n].frames);
        if (networks[n].lines == NULL) continue;
        if (fflush(networks[n].lines) != 0 || fwrite(networks[n].text, 1, networks[n].text_length, stdout) != networks[n].text_length)
            failed = complain("standard output can't be written\n");
    }
    return fflush(stdout) != 0 || failed ? -1 : 0;
}

static void let_go(afdx_end_system *end_system, struct sender *senders, size_t count, struct network networks[2]) {
    for (size_t k = 0; k < count; k++) afdx_free_port(&senders[k].port);
    afdx_free(end_system);
    for (int n = 0; n < 2; n++) {
        if (networks[n].lines != NULL) fclose(networks[n].lines);
        free(networks[n].text);
        if (networks[n].socket >= 0) close(networks[n].socket);
    }
}

int main(int argc, char **argv) {
    static struct sender senders[MOST_PORTS];
    struct network networks[2] = {{.which = AFDX_A, .name = "A", .socket = -1}, {.which = AFDX_B, .name = "B", .socket = -1}};
    afdx_end_system end_system = {0};
    int is_dump = argc > 1 && strcmp(argv[1], "--dump") == 0, first = is_dump ? 3 : 4;
    if (argc <= first) {
        complain("example CONFIG INTERFACE_A INTERFACE_B PORT[:MESSAGES[:BYTES]]..\n"
                 "example --dump CONFIG PORT[:MESSAGES[:BYTES]]..\n");
        return 2;
    }
    size_t count = (size_t)(argc - first);
    int failed = open_end_system(&end_system, argv[is_dump ? 2 : 1]) != 0
        || open_senders(&end_system, argv + first, count, senders) != 0
        || open_network(&networks[0], is_dump ? NULL : argv[2]) != 0
        || open_network(&networks[1], is_dump ? NULL : argv[3]) != 0
        || (is_dump ? dump : run)(&end_system, senders, count, networks) != 0;
    if (!failed) failed = tell(senders, count, networks) != 0;
    let_go(&end_system, senders, count > MOST_PORTS ? 0 : count, networks);
    return failed;
}
