/* Compares the proved library with a transmitter written by hand (hand.c).

       bench [ROUNDS [OLD]]
       bench --row ROW

   Both send the same messages and make the same frames, which is checked first. Then each work is measured in turn, the
   library and the other, in ROUNDS rounds (11 by default), and one line is printed: the least nanoseconds of each, the
   ratio of these, and the least, median and greatest ratio of a round. In a round each has several turns, of SLICES slices
   each, and its least slice counts: on a processor that others use too, a tenth of a millisecond is more often undisturbed
   than a round. With threads the least may be of a lucky round of either: the median says more.
   The rows of lwIP compare the library's frames for two networks with lwIP's for one that only touches them. Below are the
   time of a call that only looks into its handle, and that of one poll of 64 virtual links that are all due, as a
   distribution. The exit status is 0 if the frames were equal.

   OLD is this driver over another library. Then the two libraries are compared, each row in a process of its own
   (--row prints the library's nanoseconds of a row), without lwIP. */
#define _GNU_SOURCE
#include "sides.h"

#include <limits.h>
#include <malloc.h>
#include <math.h>
#include <pthread.h>
#include <sched.h>
#include <stdlib.h>
#include <string.h>
#include <time.h>

enum { MOST_ROUNDS = 101, SLICES = 5 };

static double now_ns(void) {
    struct timespec at;
    clock_gettime(CLOCK_MONOTONIC, &at);
    return 1e9 * (double)at.tv_sec + (double)at.tv_nsec;
}

/* A work over a plan with messages of a length: `measured` does a slice of `units` units, and returns the nanoseconds of
   one. In a round each side has `turns` turns. */
struct work {
    const char *name;
    struct plan plan;
    size_t length;
    unsigned threads;
    double (*measured)(struct side *, const struct work *);
    unsigned units, turns;
};

/* How many frames a message takes on each network. */
static unsigned pieces_of(const struct work *work) {
    size_t room = work->plan.lmax - 39, left = work->length + 8;
    unsigned pieces = 1;
    for (; left > room; pieces++) left -= room & ~(size_t)7;
    return pieces;
}

/* Messages through one port each, polled for at once. */
static double send_and_poll(struct side *side, const struct work *work) {
    unsigned pieces = pieces_of(work), ports = work->plan.ports, links = work->plan.links;
    double begun = now_ns();
    for (unsigned k = 0, port = 0; k < work->units; k += links) {
        for (unsigned l = 0; l < links; l++, port = port + 1 < ports ? port + 1 : 0) send_bytes(side, port, message, work->length);
        for (unsigned p = 0; p < pieces; p++) poll_due(side);
    }
    return (now_ns() - begun) / work->units;
}

/* Sends until the queues are full, and then polls until they are empty: sends are timed, or frames. */
static double in_batches(struct side *side, const struct work *work, bool times_sends) {
    unsigned ports = work->plan.ports, batch = work->plan.capacity * work->plan.links, polls = work->plan.capacity * pieces_of(work);
    double sum = 0;
    for (unsigned k = 0; k < work->units; k += batch) {
        double begun = now_ns();
        for (unsigned j = 0; j < batch; j++) send_bytes(side, j % ports, message, work->length);
        double sent = now_ns();
        for (unsigned j = 0; j < polls; j++) poll_due(side);
        sum += times_sends ? sent - begun : now_ns() - sent;
    }
    return sum / ((work->units + batch - 1) / batch * batch);
}

static double sends(struct side *side, const struct work *work) {
    return in_batches(side, work, true);
}

static double frames_due(struct side *side, const struct work *work) {
    return in_batches(side, work, false);
}

/* One poll of links that each begin a message: its other pieces aren't timed. */
static double begun_due(struct side *side, const struct work *work) {
    unsigned links = work->plan.links, pieces = pieces_of(work);
    double sum = 0;
    for (unsigned k = 0; k < work->units; k++) {
        for (unsigned l = 0; l < links; l++) send_bytes(side, l, message, work->length);
        double begun = now_ns();
        poll_due(side);
        sum += now_ns() - begun;
        for (unsigned p = 1; p < pieces; p++) poll_due(side);
    }
    return sum / work->units;
}

static double none_due(struct side *side, const struct work *work) {
    for (unsigned l = 0; l < work->plan.links; l++) send_bytes(side, l, message, work->length);
    poll_due(side);
    double begun = now_ns();
    for (unsigned k = 0; k < work->units; k++) poll_at(side, side->now);
    return (now_ns() - begun) / work->units;
}

#ifdef WITH_LWIP
static double by_lwip(struct side *side, const struct work *work) {
    if (!side->hand) return send_and_poll(side, work);
    unsigned pieces = pieces_of(work);
    double begun = now_ns();
    for (unsigned k = 0; k < work->units; k++) want(lwip_send(message, work->length, work->plan.sums) == pieces, "other frames of lwIP");
    return (now_ns() - begun) / work->units;
}
#endif

/* Threads that send through a port each to one queue, while this one polls. */
struct sender {
    struct side *side;
    unsigned port, messages;
    pthread_t thread;
};

static void *send_all(void *argument) {
    struct sender *sender = argument;
    for (unsigned k = 0; k < sender->messages;) {
        if (send_bytes(sender->side, sender->port, message, 1) == 0) {
            k++;
        } else {
            sched_yield();
        }
    }
    return NULL;
}

static double in_threads(struct side *side, const struct work *work) {
    struct sender senders[16];
    unsigned each = work->units / work->threads;
    double begun = now_ns();
    for (unsigned k = 0; k < work->threads; k++) {
        senders[k] = (struct sender){side, k, each, 0};
        want(pthread_create(&senders[k].thread, NULL, send_all, &senders[k]) == 0, "no thread");
    }
    for (unsigned got = 0; got < each * work->threads;) {
        size_t count = 0;
        poll_due(side);
        if (side->hand) {
            count = hand_frames(side->hand, 0);
        } else {
            afdx_frames(&side->it, AFDX_A, &count);
        }
        if (count == 0) sched_yield();
        got += (unsigned)count;
    }
    for (unsigned k = 0; k < work->threads; k++) pthread_join(senders[k].thread, NULL);
    return (now_ns() - begun) / (each * work->threads);
}

static const struct work WORKS[] = {
    {"send and due poll, 1 byte", {1, 1518, 2, 1, GREATEST, false}, 1, 0, send_and_poll, 2048, 20},
    {"send and due poll, 100 bytes", {1, 1518, 2, 1, GREATEST, false}, 100, 0, send_and_poll, 2048, 20},
    {"send and due poll, 1,471 bytes", {1, 1518, 2, 1, GREATEST, false}, 1471, 0, send_and_poll, 1024, 20},
    {"send and 6 due polls, 8,192 bytes", {1, 1518, 2, 1, GREATEST, false}, 8192, 0, send_and_poll, 256, 16},
    {"send of 1 byte", {1, 1518, 256, 1, GREATEST, false}, 1, 0, sends, 2048, 20},
    {"send of 1 byte, checksum", {1, 1518, 256, 1, GREATEST, true}, 1, 0, sends, 2048, 20},
    {"send of 100 bytes, checksum", {1, 1518, 256, 1, GREATEST, true}, 100, 0, sends, 2048, 20},
    {"send of 1,471 bytes, checksum", {1, 1518, 256, 1, GREATEST, true}, 1471, 0, sends, 1024, 20},
    {"send of 8,192 bytes", {1, 1518, 16, 1, GREATEST, false}, 8192, 0, sends, 256, 16},
    {"send of 8,192 bytes, checksum", {1, 1518, 16, 1, GREATEST, true}, 8192, 0, sends, 256, 16},
    {"frame of 60 bytes, 64 links due", {64, 1518, 4, 64, GREATEST, false}, 1, 0, frames_due, 2048, 20},
    {"frame of 1,514 bytes, 64 links due", {64, 1518, 4, 64, GREATEST, false}, 1471, 0, frames_due, 1024, 10},
    {"poll of 64 links, none due", {64, 1518, 4, 64, GREATEST, false}, 1, 0, none_due, 2048, 20},
    {"none due, checksums", {64, 1518, 4, 64, GREATEST, true}, 1, 0, none_due, 2048, 20},
    {"64 links begin 8,192 bytes", {64, 1518, 2, 64, GREATEST, false}, 8192, 0, begun_due, 16, 16},
    {"64 links begin, checksums", {64, 1518, 2, 64, GREATEST, true}, 8192, 0, begun_due, 16, 16},
    {"message, 1 link, 1 port", {1, 1518, 4, 1, GREATEST, false}, 1, 0, send_and_poll, 2048, 20},
    {"message, 16 links, 64 ports", {16, 1518, 4, 64, GREATEST, false}, 1, 0, send_and_poll, 2048, 20},
    {"message, 64 links, 256 ports", {64, 1518, 4, 256, GREATEST, false}, 1, 0, send_and_poll, 2048, 20},
    {"message, 1 sender in a thread", {1, 1518, 256, 1, GREATEST, false}, 1, 1, in_threads, 102400, 1},
    {"message, 2 senders in threads", {1, 1518, 256, 2, GREATEST, false}, 1, 2, in_threads, 102400, 1},
    {"message, 4 senders in threads", {1, 1518, 256, 4, GREATEST, false}, 1, 4, in_threads, 102400, 1},
    {"message, 16 senders in threads", {1, 1518, 256, 16, GREATEST, false}, 1, 16, in_threads, 102400, 1},
#ifdef WITH_LWIP
    {"lwIP: 1 byte", {1, 1518, 2, 1, GREATEST, false}, 1, 0, by_lwip, 2048, 20},
    {"lwIP: 100 bytes", {1, 1518, 2, 1, GREATEST, false}, 100, 0, by_lwip, 2048, 20},
    {"lwIP: 1,471 bytes", {1, 1518, 2, 1, GREATEST, false}, 1471, 0, by_lwip, 1024, 20},
    {"lwIP: 8,192 bytes", {1, 1518, 2, 1, GREATEST, false}, 8192, 0, by_lwip, 256, 16},
    {"lwIP: 1 byte, checksum", {1, 1518, 2, 1, GREATEST, true}, 1, 0, by_lwip, 2048, 20},
    {"lwIP: 1,471 bytes, checksum", {1, 1518, 2, 1, GREATEST, true}, 1471, 0, by_lwip, 1024, 20},
    {"lwIP: 8,192 bytes, checksum", {1, 1518, 2, 1, GREATEST, true}, 8192, 0, by_lwip, 256, 16},
#endif
};

static double lesser(double a, double b) {
    return a < b ? a : b;
}

/* The nanoseconds of a unit in some turns of one side: the least of their slices. With threads a turn is one slice: the
   least of many would show the luckiest schedule. */
static double least_of(struct side *side, const struct work *work, unsigned turns) {
    unsigned slices = work->threads > 0 ? turns : turns * SLICES;
    double least = INFINITY;
    for (unsigned k = 0; k < slices; k++) least = lesser(least, work->measured(side, work));
    return least;
}

static int by_size(const void *a, const void *b) {
    double x = *(const double *)a, y = *(const double *)b;
    return (x > y) - (x < y);
}

/* The nanoseconds of a unit of a work by a driver over a library. */
static double time_by(const char *driver, const struct work *work) {
    char command[1024];
    snprintf(command, sizeof command, "'%s' --row %zu", driver, (size_t)(work - WORKS));
    return printed(popen(command, "r"));
}

/* What the rounds of a work took: nanoseconds of a unit of the library and of the other, and their ratios. */
struct row {
    double times[2][MOST_ROUNDS], ratios[MOST_ROUNDS];
};

/* A round of a work: the library and the other by turns, or two drivers. */
static void time_round(struct row *row, unsigned round, const struct work *work, const char *const drivers[2]) {
    static struct side sides[2];
    unsigned turns = drivers[1] ? 1 : work->turns;
    double least[2] = {INFINITY, INFINITY};
    open_both(sides, work->plan);
    for (unsigned k = 0; k < turns; k++) {
        for (int s = 0; s < 2; s++) {
            double time = drivers[1] ? time_by(drivers[s], work) : least_of(&sides[s], work, 1);
            least[s] = lesser(least[s], time);
        }
    }
    close_both(sides);
    for (int s = 0; s < 2; s++) row->times[s][round] = least[s];
    row->ratios[round] = least[0] / least[1];
}

/* Prints the line of a work. */
static void print_row(struct row *row, unsigned rounds, const struct work *work) {
    for (int s = 0; s < 2; s++) qsort(row->times[s], rounds, sizeof(double), by_size);
    qsort(row->ratios, rounds, sizeof(double), by_size);
    printf("| %-34s | %9.1f | %9.1f | %5.2f | %5.2f | %5.2f | %5.2f |\n", work->name, row->times[0][0], row->times[1][0],
        row->times[0][0] / row->times[1][0], row->ratios[0], row->ratios[rounds / 2], row->ratios[rounds - 1]);
}

/* Compares the library and the other at each work, or two drivers. The rounds of a work are spread over the whole run,
   since what else the processor does changes within seconds. */
static void compare_all(unsigned rounds, const char *const drivers[2]) {
    static struct row rows[sizeof WORKS / sizeof *WORKS];
    for (unsigned round = 0; round < rounds; round++)
        for (size_t k = 0; k < sizeof WORKS / sizeof *WORKS; k++) time_round(&rows[k], round, &WORKS[k], drivers);
    for (size_t k = 0; k < sizeof WORKS / sizeof *WORKS; k++) print_row(&rows[k], rounds, &WORKS[k]);
}

/* A call that does nothing but look into its handle: what each call of the C library costs before its own work. */
static void handle_alone(unsigned rounds) {
    enum { CALLS = 200000 };
    static struct side sides[2];
    double least = 0;
    open_both(sides, (struct plan){1, 1518, 2, 1, GREATEST, false});
    for (unsigned k = 0; k < rounds; k++) {
        uint64_t count = 0;
        double begun = now_ns();
        for (unsigned j = 0; j < CALLS; j++) want(afdx_accepted(&sides[0].ports[0], &count) == 0, "a port is refused");
        double time = (now_ns() - begun) / CALLS;
        if (k == 0 || time < least) least = time;
    }
    close_both(sides);
    printf("\nA call that only looks into its handle (afdx_accepted): %.1f ns, the least of %u.\n", least, rounds);
}

/* One poll of 64 links that are due, each with a frame of 1,514 bytes: half of the polls, 99 % and so on take at most. */
static void distribution(unsigned polls) {
    static struct side sides[2];
    double *times = malloc(polls * sizeof *times);
    want(times, "no memory");
    open_both(sides, (struct plan){64, 1518, 2, 64, GREATEST, false});
    for (int s = 0; s < 2; s++) {
        for (unsigned k = 0; k < polls; k++) {
            for (unsigned l = 0; l < 64; l++) send_bytes(&sides[s], l, message, 1471);
            double begun = now_ns();
            poll_due(&sides[s]);
            times[k] = (now_ns() - begun) / 1000;
        }
        qsort(times, polls, sizeof *times, by_size);
        printf("| %-34s | %7.1f | %7.1f | %7.1f | %7.1f |\n", s ? "by hand" : "the library", times[polls / 2], times[(unsigned)(polls * 0.99)],
            times[(unsigned)(polls * 0.9999)], times[polls - 1]);
    }
    close_both(sides);
    free(times);
}

int main(int count, char **words) {
    /* What is freed stays with the process. Otherwise a poll that frees the last messages of the heap may give their
       memory back to the system, and sends ask for it again: what that costs depends on what else lies behind them. */
    mallopt(M_TRIM_THRESHOLD, INT_MAX);
    make_message();
    if (count == 3 && strcmp(words[1], "--row") == 0) {
        static struct side sides[2];
        const struct work *work = &WORKS[strtoul(words[2], NULL, 10)];
        open_both(sides, work->plan);
        return printf("%f\n", least_of(&sides[0], work, work->turns)) < 0;
    }
    unsigned rounds = count > 1 ? (unsigned)strtoul(words[1], NULL, 10) : 11;
    const char *const drivers[2] = {words[0], count > 2 ? words[2] : NULL};
    want(rounds >= 1 && rounds <= MOST_ROUNDS, "1 to 101 rounds");
    check_frames();
    printf("| %-34s | %9s | %9s | %5s | %5s | %5s | %5s |\n", "nanoseconds", drivers[1] ? "new" : "library",
        drivers[1] ? "old" : "other", "ratio", "least", "half", "most");
    printf("|---|---|---|---|---|---|---|\n");
    compare_all(rounds, drivers);
    if (drivers[1]) return 0;
#ifndef WITH_LWIP
    printf("\nlwIP is left out: liblwip-dev isn't there.\n");
#endif
    handle_alone(rounds);
    printf("\n| %-34s | %7s | %7s | %7s | %7s |\n|---|---|---|---|---|\n", "microseconds of a poll, 64 links due", "half", "99 %", "99.99 %", "most");
    distribution(rounds < 11 ? 1000 : 1000000);
    return 0;
}
