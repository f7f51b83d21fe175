/* The calls of the C library: what each returns, what it writes, and what is there afterwards. What Python, C++ and the
   example show of the same calls isn't here: each number (test_python.py), threads that send and 64 frames of one poll.

   tests/c/c_library.py builds and runs it. */
#include "afdx.h"

#include "checks.h"

/* Two links, the second of two sub-VLs and on A alone, and three ports. */
static const char PLAN[] =
    "version = 2\n[end_system]\nid = 1\n"
    "[[vl]]\nid = 1\nbag_ms = 1\nlmax = 1518\nsub_vls = 1\ncapacity = 2\n"
    "[[vl]]\nid = 2\nbag_ms = 2\nlmax = 64\nsub_vls = 2\ncapacity = 3\nnetworks = \"a\"\n"
    "[[port]]\nid = 10\nvl = 1\nsub = 0\npartition = 1\nkind = \"queuing\"\nsource = 1000\ndestination = 2000\nmax = 8192\n"
    "[[port]]\nid = 20\nvl = 2\nsub = 0\npartition = 1\nkind = \"queuing\"\nsource = 1001\ndestination = 2001\nmax = 40\n"
    "[[port]]\nid = 21\nvl = 2\nsub = 1\npartition = 1\nkind = \"queuing\"\nsource = 1002\ndestination = 2001\nmax = 40\n";

static uint8_t open_text(afdx_end_system *it, const char *text) {
    return afdx_open(it, (const uint8_t *)text, strlen(text));
}

static uint8_t send_bytes(afdx_port *port, size_t length) {
    static const uint8_t message[9000] = {1, 2, 3};
    return afdx_send(port, message, length);
}

/* An end system of the plan above with its three ports: one for all checks that begin with `open_all`, and another. */
struct opened {
    afdx_end_system it;
    afdx_port ports[3];
};

static struct opened all, other;

static void open_all(struct opened *these) {
    static const uint16_t ids[] = {10, 20, 21};
    CHECK(open_text(&these->it, PLAN) == 0);
    for (int k = 0; k < 3; k++) CHECK(afdx_port_of(&these->it, ids[k], &these->ports[k]) == 0);
}

static void let_go(struct opened *these) {
    for (int k = 0; k < 3; k++) {
        if (these->ports[k].held) CHECK(afdx_free_port(&these->ports[k]) == 0);
    }
    if (these->it.held) CHECK(afdx_free(&these->it) == 0);
}

static uint64_t accepted(const afdx_port *port) {
    uint64_t count = 77;
    CHECK(afdx_accepted(port, &count) == 0);
    return count;
}

static size_t frames(const afdx_end_system *it, uint8_t network) {
    size_t count = 77;
    CHECK(afdx_frames(it, network, &count) == 0);
    return count;
}

/* A poll: which networks are up. */
static uint8_t poll(afdx_end_system *it, uint64_t now) {
    uint8_t standing = 77;
    CHECK(afdx_poll(it, now, &standing) == AFDX_OK);
    return standing;
}

/* A poll with both networks up, and how many frames it made for each. */
static void polls(uint64_t now, size_t a, size_t b) {
    CHECK(poll(&all.it, now) == 3 && frames(&all.it, AFDX_A) == a && frames(&all.it, AFDX_B) == b);
}

static void closes(uint16_t vl, uint8_t sub, uint8_t answer, uint64_t wanted) {
    uint64_t total = 7;
    CHECK(afdx_close(&all.it, vl, sub, &total) == answer && total == wanted);
}

static void counts_are(uint16_t vl, afdx_counts wanted) {
    afdx_counts counts = {7, 7, 7, 7};
    CHECK(afdx_link_counts(&all.it, vl, &counts) == 0 && memcmp(&counts, &wanted, sizeof counts) == 0);
}

/* A configuration that is refused leaves the handle as it is, whether it is open or not. */
static void check_open(void) {
    afdx_end_system it = {0};
    CHECK(open_text(&it, "[") == AFDX_CONFIG_TOML && !it.held);
    CHECK(open_text(&it, "\xff") == AFDX_CONFIG_TOML && !it.held);
    CHECK(open_text(&it, PLAN) == 0 && it.held);
    afdx_end_system before = it;
    CHECK(open_text(&it, PLAN) == AFDX_HELD && open_text(&it, "[") == AFDX_HELD);
    CHECK(before.at == it.at && before.held == it.held);
    CHECK(poll(&it, 0) == (AFDX_A_STANDS | AFDX_B_STANDS));
    CHECK(afdx_free(&it) == 0 && !it.held);
}

/* An explanation has a line for each of 1,000 faults, and then the number of the others. */
static void check_explain(void) {
    enum { KEYS = 1002, ROOM = 80 * KEYS };
    static char text[ROOM], wanted[ROOM];
    static uint8_t told[ROOM];
    size_t length = 0;
    char *from = text, *to = wanted + sprintf(wanted, "%d faults\n", KEYS);
    for (int k = 0; k < KEYS; k++) {
        from += sprintf(from, "k%04d = 1\n", k);
        if (k < 1000) to += sprintf(to, "3 UnknownKey: k%04d is 1: the keys are version end_system vl port\n", k);
    }
    memcpy(from, PLAN, sizeof PLAN);
    to += sprintf(to, "and %d more\n", KEYS - 1000);
    CHECK(afdx_explain((const uint8_t *)text, strlen(text), told, sizeof told, &length) == AFDX_OK);
    CHECK(length == (size_t)(to - wanted) && memcmp(told, wanted, length) == 0);
}

/* A call on an end system, by its number below, with outputs that have to stay as they are. */
enum { CALLS = 11 };

static uint8_t call(int number, afdx_end_system *it, afdx_port *given) {
    static const afdx_counts same = {7, 7, 7, 7};
    uint8_t byte = 7, buffer[2000] = {7}, answer = 0;
    size_t count = 7;
    uint64_t total = 7;
    afdx_counts counts = same;
    afdx_port port = {0};
    switch (number) {
        case 0: answer = afdx_port_of(it, 10, &port); break;
        case 1: answer = afdx_poll(it, 5, &byte); break;
        case 2: answer = afdx_frames(it, AFDX_A, &count); break;
        case 3: answer = afdx_frame(it, AFDX_A, 0, buffer, sizeof buffer, &count); break;
        case 4: answer = afdx_fail(it, AFDX_A); break;
        case 5: answer = afdx_close(it, 1, 0, &total); break;
        case 6: answer = afdx_link_counts(it, 1, &counts); break;
        case 7: answer = afdx_give_back(it, given); break;
        case 8: answer = afdx_gather(it); break;
        case 9: answer = afdx_is_done(it, &byte); break;
        default: answer = afdx_free(it); break;
    }
    CHECK(byte == 7 && buffer[0] == 7 && count == 7 && total == 7 && !port.held);
    CHECK(memcmp(&counts, &same, sizeof same) == 0);
    return answer;
}

/* The calls on a port refuse one with this number. */
static void port_is(afdx_port *port, uint8_t number) {
    uint64_t count = 7;
    CHECK(send_bytes(port, 1) == number);
    CHECK(afdx_accepted(port, &count) == number && count == 7);
    CHECK(afdx_free_port(port) == number);
}

/* A handle that holds nothing, and one that holds the other thing. */
static void check_handles(void) {
    afdx_port none = {0}, wrong = {.at = all.it.at, .held = all.it.held};
    for (int number = 0; number < CALLS; number++) {
        afdx_end_system empty = {0}, port = {.at = all.ports[1].at, .held = all.ports[1].held};
        CHECK(call(number, &empty, &all.ports[0]) == AFDX_NOT_HELD);
        CHECK(call(number, &port, &all.ports[0]) == AFDX_WRONG_HANDLE);
        CHECK(port.at == all.ports[1].at && port.held == all.ports[1].held);
    }
    port_is(&none, AFDX_NOT_HELD);
    port_is(&wrong, AFDX_WRONG_HANDLE);
    CHECK(afdx_give_back(&all.it, &none) == AFDX_NOT_HELD);
    CHECK(send_bytes(&all.ports[1], 1) == 0 && accepted(&all.ports[1]) == 1);
    let_go(&all);
    for (int number = 0; number < CALLS; number++) CHECK(call(number, &all.it, &all.ports[0]) == AFDX_NOT_HELD);
    port_is(&all.ports[0], AFDX_NOT_HELD);
}

static void check_ports(void) {
    afdx_port more = {0}, before = all.ports[0];
    CHECK(afdx_port_of(&all.it, 10, &more) == AFDX_NO_PORT && afdx_port_of(&all.it, 11, &more) == AFDX_NO_PORT && !more.held);
    CHECK(afdx_port_of(&all.it, 20, &all.ports[0]) == AFDX_HELD);
    CHECK(all.ports[0].at == before.at && all.ports[0].held == before.held);
    CHECK(afdx_give_back(&all.it, &all.ports[0]) == 0 && !all.ports[0].held);
    CHECK(afdx_give_back(&all.it, &all.ports[0]) == AFDX_NOT_HELD);
    CHECK(afdx_port_of(&all.it, 10, &more) == 0 && more.held);
    CHECK(send_bytes(&more, 8192) == 0 && afdx_give_back(&all.it, &more) == 0);
    CHECK(afdx_port_of(&all.it, 10, &all.ports[0]) == 0 && accepted(&all.ports[0]) == 1);
    /* a port of another end system, once all of this one's are back (tests/c/owners.c has more) */
    open_all(&other);
    for (int k = 0; k < 3; k++) CHECK(afdx_give_back(&all.it, &all.ports[k]) == 0);
    CHECK(afdx_give_back(&all.it, &other.ports[0]) == AFDX_NO_PORT);
    CHECK(send_bytes(&other.ports[0], 1) == 0 && poll(&other.it, 0) == 3 && frames(&other.it, AFDX_A) == 1);
    CHECK(afdx_gather(&all.it) == 0);
    let_go(&other);
}

/* Messages that are refused, and closed sub-VLs. */
static void check_send(void) {
    CHECK(send_bytes(&all.ports[0], 0) == AFDX_EMPTY);
    CHECK(send_bytes(&all.ports[0], 8193) == AFDX_TOO_LONG && send_bytes(&all.ports[1], 41) == AFDX_TOO_LONG);
    CHECK(send_bytes(&all.ports[0], 1) == 0 && send_bytes(&all.ports[0], 8192) == 0);
    CHECK(send_bytes(&all.ports[0], 1) == AFDX_FULL && accepted(&all.ports[0]) == 2);
    closes(9, 0, AFDX_NO_SUB, 7);
    closes(1, 1, AFDX_NO_SUB, 7);
    closes(2, 2, AFDX_NO_SUB, 7);
    closes(1, 0, 0, 2);
    CHECK(send_bytes(&all.ports[0], 1) == AFDX_CLOSED);
    closes(1, 0, 0, 2);
    CHECK(send_bytes(&all.ports[1], 1) == 0);
    closes(2, 1, 0, 0);
    CHECK(send_bytes(&all.ports[2], 1) == AFDX_CLOSED && send_bytes(&all.ports[1], 40) == 0);
    closes(2, 0, 0, 2);
    polls(0, 2, 1);
}

/* Polls, at the time of the last one and at the last time of all. */
static void check_poll(void) {
    uint8_t standing = 7;
    CHECK(frames(&all.it, AFDX_A) == 0 && frames(&all.it, AFDX_B) == 0);
    polls(0, 0, 0);
    CHECK(send_bytes(&all.ports[0], 1) == 0 && send_bytes(&all.ports[0], 2) == 0);
    polls(5, 1, 1);
    CHECK(afdx_poll(&all.it, 4, &standing) == AFDX_TIME_BACK && standing == 7);
    CHECK(frames(&all.it, AFDX_A) == 1 && frames(&all.it, AFDX_B) == 1);
    polls(5, 0, 0);
    polls(1004, 0, 0);
    polls(1005, 1, 1);
    CHECK(send_bytes(&all.ports[0], 3) == 0);
    polls(UINT64_MAX, 1, 1);
    CHECK(afdx_poll(&all.it, 0, &standing) == AFDX_TIME_BACK);
}

/* What the last poll made, byte by byte: the demonstration message of the first port. */
static void check_frame(void) {
    static const uint8_t wanted[60] = {
        0x03, 0, 0, 0, 0, 1, 0x02, 0, 0, 0, 1, 0x20, 0x08, 0, 0x45, 0, 0, 0x1d, 0, 0, 0, 0, 1, 0x11, 0xcd, 0xee, 0x0a, 0, 1, 1, 0xe0, 0xe0, 0, 1,
        0x03, 0xe8, 0x07, 0xd0, 0, 9, 0, 0, 1,
    };
    uint8_t a[1514], b[1514], last = 0x5a;
    size_t length = 7, count = 7;
    memset(a, last, sizeof a);
    memset(b, last, sizeof b);
    CHECK(send_bytes(&all.ports[0], 1) == 0);
    polls(0, 1, 1);
    CHECK(afdx_frame(&all.it, 2, 0, a, sizeof a, &length) == AFDX_NO_NETWORK);
    CHECK(afdx_frame(&all.it, AFDX_A, 1, a, sizeof a, &length) == AFDX_NO_FRAME);
    CHECK(afdx_frame(&all.it, AFDX_A, SIZE_MAX, a, sizeof a, &length) == AFDX_NO_FRAME);
    CHECK(afdx_frame(&all.it, AFDX_A, 0, a, 59, &length) == AFDX_SMALL_BUFFER);
    CHECK(length == 7 && a[0] == last && a[58] == last);
    CHECK(afdx_frame(&all.it, AFDX_A, 0, a, 60, &length) == 0 && length == 60 && a[60] == last);
    length = 7;
    CHECK(afdx_frame(&all.it, AFDX_B, 0, b, sizeof b, &length) == 0 && length == 60 && b[60] == last);
    CHECK(memcmp(a, wanted, 60) == 0 && b[11] == 0x40);
    b[11] = 0x20;
    CHECK(memcmp(a, b, 60) == 0);
    CHECK(afdx_frames(&all.it, 2, &count) == AFDX_NO_NETWORK && count == 7);
    CHECK(afdx_fail(&all.it, 2) == AFDX_NO_NETWORK);
}

/* Networks that fail, A first. */
static void check_failing(void) {
    uint8_t standing = 7;
    CHECK(afdx_fail(&all.it, AFDX_A) == 0);
    polls(0, 0, 0);
    CHECK(send_bytes(&all.ports[0], 1) == 0 && send_bytes(&all.ports[1], 1) == 0);
    CHECK(poll(&all.it, 1) == AFDX_B_STANDS && frames(&all.it, AFDX_A) == 0 && frames(&all.it, AFDX_B) == 1);
    /* the second link is on A alone, which is down */
    CHECK(poll(&all.it, 100000) == AFDX_B_STANDS && frames(&all.it, AFDX_A) == 0 && frames(&all.it, AFDX_B) == 0);
    CHECK(afdx_fail(&all.it, AFDX_B) == 0 && send_bytes(&all.ports[0], 1) == 0);
    CHECK(poll(&all.it, 200000) == 0 && frames(&all.it, AFDX_B) == 0);
    CHECK(afdx_poll(&all.it, 300000, &standing) == AFDX_BOTH_DOWN && standing == 0);
    CHECK(afdx_poll(&all.it, 199999, &standing) == AFDX_TIME_BACK);
    for (int k = 0; k < 3; k++) CHECK(afdx_give_back(&all.it, &all.ports[k]) == 0);
    CHECK(afdx_gather(&all.it) == 0);
    CHECK(afdx_is_done(&all.it, &standing) == 0 && standing == 0);
    CHECK(afdx_poll(&all.it, 300000, &standing) == AFDX_BOTH_DOWN);
}

/* B fails alone: A goes on, and so do links on A. */
static void check_failing_b(void) {
    CHECK(send_bytes(&all.ports[0], 2000) == 0 && send_bytes(&all.ports[1], 1) == 0);
    CHECK(afdx_fail(&all.it, AFDX_B) == 0);
    CHECK(poll(&all.it, 0) == AFDX_A_STANDS && frames(&all.it, AFDX_A) == 2 && frames(&all.it, AFDX_B) == 0);
    CHECK(send_bytes(&all.ports[2], 1) == 0);
    CHECK(poll(&all.it, 2000) == AFDX_A_STANDS && frames(&all.it, AFDX_A) == 2 && frames(&all.it, AFDX_B) == 0);
    counts_are(1, (afdx_counts){2, 2078, 1, 2000});
}

static void check_counts(void) {
    afdx_counts counts = {.frames = 7};
    counts_are(1, (afdx_counts){0});
    CHECK(afdx_link_counts(&all.it, 3, &counts) == AFDX_NO_LINK && counts.frames == 7);
    CHECK(send_bytes(&all.ports[0], 2000) == 0 && send_bytes(&all.ports[2], 1) == 0);
    polls(10, 2, 1);
    counts_are(1, (afdx_counts){1, 1507, 0, 10});
    polls(1010, 1, 1);
    counts_are(1, (afdx_counts){2, 2078, 1, 1010});
    counts_are(2, (afdx_counts){1, 60, 1, 10});
}

/* Gathering, what is refused from then on, and draining. */
static void check_gather(void) {
    uint8_t done = 7;
    CHECK(send_bytes(&all.ports[0], 3000) == 0 && send_bytes(&all.ports[1], 40) == 0 && send_bytes(&all.ports[2], 40) == 0);
    CHECK(afdx_is_done(&all.it, &done) == AFDX_NOT_GATHERED && done == 7);
    CHECK(afdx_give_back(&all.it, &all.ports[1]) == 0 && afdx_give_back(&all.it, &all.ports[0]) == 0);
    CHECK(afdx_gather(&all.it) == AFDX_PORT_MISSING);
    CHECK(afdx_give_back(&all.it, &all.ports[2]) == 0);
    CHECK(afdx_gather(&all.it) == 0 && afdx_gather(&all.it) == AFDX_GATHERED);
    CHECK(afdx_port_of(&all.it, 10, &all.ports[0]) == AFDX_GATHERED && !all.ports[0].held);
    closes(1, 0, AFDX_GATHERED, 7);
    CHECK(frames(&all.it, AFDX_A) == 0);
    CHECK(afdx_is_done(&all.it, &done) == 0 && done == 0);
    size_t a = 0, b = 0;
    uint64_t times = 0;
    for (; done == 0 && times < 100; times++) {
        CHECK(poll(&all.it, 1000 * times) == 3);
        a += frames(&all.it, AFDX_A);
        b += frames(&all.it, AFDX_B);
        CHECK(afdx_is_done(&all.it, &done) == 0);
    }
    /* three fragments of 3,000 bytes, and 40 bytes twice, two fragments each, of which one goes each other poll, on A */
    CHECK(a == 7 && b == 3 && times == 7);
    counts_are(2, (afdx_counts){4, 240, 2, 6000});
    open_all(&other);
    CHECK(afdx_give_back(&all.it, &other.ports[0]) == AFDX_GATHERED && other.ports[0].held);
    let_go(&other);
}

/* A port whose end system is freed accepts up to the room that is left. */
static void check_orphans(void) {
    CHECK(afdx_free(&all.it) == 0);
    CHECK(send_bytes(&all.ports[0], 1) == 0 && send_bytes(&all.ports[0], 1) == 0);
    CHECK(send_bytes(&all.ports[0], 1) == AFDX_FULL);
    let_go(&all);
    /* an end system without one of its ports can't be gathered */
    open_all(&all);
    CHECK(afdx_free_port(&all.ports[1]) == 0);
    CHECK(afdx_give_back(&all.it, &all.ports[0]) == 0 && afdx_give_back(&all.it, &all.ports[2]) == 0);
    CHECK(afdx_gather(&all.it) == AFDX_PORT_MISSING);
    polls(0, 0, 0);
}

/* Each request for memory of opening refused in turn. No other call requests any. All is given back. */
static void check_memory(void) {
    size_t before = blocks;
    long refusals;
    uint8_t answer;
    for (refusals = 0;; refusals++) {
        refused_in = refusals;
        answer = open_text(&all.it, PLAN);
        refused_in = -1;
        if (answer == 0) break;
        CHECK(answer == AFDX_MEMORY && !all.it.held && blocks == before);
    }
    CHECK(refusals > 10);
    size_t asked = requests;
    refused_in = 0;
    CHECK(afdx_port_of(&all.it, 10, &all.ports[0]) == 0);
    CHECK(send_bytes(&all.ports[0], 0) == AFDX_EMPTY && send_bytes(&all.ports[0], 8193) == AFDX_TOO_LONG);
    CHECK(send_bytes(&all.ports[0], 100) == 0 && accepted(&all.ports[0]) == 1);
    uint8_t frame[1514], done = 0;
    size_t length = 0;
    polls(0, 1, 1);
    CHECK(afdx_frame(&all.it, AFDX_A, 0, frame, sizeof frame, &length) == 0);
    closes(1, 0, 0, 1);
    CHECK(afdx_give_back(&all.it, &all.ports[0]) == 0 && afdx_gather(&all.it) == 0);
    CHECK(poll(&all.it, 1000) == 3 && afdx_is_done(&all.it, &done) == 0 && done == 1);
    CHECK(requests == asked);
    refused_in = -1;
    CHECK(afdx_free(&all.it) == 0 && blocks == before);
}

int main(void) {
    static void (*const opened[])(void) = {
        check_handles, check_ports, check_send, check_poll, check_frame, check_failing, check_failing_b, check_counts, check_gather,
        check_orphans,
    };
    for (size_t k = 0; k < sizeof opened / sizeof *opened; k++) {
        open_all(&all);
        opened[k]();
        let_go(&all);
    }
    check_open();
    check_explain();
    check_memory();
    return end_of_checks();
}
