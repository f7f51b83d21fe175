/* Tests calls of afdx.h with two end systems side by side, no bytes and lists: a port can be given back only to its own end
   system, NULL is legal for 0 bytes, all frames of a poll at once are those of the calls for one, the time until which a
   poller may sleep is one at which a link becomes due, what is const isn't written, and an explanation is cut to its buffer.

   tests/c/c_library.py builds and runs it. */
#include "afdx.h"

#include "checks.h"

#include <sys/mman.h>

static uint64_t accepted(const afdx_port *port) {
    uint64_t count = 77;
    CHECK(afdx_accepted(port, &count) == AFDX_OK);
    return count;
}

/* Two end systems of one text, each with all ports taken. Each takes back only its own. */
static void check_owners(void) {
    afdx_end_system one = {0}, two = {0};
    afdx_port ports[2] = {{0}}, others[2] = {{0}};
    uint8_t done = 7;
    open_plan(&one, plan(1, 2, 2, 1));
    open_plan(&two, plan(1, 2, 2, 1));
    CHECK(one.mark != two.mark);
    for (uint16_t k = 0; k < 2; k++) {
        CHECK(afdx_port_of(&one, k, &ports[k]) == AFDX_OK && ports[k].mark == one.mark);
        CHECK(afdx_port_of(&two, k, &others[k]) == AFDX_OK && others[k].mark == two.mark);
        CHECK(afdx_send(&ports[k], (const uint8_t *)"one", 3) == AFDX_OK && afdx_send(&others[k], (const uint8_t *)"two!", 4) == AFDX_OK);
    }
    for (int k = 0; k < 2; k++) {
        afdx_port before = others[k];
        CHECK(afdx_give_back(&one, &others[k]) == AFDX_NO_PORT && memcmp(&before, &others[k], sizeof before) == 0);
        CHECK(accepted(&others[k]) == 1 && afdx_send(&others[k], (const uint8_t *)"2", 1) == AFDX_OK);
        CHECK(afdx_gather(&one) == AFDX_PORT_MISSING);
        CHECK(afdx_give_back(&one, &ports[k]) == AFDX_OK && !ports[k].held);
        CHECK(afdx_give_back(&one, &ports[k]) == AFDX_NOT_HELD);
    }
    CHECK(afdx_gather(&one) == AFDX_OK && afdx_is_done(&one, &done) == AFDX_OK && done == 0);
    CHECK(afdx_give_back(&one, &others[0]) == AFDX_GATHERED && others[0].held);
    /* a port whose end system is freed belongs to no other, wherever that lies in memory */
    CHECK(afdx_free(&two) == AFDX_OK);
    for (int times = 0; times < 20; times++) {
        afdx_end_system three = {0};
        open_plan(&three, plan(1, 2, 2, 1));
        CHECK(three.mark != others[0].mark && afdx_give_back(&three, &others[0]) == AFDX_NO_PORT && others[0].held);
        CHECK(afdx_free(&three) == AFDX_OK);
    }
    for (int k = 0; k < 2; k++) CHECK(afdx_free_port(&others[k]) == AFDX_OK);
    CHECK(afdx_free(&one) == AFDX_OK && blocks == 0);
}

/* NULL with 0 bytes. */
static void check_null(void) {
    afdx_end_system it = {0};
    afdx_port port = {0};
    uint8_t standing = 7;
    size_t length = 7;
    CHECK(afdx_open(&it, NULL, 0) == AFDX_CONFIG_MISSING_KEY && !it.held);
    open_plan(&it, plan(1, 1, 2, 1));
    CHECK(afdx_port_of(&it, 0, &port) == AFDX_OK);
    CHECK(afdx_send(&port, NULL, 0) == AFDX_EMPTY && accepted(&port) == 0);
    CHECK(afdx_send(&port, (const uint8_t *)"x", 1) == AFDX_OK && afdx_poll(&it, 0, &standing) == AFDX_OK);
    CHECK(afdx_frame(&it, AFDX_A, 0, NULL, 0, &length) == AFDX_SMALL_BUFFER && length == 7);
    CHECK(afdx_frame(&it, AFDX_A, 1, NULL, 0, &length) == AFDX_NO_FRAME && length == 7);
    CHECK(afdx_free_port(&port) == AFDX_OK && afdx_free(&it) == AFDX_OK && blocks == 0);
}

/* The identifiers of ports and links, also in a list without room for all. */
static void check_lists(void) {
    afdx_end_system it = {0};
    afdx_port port = {0};
    uint16_t ids[AFDX_MOST_PORTS];
    size_t count = 7;
    CHECK(afdx_ports(&it, ids, 1, &count) == AFDX_NOT_HELD && afdx_links(&it, ids, 1, &count) == AFDX_NOT_HELD && count == 7);
    open_plan(&it, plan(3, 2, 1, 2));
    CHECK(afdx_port_of(&it, 11, &port) == AFDX_OK);
    afdx_end_system wrong = {.at = port.at, .held = port.held};
    CHECK(afdx_ports(&wrong, ids, 1, &count) == AFDX_WRONG_HANDLE && count == 7);
    CHECK(afdx_links(&wrong, ids, 1, &count) == AFDX_WRONG_HANDLE && count == 7);
    CHECK(afdx_ports(&it, NULL, 0, &count) == AFDX_SMALL_BUFFER && count == 12);
    CHECK(afdx_links(&it, NULL, 0, &count) == AFDX_SMALL_BUFFER && count == 3);
    memset(ids, 0x77, sizeof ids);
    CHECK(afdx_ports(&it, ids, 11, &count) == AFDX_SMALL_BUFFER && count == 12 && ids[0] == 0x7777);
    CHECK(afdx_links(&it, ids, 2, &count) == AFDX_SMALL_BUFFER && count == 3 && ids[0] == 0x7777);
    CHECK(afdx_ports(&it, ids, 12, &count) == AFDX_OK && count == 12);
    for (uint16_t k = 0; k < 12; k++) CHECK(ids[k] == k);
    CHECK(ids[12] == 0x7777);
    CHECK(afdx_links(&it, ids, AFDX_MOST_LINKS, &count) == AFDX_OK && count == 3);
    CHECK(ids[0] == 900 && ids[1] == 899 && ids[2] == 898 && ids[3] == 3);
    CHECK(afdx_free_port(&port) == AFDX_OK && afdx_free(&it) == AFDX_OK && blocks == 0);
}

/* All frames of a poll in one call are those of the calls for each. */
static void frames_are(const afdx_end_system *it, uint8_t network, size_t wanted) {
    static uint8_t all[AFDX_MOST_FRAMES * AFDX_GREATEST_FRAME], frame[AFDX_GREATEST_FRAME];
    size_t lengths[AFDX_MOST_FRAMES + 1], count = 7, length = 0, at = 0;
    memset(all, 0x5a, sizeof all);
    memset(lengths, 0, sizeof lengths);
    CHECK(afdx_all_frames(it, network, all, sizeof all, lengths, AFDX_MOST_FRAMES, &count) == AFDX_OK && count == wanted);
    for (size_t k = 0; k < wanted; k++) {
        CHECK(afdx_frame(it, network, k, frame, sizeof frame, &length) == AFDX_OK && lengths[k] == length);
        CHECK(memcmp(all + at, frame, length) == 0);
        at += length;
    }
    CHECK(lengths[wanted] == 0 && (at == sizeof all || all[at] == 0x5a));
    if (wanted == 0) return;
    /* one byte or one length too few: only the count is written */
    count = 7;
    memset(all, 0x5a, sizeof all);
    CHECK(afdx_all_frames(it, network, all, at - 1, lengths, wanted, &count) == AFDX_SMALL_BUFFER && count == wanted);
    CHECK(afdx_all_frames(it, network, all, at, lengths, wanted - 1, &count) == AFDX_SMALL_BUFFER && count == wanted);
    CHECK(afdx_all_frames(it, network, NULL, 0, NULL, 0, &count) == AFDX_SMALL_BUFFER && count == wanted && all[0] == 0x5a);
    CHECK(afdx_all_frames(it, network, all, at, lengths, wanted, &count) == AFDX_OK && count == wanted && all[0] != 0x5a);
}

static void check_all_frames(void) {
    afdx_end_system it = {0};
    afdx_port port = {0};
    uint8_t standing = 7, message[2000] = {0};
    size_t count = 7;
    CHECK(afdx_all_frames(&it, AFDX_A, NULL, 0, NULL, 0, &count) == AFDX_NOT_HELD && count == 7);
    open_plan(&it, plan(64, 1, 2, 1));
    CHECK(afdx_all_frames(&it, 2, NULL, 0, NULL, 0, &count) == AFDX_NO_NETWORK && count == 7);
    CHECK(afdx_all_frames(&it, AFDX_A, NULL, 0, NULL, 0, &count) == AFDX_OK && count == 0);
    for (uint16_t k = 0; k < 64; k++) {
        message[0] = (uint8_t)k;
        CHECK(afdx_port_of(&it, k, &port) == AFDX_OK);
        CHECK(afdx_send(&port, message, k < 32 ? 1 + (size_t)k : sizeof message) == AFDX_OK);
        CHECK(afdx_give_back(&it, &port) == AFDX_OK);
    }
    CHECK(afdx_poll(&it, 0, &standing) == AFDX_OK);
    frames_are(&it, AFDX_A, 64);
    frames_are(&it, AFDX_B, 64);
    CHECK(afdx_fail(&it, AFDX_B) == AFDX_OK && afdx_poll(&it, 1000, &standing) == AFDX_OK && standing == AFDX_A_STANDS);
    frames_are(&it, AFDX_A, 32);
    frames_are(&it, AFDX_B, 0);
    CHECK(afdx_free(&it) == AFDX_OK && blocks == 0);
}

/* When the next link becomes due: a gap after its last frame, for the links that sent and that a network carries. */
static void next_is(const afdx_end_system *it, uint64_t wanted) {
    uint64_t at = 7;
    CHECK(afdx_next_due(it, &at) == AFDX_OK && at == wanted);
}

static void poll_makes(afdx_end_system *it, uint64_t now, size_t wanted) {
    uint8_t standing = 7;
    size_t count = 7;
    CHECK(afdx_poll(it, now, &standing) == AFDX_OK && afdx_frames(it, AFDX_A, &count) == AFDX_OK && count == wanted);
}

static void check_next_due(void) {
    static const char text[] =
        "version = 2\n[end_system]\nid = 1\n"
        "[[vl]]\nid = 1\nbag_ms = 8\nlmax = 1518\nsub_vls = 1\ncapacity = 4\n"
        "[[vl]]\nid = 2\nbag_ms = 2\nlmax = 1518\nsub_vls = 1\ncapacity = 4\nnetworks = \"a\"\n"
        "[[port]]\nid = 1\nvl = 1\nsub = 0\npartition = 1\nkind = \"queuing\"\nsource = 1\ndestination = 2\nmax = 100\n"
        "[[port]]\nid = 2\nvl = 2\nsub = 0\npartition = 1\nkind = \"queuing\"\nsource = 2\ndestination = 2\nmax = 100\n";
    afdx_end_system it = {0};
    afdx_port ports[2] = {{0}};
    uint8_t standing = 7, done = 0;
    uint64_t at = 7;
    CHECK(afdx_next_due(&it, &at) == AFDX_NOT_HELD && at == 7);
    open_plan(&it, text);
    for (uint16_t k = 0; k < 2; k++) CHECK(afdx_port_of(&it, 1 + k, &ports[k]) == AFDX_OK);
    afdx_end_system wrong = {.at = ports[0].at, .held = ports[0].held};
    CHECK(afdx_next_due(&wrong, &at) == AFDX_WRONG_HANDLE && at == 7);
    /* links that have sent nothing are always due: a poller waits for a send */
    next_is(&it, AFDX_NEVER);
    poll_makes(&it, 100, 0);
    next_is(&it, AFDX_NEVER);
    for (int k = 0; k < 3; k++) CHECK(afdx_send(&ports[k / 2], (const uint8_t *)"x", 1) == AFDX_OK);
    next_is(&it, AFDX_NEVER);
    poll_makes(&it, 1000, 2);
    next_is(&it, 3000);
    poll_makes(&it, 2999, 0);
    next_is(&it, 3000);
    /* at that time the second link is due and has nothing to send: the first is next */
    poll_makes(&it, 3000, 0);
    next_is(&it, 9000);
    CHECK(afdx_send(&ports[1], (const uint8_t *)"x", 1) == AFDX_OK);
    poll_makes(&it, 5000, 1);
    next_is(&it, 7000);
    for (int k = 0; k < 2; k++) CHECK(afdx_give_back(&it, &ports[k]) == AFDX_OK);
    CHECK(afdx_gather(&it) == AFDX_OK);
    next_is(&it, 7000);
    poll_makes(&it, 9000, 1);
    next_is(&it, 17000);
    CHECK(afdx_is_done(&it, &done) == AFDX_OK && done == 1 && afdx_free(&it) == AFDX_OK);
    /* a link whose network is down never becomes due again */
    open_plan(&it, text);
    for (uint16_t k = 0; k < 2; k++) {
        CHECK(afdx_port_of(&it, 1 + k, &ports[k]) == AFDX_OK && afdx_send(&ports[k], (const uint8_t *)"x", 1) == AFDX_OK);
    }
    CHECK(afdx_send(&ports[1], (const uint8_t *)"x", 1) == AFDX_OK);
    for (int k = 0; k < 2; k++) CHECK(afdx_free_port(&ports[k]) == AFDX_OK);
    poll_makes(&it, 0, 2);
    CHECK(afdx_fail(&it, AFDX_A) == AFDX_OK);
    next_is(&it, 2000);
    poll_makes(&it, 2000, 0);
    next_is(&it, 8000);
    CHECK(afdx_poll(&it, UINT64_MAX - 1, &standing) == AFDX_OK);
    next_is(&it, AFDX_NEVER);
    CHECK(afdx_free(&it) == AFDX_OK && blocks == 0);
}

/* The calls that take a handle by a pointer to const write nothing to it: here it lies where nothing can be written. */
static void check_const(void) {
    static const afdx_end_system none;
    struct {
        afdx_end_system it;
        afdx_port port;
    } *held = mmap(NULL, sizeof *held, PROT_READ | PROT_WRITE, MAP_PRIVATE | MAP_ANONYMOUS, -1, 0);
    uint8_t done = 7, frame[AFDX_GREATEST_FRAME];
    uint16_t id = 7;
    size_t count = 7, length = 0;
    uint64_t many = 7;
    afdx_counts counts;
    CHECK(held != MAP_FAILED && afdx_ports(&none, &id, 1, &count) == AFDX_NOT_HELD);
    if (held == MAP_FAILED) return;
    open_plan(&held->it, plan(1, 1, 2, 1));
    CHECK(afdx_port_of(&held->it, 0, &held->port) == AFDX_OK && afdx_send(&held->port, (const uint8_t *)"x", 1) == AFDX_OK);
    poll_makes(&held->it, 0, 1);
    CHECK(mprotect(held, sizeof *held, PROT_READ) == 0);
    CHECK(afdx_ports(&held->it, &id, 1, &count) == AFDX_OK && id == 0 && afdx_links(&held->it, &id, 1, &count) == AFDX_OK);
    CHECK(id == 900 && afdx_link_counts(&held->it, id, &counts) == AFDX_OK && counts.frames == 1);
    CHECK(afdx_accepted(&held->port, &many) == AFDX_OK && many == 1);
    CHECK(afdx_frame(&held->it, AFDX_A, 0, frame, sizeof frame, &length) == AFDX_OK && length == 60);
    frames_are(&held->it, AFDX_B, 1);
    next_is(&held->it, 1000);
    CHECK(afdx_is_done(&held->it, &done) == AFDX_NOT_GATHERED && done == 7);
    CHECK(mprotect(held, sizeof *held, PROT_READ | PROT_WRITE) == 0);
    CHECK(afdx_free_port(&held->port) == AFDX_OK && afdx_free(&held->it) == AFDX_OK && blocks == 0);
    CHECK(munmap(held, sizeof *held) == 0);
}

/* Checks the explanation of a text, in buffers of any size. */
static void explains(const char *text, const char *told) {
    size_t all = strlen(told), length = 0;
    uint8_t buffer[1000];
    for (size_t size = 0; size <= all + 1; size++) {
        memset(buffer, '?', sizeof buffer);
        uint8_t answer = afdx_explain((const uint8_t *)text, strlen(text), size == 0 ? NULL : buffer, size, &length);
        CHECK(answer == (size < all ? AFDX_SMALL_BUFFER : AFDX_OK) && length == all);
        CHECK(memcmp(buffer, told, size < all ? size : all) == 0 && buffer[size < all ? size : all] == '?');
    }
}

static void check_explain(void) {
    explains(plan(1, 1, 2, 1), "no faults\n");
    explains("", "3 faults\n2 MissingKey: end_system is missing: a table\n2 MissingKey: vl is missing: an array of tables\n"
                 "2 MissingKey: port is missing: an array of tables\n");
    explains("a = ", "1 fault\n1 Toml: line 1, column 5: invalid value, expected a string, number, boolean, date-time, array "
                     "or inline table\n");
}

int main(void) {
    check_owners();
    check_null();
    check_lists();
    check_all_frames();
    check_next_due();
    check_const();
    check_explain();
    return end_of_checks();
}
