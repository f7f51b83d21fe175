/* Tests what a frame of a poll carries (afdx_release), the lines of a script (afdx_script_line), and the version.

   tests/c/c_library.py builds and runs it. */
#include "afdx.h"

#include "checks.h"

/* Two links, the second of two sub-VLs and on A alone. */
static const char PLAN[] =
    "version = 2\n[end_system]\nid = 1\n"
    "[[vl]]\nid = 513\nbag_ms = 1\nlmax = 1518\nsub_vls = 1\ncapacity = 2\n"
    "[[vl]]\nid = 2\nbag_ms = 1\nlmax = 64\nsub_vls = 2\ncapacity = 9\nnetworks = \"a\"\n"
    "[[port]]\nid = 10\nvl = 513\nsub = 0\npartition = 1\nkind = \"queuing\"\nsource = 1000\ndestination = 2000\nmax = 8192\n"
    "[[port]]\nid = 21\nvl = 2\nsub = 1\npartition = 1\nkind = \"queuing\"\nsource = 1002\ndestination = 2001\nmax = 400\n";

/* Whether frame k of the last poll carries this: by the call, and by its bytes. */
static bool carries(const afdx_end_system *it, uint8_t network, size_t k, unsigned vl, unsigned sub, unsigned number) {
    afdx_end_system before = *it;
    afdx_released out = {7, 7, 7};
    uint8_t frame[AFDX_GREATEST_FRAME];
    size_t length = 0;
    bool is_told = afdx_release(it, network, k, &out) == AFDX_OK && out.vl == vl && out.sub == sub && out.number == number;
    bool is_read = afdx_frame(it, network, k, frame, sizeof frame, &length) == AFDX_OK;
    return is_told && is_read && frame[4] << 8 == (int)(vl & 0xff00) && frame[5] == (vl & 0xff) && frame[19] % 4 == (int)sub
        && frame[length - 1] == number && memcmp(&before, it, sizeof before) == 0;
}

/* Whether a call is refused with this number, and writes nothing. */
static bool releases_none(const afdx_end_system *it, uint8_t network, size_t k, uint8_t number) {
    afdx_released out = {7, 8, 9};
    return afdx_release(it, network, k, &out) == number && out.vl == 7 && out.sub == 8 && out.number == 9;
}

static void check_release(void) {
    static const uint8_t message[400] = {1};
    afdx_end_system it = {0};
    afdx_port ports[2] = {{0}};
    uint8_t standing = 0;
    CHECK(releases_none(&it, AFDX_A, 0, AFDX_NOT_HELD));
    CHECK(afdx_open(&it, (const uint8_t *)PLAN, sizeof PLAN - 1) == AFDX_OK);
    CHECK(afdx_port_of(&it, 10, &ports[0]) == AFDX_OK && afdx_port_of(&it, 21, &ports[1]) == AFDX_OK);
    CHECK(releases_none(&it, AFDX_A, 0, AFDX_NO_FRAME) && releases_none(&it, 2, 0, AFDX_NO_NETWORK));
    afdx_end_system wrong;
    memcpy(&wrong, &ports[0], sizeof wrong);
    CHECK(releases_none(&wrong, AFDX_A, 0, AFDX_WRONG_HANDLE));
    for (unsigned k = 0; k < 300; k++) {
        /* numbers are 0, and then 1 to 255 in turn */
        unsigned number = k == 0 ? 0 : (k - 1) % 255 + 1;
        CHECK(afdx_send(&ports[0], message, 1) == AFDX_OK && afdx_send(&ports[1], message, 9) == AFDX_OK);
        CHECK(afdx_poll(&it, 1000 * k, &standing) == AFDX_OK);
        CHECK(carries(&it, AFDX_A, 0, 513, 0, number) && carries(&it, AFDX_A, 1, 2, 1, number));
        CHECK(carries(&it, AFDX_B, 0, 513, 0, number) && releases_none(&it, AFDX_B, 1, AFDX_NO_FRAME));
        CHECK(releases_none(&it, AFDX_A, 2, AFDX_NO_FRAME) && releases_none(&it, AFDX_A, SIZE_MAX, AFDX_NO_FRAME));
    }
    /* the fragments of one message have numbers of their own, and one sub-VL */
    CHECK(afdx_send(&ports[1], message, 60) == AFDX_OK);
    for (unsigned k = 0; k < 3; k++)
        CHECK(afdx_poll(&it, 400000 + 1000 * k, &standing) == AFDX_OK && carries(&it, AFDX_A, 0, 2, 1, 299 % 255 + 1 + k));
    CHECK(afdx_poll(&it, 500000, &standing) == AFDX_OK && releases_none(&it, AFDX_A, 0, AFDX_NO_FRAME));
    for (int k = 0; k < 2; k++) CHECK(afdx_give_back(&it, &ports[k]) == AFDX_OK);
    CHECK(afdx_free(&it) == AFDX_OK && blocks == 0);
}

/* A million messages, each a gap after the one before: numbers go on with 1 after 255 and identifications with 0 after 65,535,
   twins differ in the network alone, and all are counted. */
static void check_long_run(void) {
    enum { MANY = 1000000 };
    afdx_end_system it = {0};
    afdx_port port = {0};
    afdx_counts counts = {0};
    uint8_t standing = 0, a[AFDX_GREATEST_FRAME], b[AFDX_GREATEST_FRAME];
    uint64_t accepted = 0;
    uint32_t k = 0;
    CHECK(afdx_open(&it, (const uint8_t *)PLAN, sizeof PLAN - 1) == AFDX_OK && afdx_port_of(&it, 10, &port) == AFDX_OK);
    for (bool is_well = true; is_well && k < MANY; k += is_well) {
        uint8_t message[4] = {(uint8_t)(k >> 24), (uint8_t)(k >> 16), (uint8_t)(k >> 8), (uint8_t)k};
        unsigned number = k == 0 ? 0 : (k - 1) % 255 + 1, ident = 4 * k % 65536;
        uint64_t now = 1000 * (uint64_t)k;
        size_t length = 0, count = 0, late = 7;
        is_well = afdx_send(&port, message, 4) == AFDX_OK && afdx_poll(&it, now, &standing) == AFDX_OK && standing == 3
            && afdx_frames(&it, AFDX_A, &count) == AFDX_OK && count == 1 && afdx_frames(&it, AFDX_B, &count) == AFDX_OK && count == 1
            && afdx_frame(&it, AFDX_A, 0, a, sizeof a, &length) == AFDX_OK && afdx_frame(&it, AFDX_B, 0, b, sizeof b, &length) == AFDX_OK
            && afdx_poll(&it, now + 999, &standing) == AFDX_OK && afdx_frames(&it, AFDX_A, &late) == AFDX_OK && late == 0;
        is_well = is_well && length == 60 && a[59] == number && a[18] << 8 == (int)(ident & 0xff00) && a[19] == (ident & 0xff)
            && memcmp(a + 42, message, 4) == 0 && a[11] == 0x20 && b[11] == 0x40;
        b[11] = 0x20;
        is_well = is_well && memcmp(a, b, 60) == 0;
    }
    CHECK(k == MANY && afdx_accepted(&port, &accepted) == AFDX_OK && accepted == MANY);
    CHECK(afdx_link_counts(&it, 513, &counts) == AFDX_OK && counts.frames == MANY && counts.bytes == 60 * MANY);
    CHECK(counts.messages == MANY && counts.last == 1000 * (uint64_t)(MANY - 1));
    CHECK(afdx_give_back(&it, &port) == AFDX_OK && afdx_free(&it) == AFDX_OK && blocks == 0);
}

/* What a line says, or the number with which it is refused; nothing else is written. */
static void says(const char *line, size_t length, uint8_t number, afdx_line wanted, const char *message) {
    uint8_t buffer[10000];
    size_t size = strlen(message);
    afdx_line out = {9, 9, 9, 9, 9}, before = out;
    memset(buffer, '?', sizeof buffer);
    CHECK(afdx_script_line((const uint8_t *)line, length, &out, buffer, sizeof buffer) == number && blocks == 0);
    if (number != AFDX_OK) wanted = before;
    CHECK(out.kind == wanted.kind && out.sub == wanted.sub && out.id == wanted.id && out.at == wanted.at && out.length == wanted.length);
    CHECK(memcmp(buffer, message, size) == 0 && buffer[size] == '?' && buffer[sizeof buffer - 1] == '?');
}

static void check_lines(void) {
    static const struct {
        const char *line;
        uint8_t number;
        afdx_line says;
        const char *message;
    } rows[] = {
        {"", AFDX_OK, {AFDX_SAYS_NOTHING, 0, 0, 0, 0}, ""},
        {" \t ", AFDX_OK, {AFDX_SAYS_NOTHING, 0, 0, 0, 0}, ""},
        {"# at 5", AFDX_OK, {AFDX_SAYS_NOTHING, 0, 0, 0, 0}, ""},
        {"send 20 4142", AFDX_OK, {AFDX_SAYS_SEND, 0, 20, 0, 2}, "AB"},
        {"\tsend\t065535  4a4B ", AFDX_OK, {AFDX_SAYS_SEND, 0, 65535, 0, 2}, "JK"},
        {"send 0 -", AFDX_OK, {AFDX_SAYS_SEND, 0, 0, 0, 0}, ""},
        {"at 0", AFDX_OK, {AFDX_SAYS_AT, 0, 0, 0, 0}, ""},
        {"at 18446744073709551615", AFDX_OK, {AFDX_SAYS_AT, 0, 0, UINT64_MAX, 0}, ""},
        {"close 65535 255", AFDX_OK, {AFDX_SAYS_CLOSE, 255, 65535, 0, 0}, ""},
        {"close 1 0", AFDX_OK, {AFDX_SAYS_CLOSE, 0, 1, 0, 0}, ""},
        {"sent 1 00", AFDX_LINE_WORD, {0, 0, 0, 0, 0}, ""},
        {"send 1", AFDX_LINE_WORD, {0, 0, 0, 0, 0}, ""},
        {"at", AFDX_LINE_WORD, {0, 0, 0, 0, 0}, ""},
        {"at -1", AFDX_LINE_NUMBER, {0, 0, 0, 0, 0}, ""},
        {"at 18446744073709551616", AFDX_LINE_NUMBER, {0, 0, 0, 0, 0}, ""},
        {"send 65536 0", AFDX_LINE_NUMBER, {0, 0, 0, 0, 0}, ""},
        {"close 1 256", AFDX_LINE_NUMBER, {0, 0, 0, 0, 0}, ""},
        {"send 1 0", AFDX_LINE_HEX, {0, 0, 0, 0, 0}, ""},
        {"send 1 0g", AFDX_LINE_HEX, {0, 0, 0, 0, 0}, ""},
        {"send 1 00 00", AFDX_LINE_EXTRA, {0, 0, 0, 0, 0}, ""},
        {"at 1 1", AFDX_LINE_EXTRA, {0, 0, 0, 0, 0}, ""},
        {"close 1 2 3", AFDX_LINE_EXTRA, {0, 0, 0, 0, 0}, ""},
        {"\xef\xbb\xbf" "at 1", AFDX_LINE_WORD, {0, 0, 0, 0, 0}, ""}, /* a byte order mark is no part of a line */
        {"at 1\r", AFDX_LINE_NUMBER, {0, 0, 0, 0, 0}, ""}, /* an end is no part of a line */
    };
    for (size_t k = 0; k < sizeof rows / sizeof *rows; k++)
        says(rows[k].line, strlen(rows[k].line), rows[k].number, rows[k].says, rows[k].message);
    CHECK(afdx_script_line(NULL, 0, &(afdx_line){0}, NULL, 0) == AFDX_OK);
}

/* Lines of the greatest length, buffers that are too small, and a refused allocation. */
static void check_sizes(void) {
    static char line[20002];
    static uint8_t buffer[10000];
    afdx_line out = {0};
    memset(line, '4', sizeof line);
    memcpy(line, "send 7 ", 7);
    line[19999] = ' ';
    CHECK(afdx_script_line((uint8_t *)line, 20000, &out, buffer, 9996) == AFDX_OK && out.length == 9996 && buffer[9995] == 'D');
    CHECK(afdx_script_line((uint8_t *)line, 20001, &out, buffer, sizeof buffer) == AFDX_LINE_LONG);
    memset(buffer, '?', sizeof buffer);
    out.length = 0;
    CHECK(afdx_script_line((uint8_t *)line, 20000, &out, buffer, 9995) == AFDX_SMALL_BUFFER && out.length == 9996 && out.id == 7);
    CHECK(memchr(buffer, '4', sizeof buffer) == NULL && memchr(buffer, 'D', sizeof buffer) == NULL && buffer[0] == '?');
    CHECK(afdx_script_line((const uint8_t *)"send 7 41", 9, &out, NULL, 0) == AFDX_SMALL_BUFFER && out.length == 1);
    out.length = 5;
    refused_in = 0;
    CHECK(afdx_script_line((const uint8_t *)"send 7 41", 9, &out, buffer, 10) == AFDX_MEMORY && out.length == 5 && buffer[0] == '?');
    refused_in = 0;
    CHECK(afdx_script_line((const uint8_t *)"at 7", 4, &out, buffer, 10) == AFDX_OK && out.at == 7);
    refused_in = -1;
    CHECK(blocks == 0);
}

int main(void) {
    check_release();
    check_long_run();
    check_lines();
    check_sizes();
    CHECK(afdx_version_number() == AFDX_VERSION_NUMBER && AFDX_VERSION_NUMBER == 20100);
    return end_of_checks();
}
