/* Tests the calls that judge recordings: findings, small arrays, refusals, damaged captures and allocations that fail. With
   words it prints what it finds:

       judging PLAN JITTER SKEW LATE FCS ARINC CAPTURE [CAPTURE_B]

   tests/c/c_library.py builds and runs it. */
#include "afdx_judge.h"

#include "checks.h"

static const char PLAN[] =
    "[end_system]\nid = 1\n[[vl]]\nid = 1\nbag_ms = 1\nlmax = 1518\nsub_vls = 1\ncapacity = 9\n"
    "[[port]]\nid = 10\nvl = 1\nsub = 0\npartition = 1\nkind = \"queuing\"\nsource = 1000\ndestination = 2000\nmax = 8192\n";
static const afdx_judge_options PLAIN = {.skew = 10000};
enum { HEADER = 24, RECORD = 16 + 60 };

/* A capture of one network, in the pcap format. */
typedef struct {
    uint8_t bytes[4096];
    size_t length;
} capture;

static void put(capture *to, const void *from, size_t length) {
    memcpy(to->bytes + to->length, from, length);
    to->length += length;
}

/* Records what an end system sends on each network: `count` frames of 60 bytes, one a millisecond. */
static void record(capture *a, capture *b, uint32_t count) {
    static const uint32_t header[] = {0xa1b2c3d4, 0x00040002, 0, 0, 65535, 1};
    afdx_end_system it = {0};
    afdx_port port = {0};
    uint8_t standing = 0, frame[AFDX_GREATEST_FRAME];
    put(a, header, HEADER);
    put(b, header, HEADER);
    CHECK(afdx_open(&it, (const uint8_t *)PLAN, sizeof PLAN - 1) == AFDX_OK && afdx_port_of(&it, 10, &port) == AFDX_OK);
    for (uint32_t k = 0; k < count; k++) {
        const uint32_t record[] = {0, 1000 * k, 60, 60};
        size_t length = 0;
        CHECK(afdx_send(&port, (const uint8_t *)"x", 1) == AFDX_OK && afdx_poll(&it, 1000 * k, &standing) == AFDX_OK);
        for (uint8_t net = AFDX_A; net <= AFDX_B; net++) {
            CHECK(afdx_frame(&it, net, 0, frame, sizeof frame, &length) == AFDX_OK && length == 60);
            put(net == AFDX_A ? a : b, record, sizeof record);
            put(net == AFDX_A ? a : b, frame, length);
        }
    }
    CHECK(afdx_free_port(&port) == AFDX_OK && afdx_free(&it) == AFDX_OK);
}

static uint8_t judges(const capture *a, const capture *b, afdx_finding *findings, size_t room, afdx_judged *judged) {
    return afdx_judge_pair((const uint8_t *)PLAN, sizeof PLAN - 1, &PLAIN, a->bytes, a->length, b->bytes, b->length, findings,
                           room, judged);
}

static bool is(const afdx_finding *finding, uint64_t packet, uint8_t network, const char *name, uint64_t seen, uint64_t wanted) {
    return finding->packet == packet && finding->network == network && strcmp(afdx_finding_name(finding), name) == 0
        && finding->seen == seen && finding->wanted == wanted && finding->vl == 1;
}

static void check_findings(void) {
    capture a = {{0}, 0}, b = {{0}, 0};
    afdx_finding found[3];
    afdx_judged judged;
    record(&a, &b, 30);
    CHECK(judges(&a, &b, NULL, 0, &judged) == AFDX_OK && judged.findings == 0);
    CHECK(judged.a.packets == 30 && judged.a.end == AFDX_CAPTURE_WHOLE && judged.b.packets == 30);
    /* network B lost its fifteenth frame; it has others more than ten milliseconds before and after that */
    memmove(b.bytes + HEADER + 14 * RECORD, b.bytes + HEADER + 15 * RECORD, b.length - HEADER - 15 * RECORD);
    b.length -= RECORD;
    memset(found, '?', sizeof found);
    CHECK(judges(&a, &b, found, 3, &judged) == AFDX_OK && judged.findings == 2 && judged.b.packets == 29);
    CHECK(is(&found[0], 15, AFDX_B, "Number", 15, 14) && found[0].at == 15000000 && found[0].rule == 0);
    CHECK(is(&found[1], 15, AFDX_A, "Missing", 14, 0) && found[1].at == 14000000 && found[1].kind == AFDX_FINDING_MISSING);
    CHECK(((uint8_t *)&found[2])[0] == '?');
    memset(found, '?', sizeof found);
    CHECK(judges(&a, &b, found, 1, &judged) == AFDX_SMALL_BUFFER && judged.findings == 2 && is(found, 15, AFDX_B, "Number", 15, 14));
    CHECK(((uint8_t *)&found[1])[0] == '?' && judges(&a, &b, NULL, 0, &judged) == AFDX_SMALL_BUFFER && judged.findings == 2);
    /* the end system restarts: network A's sixth frame is the first one again */
    uint8_t *sixth = a.bytes + HEADER + 5 * RECORD + 16, before[60];
    memcpy(before, sixth, sizeof before);
    memcpy(sixth, a.bytes + HEADER + 16, sizeof before);
    CHECK(judges(&a, &b, found, 3, &judged) == AFDX_SMALL_BUFFER && is(&found[0], 6, AFDX_A, "Restart", 0, 5));
    CHECK(found[0].kind == AFDX_FINDING_RESTART && found[0].rule == 0);
    memcpy(sixth, before, sizeof before);
    /* a capture of both networks has them by its interfaces: all packets of pcap are network A's, and none needs a twin */
    CHECK(afdx_judge((const uint8_t *)PLAN, sizeof PLAN - 1, &PLAIN, a.bytes, a.length, found, 3, &judged) == AFDX_OK);
    CHECK(judged.findings == 0 && judged.b.packets == 30);
}

static void check_refused(void) {
    capture a = {{0}, 0}, b = {{0}, 0}, none = {{0}, 0};
    afdx_finding found[2];
    afdx_judged judged, before;
    record(&a, &b, 5);
    memset(found, '?', sizeof found);
    memset(&judged, '?', sizeof judged);
    before = judged;
    CHECK(afdx_judge((const uint8_t *)"[", 1, &PLAIN, a.bytes, a.length, found, 2, &judged) == AFDX_CONFIG_TOML);
    CHECK(afdx_judge(NULL, 0, &PLAIN, NULL, 0, found, 2, &judged) == AFDX_CONFIG_MISSING_KEY);
    CHECK(memcmp(&judged, &before, sizeof judged) == 0 && ((uint8_t *)found)[0] == '?');
    /* captures that are cut off or malformed are judged up to there */
    b.length = HEADER + 3 * RECORD + 5;
    CHECK(judges(&a, &b, found, 2, &judged) == AFDX_BAD_CAPTURE && judged.findings == 0 && judged.b.packets == 3);
    CHECK(judged.b.at == HEADER + 3 * RECORD && judged.b.end == AFDX_CAPTURE_CUT_OFF && judged.a.end == 0);
    CHECK(judges(&a, &none, found, 2, &judged) == AFDX_BAD_CAPTURE && judged.b.at == 0 && judged.a.packets == 5);
    CHECK(afdx_judge((const uint8_t *)PLAN, sizeof PLAN - 1, &PLAIN, NULL, 0, NULL, 0, &judged) == AFDX_BAD_CAPTURE);
    CHECK(judged.findings == 0 && judged.a.end == AFDX_CAPTURE_CUT_OFF && judged.a.at == 0 && judged.a.packets == 0);
    a.bytes[0] = 0;
    CHECK(judges(&a, &b, NULL, 0, &judged) == AFDX_BAD_CAPTURE && judged.a.end == AFDX_CAPTURE_FORMAT);
    CHECK(strcmp(afdx_answer_name(AFDX_CALL_OPEN, AFDX_BAD_CAPTURE), "AFDX_BAD_CAPTURE") == 0);
}

/* Each allocation fails in turn: then the call says so, and has written nothing and kept nothing. */
static void check_memory(void) {
    capture a = {{0}, 0}, b = {{0}, 0};
    afdx_finding found[1];
    afdx_judged judged, before;
    long fails = 0;
    record(&a, &b, 20);
    b.length -= RECORD;
    memset(&judged, '?', sizeof judged);
    before = judged;
    for (;; fails++) {
        memset(found, '?', sizeof found);
        refused_in = fails;
        uint8_t answer = judges(&a, &b, found, 1, &judged);
        refused_in = -1;
        CHECK(blocks == 0 && bytes == 0);
        if (answer != AFDX_MEMORY) break;
        CHECK(((uint8_t *)found)[0] == '?' && memcmp(&judged, &before, sizeof judged) == 0);
    }
    CHECK(fails > 20 && judged.findings == 0 && judged.b.packets == 19);
}

/* What the recorder of a capture lost, on both interfaces, also of one that is cut off or malformed, or if memory fails. */
static void check_losses(void) {
    static const uint32_t blocks_of[] = {
        0x0a0d0d0a, 28, 0x1a2b3c4d, 1, 0xffffffff, 0xffffffff, 28,      /* a section */
        1, 20, 1, 0, 20, 1, 20, 1, 0, 20,                               /* two interfaces of Ethernet */
        6, 44, 0, 0, 0, 0, 0, 0x00080004, 3, 0, 44,                     /* three packets were lost before one on the first */
        6, 44, 1, 0, 0, 0, 0, 0x00080004, 5, 0, 44,                     /* and five on the second */
    };
    const uint8_t *all = (const uint8_t *)blocks_of;
    uint64_t lost = 9;
    CHECK(afdx_capture_lost(all, sizeof blocks_of, &lost) == AFDX_OK && lost == 8);
    CHECK(afdx_capture_lost(all, sizeof blocks_of - 1, &lost) == AFDX_BAD_CAPTURE && lost == 3);
    CHECK(afdx_capture_lost(all, sizeof blocks_of - 44, &lost) == AFDX_OK && lost == 3);
    CHECK(afdx_capture_lost(all, 28, &lost) == AFDX_OK && lost == 0);
    lost = 9;
    CHECK(afdx_capture_lost(all + 1, 60, &lost) == AFDX_BAD_CAPTURE && lost == 0);
    lost = 9;
    CHECK(afdx_capture_lost(NULL, 0, &lost) == AFDX_BAD_CAPTURE && lost == 0);
    lost = 9;
    refused_in = 0;
    CHECK(afdx_capture_lost(all, sizeof blocks_of, &lost) == AFDX_MEMORY && lost == 9);
    refused_in = -1;
    CHECK(blocks == 0 && bytes == 0);
}

static uint8_t *read_file(const char *path, size_t *length) {
    static uint8_t files[3][1 << 22];
    static int next;
    FILE *file = fopen(path, "rb");
    *length = file == NULL ? 0 : fread(files[next], 1, sizeof files[next], file);
    if (file != NULL) fclose(file);
    return files[next++];
}

static int print_findings(int words, char **word) {
    static afdx_finding found[100000];
    const afdx_judge_options options = {
        .jitter = strtoull(word[2], NULL, 10),
        .skew = strtoull(word[3], NULL, 10),
        .late = word[4][0] == '1',
        .fcs = word[5][0] == '1',
        .arinc = word[6][0] == '1',
    };
    size_t plan_length = 0, length = 0, other_length = 0, room = sizeof found / sizeof *found;
    const uint8_t *plan = read_file(word[1], &plan_length), *capture = read_file(word[7], &length);
    const uint8_t *other = words > 8 ? read_file(word[8], &other_length) : NULL;
    afdx_judged judged = {0, {0, 0, 0}, {0, 0, 0}};
    uint8_t answer = words > 8 ? afdx_judge_pair(plan, plan_length, &options, capture, length, other, other_length, found, room, &judged)
                               : afdx_judge(plan, plan_length, &options, capture, length, found, room, &judged);
    for (size_t k = 0; k < judged.findings; k++) {
        const afdx_finding *it = &found[k];
        printf("%llu %c %llu %d %s %llu %llu\n", (unsigned long long)it->packet, it->network == AFDX_A ? 'A' : 'B', (unsigned long long)it->at,
               it->vl == AFDX_NO_VL ? -1 : (int)it->vl, afdx_finding_name(it), (unsigned long long)it->seen, (unsigned long long)it->wanted);
    }
    return answer;
}

int main(int words, char **word) {
    if (words > 1) return print_findings(words, word);
    check_findings();
    check_refused();
    check_memory();
    check_losses();
    return end_of_checks();
}
