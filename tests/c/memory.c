/* Tests what memory an end system takes: as much as docs/guide/c.md says, all of it when it is opened. No call after
   that requests or frees any, but those that end. Opened from a plan's table, it takes what afdx_memory says of that, and
   makes the frames of the one that is opened from the text.

   tests/c/c_library.py builds and runs it. With the path of a folder it writes 41 plans there, and prints what an end
   system of each holds. */
#include "afdx.h"

#include "checks.h"

/* The bytes that an end system holds from afdx_open to afdx_free: docs/guide/c.md has this formula. */
static size_t held(size_t links, size_t ports) {
    return 207953 + 280 * links + 24 * (links < 4 ? 4 : links) + 392 * ports + 32 * (ports < 4 ? 4 : ports);
}

/* In how many blocks: docs/guide/embedding.md has this one. */
static size_t held_blocks(size_t links, size_t ports, size_t subs, size_t capacity) {
    return 141 + 4 * links + 2 * ports + subs * (6 + capacity);
}

/* Those of them that are a sub-VL's, whose greatest message has `greatest` bytes. */
static size_t of_sub_vl(size_t capacity, size_t ports, size_t greatest) {
    return 312 + 40 * capacity + (capacity + 1 + ports) * greatest;
}

static void check_memory(void) {
    static const int rows[][4] = {{1, 1, 1, 1}, {1, 1, 2, 1}, {1, 1, 1, 2}, {1, 2, 1, 1}, {2, 1, 1, 1},
                                  {64, 1, 1, 1}, {64, 4, 256, 1}, {8, 2, 10, 4}, {1, 1, 256, 64}, {5, 3, 7, 5}};
    for (size_t k = 0; k < sizeof rows / sizeof *rows; k++) {
        size_t links = (size_t)rows[k][0], subs = links * (size_t)rows[k][1], each = (size_t)rows[k][3];
        size_t wanted = held(links, subs * each) + subs * of_sub_vl((size_t)rows[k][2], each, 8192);
        const char *text = plan(rows[k][0], rows[k][1], rows[k][2], rows[k][3]);
        afdx_end_system it = {0};
        most = bytes;
        open_plan(&it, text);
        CHECK(blocks == held_blocks(links, subs * each, subs, (size_t)rows[k][2]));
        CHECK(bytes == wanted && (most == wanted || most < 60 * strlen(text)));
        CHECK(afdx_free(&it) == AFDX_OK && blocks == 0 && bytes == 0);
    }
}

/* The bytes that opening holds for a moment above what it keeps: docs/guide/embedding.md. */
enum { MOST_CHOSEN = 30, MOST_LISTS = 10256, MOST_CELLS = 8 + 6 * 65 + 11 * AFDX_MOST_PORTS };

/* A plan, its table, and the bytes that an end system of it holds. Numbers choose a plan, of which each is made from the one
   before. */
struct chosen {
    uint32_t number;
    char text[64000];
    uint8_t table[2 * MOST_CELLS + 4];
    size_t end, length, bytes;
    uint16_t links, ports;
};

/* Appends numbers of 16 bits to the table. */
static void puts_cells(struct chosen *it, const int *cells, size_t count) {
    for (size_t k = 0; k < count; k++) {
        it->table[it->length++] = (uint8_t)(cells[k] >> 8);
        it->table[it->length++] = (uint8_t)cells[k];
    }
}

/* Begins a plan without links. */
static void begins(struct chosen *it) {
    it->bytes = it->links = it->ports = 0;
    memcpy(it->table, "AFDXPLAN", it->length = 8);
    puts_cells(it, (int[]){1, 7, 0, 0}, 4);
    it->end = (size_t)snprintf(it->text, sizeof it->text, "version = 2\n[end_system]\nid = 7\n");
}

/* Adds a link, whose identifier is its place. */
static void adds_link(struct chosen *it, int sub_vls, int capacity) {
    it->end += (size_t)snprintf(it->text + it->end, sizeof it->text - it->end,
        "[[vl]]\nid = %d\nbag_ms = 1\nlmax = 1518\nsub_vls = %d\ncapacity = %d\n", it->links, sub_vls, capacity);
    puts_cells(it, (int[]){it->links, 1, 1518, sub_vls, capacity, 0}, 6);
    it->links++;
}

/* Adds a port, after all links. */
static void adds_port(struct chosen *it, int id, int vl, int sub, int size) {
    it->end += (size_t)snprintf(it->text + it->end, sizeof it->text - it->end,
        "[[port]]\nid = %d\nvl = %d\nsub = %d\npartition = 1\nkind = \"queuing\"\nsource = %d\ndestination = 2\nmax = %d\n",
        id, vl, sub, 1000 + it->ports, size);
    puts_cells(it, (int[]){id, vl, sub, 1, 1, 1000 + it->ports, 2, size, 0, 0, 0}, 11);
    it->ports++;
}

/* Appends the check to a table of this length, as docs/guide/table.md has it. */
static void puts_check(struct chosen *it, size_t length) {
    uint32_t sum = UINT32_MAX;
    for (size_t k = 0; k < length; k++) {
        sum ^= it->table[k];
        for (int bit = 0; bit < 8; bit++) sum = sum >> 1 ^ (sum & 1 ? 0xedb88320 : 0);
    }
    it->length = length;
    puts_cells(it, (int[]){(int)(~sum >> 16), (int)(~sum & 0xffff)}, 2);
}

/* Ends a plan: the table gets its numbers of links and ports, and its check. */
static void ends(struct chosen *it) {
    size_t length = it->length;
    it->length = 12;
    puts_cells(it, (int[]){it->links, it->ports}, 2);
    it->bytes += held(it->links, it->ports);
    puts_check(it, length);
}

static int up_to(struct chosen *it, int greatest) {
    it->number = it->number * 1664525 + 1013904223;
    return 1 + (int)((it->number >> 8) % (uint32_t)greatest);
}

static void adds_ports(struct chosen *it, int vl, int sub, int capacity) {
    int greatest = 0;
    uint16_t before = it->ports;
    for (int many = up_to(it, 4) - 1; many > 0 && it->ports < MOST_CHOSEN; many--) {
        int size = up_to(it, up_to(it, 2) == 1 ? 64 : 8192);
        adds_port(it, it->ports, vl, sub, size);
        if (size > greatest) greatest = size;
    }
    it->bytes += of_sub_vl((size_t)capacity, (size_t)(it->ports - before), (size_t)greatest);
}

static void choose(struct chosen *it) {
    int links = up_to(it, 6), sub_vls[6], capacities[6];
    begins(it);
    for (int k = 0; k < links; k++) {
        sub_vls[k] = up_to(it, 4);
        capacities[k] = up_to(it, 256);
        adds_link(it, sub_vls[k], capacities[k]);
    }
    for (int k = 0; k < links; k++)
        for (int sub = 0; sub < sub_vls[k]; sub++) adds_ports(it, k, sub, capacities[k]);
    ends(it);
}

/* Chooses the greatest plan: each sub-VL of 64 links has a port. */
static void choose_greatest(struct chosen *it, int capacity) {
    begins(it);
    for (int k = 0; k < AFDX_MOST_LINKS; k++) adds_link(it, 4, capacity);
    for (int k = 0; k < AFDX_MOST_PORTS; k++) adds_port(it, k, k / 4, k % 4, 8192);
    it->bytes = AFDX_MOST_PORTS * of_sub_vl((size_t)capacity, 1, 8192);
    ends(it);
}

/* The frames of a network that the last polls of two end systems made are the same. */
static void are_same(const afdx_end_system *one, const afdx_end_system *two, uint8_t network) {
    static uint8_t frames[2][AFDX_MOST_FRAMES * AFDX_GREATEST_FRAME];
    size_t lengths[2][AFDX_MOST_FRAMES], counts[2] = {7, 8}, all = 0;
    CHECK(afdx_all_frames(one, network, frames[0], sizeof frames[0], lengths[0], AFDX_MOST_FRAMES, &counts[0]) == AFDX_OK);
    CHECK(afdx_all_frames(two, network, frames[1], sizeof frames[1], lengths[1], AFDX_MOST_FRAMES, &counts[1]) == AFDX_OK);
    CHECK(counts[0] == counts[1] && memcmp(lengths[0], lengths[1], counts[0] * sizeof lengths[0][0]) == 0);
    for (size_t k = 0; k < counts[0]; k++) all += lengths[0][k];
    CHECK(memcmp(frames[0], frames[1], all) == 0);
}

/* The bytes that an end system holds that is opened from its table, whose lists have no room to spare. */
static size_t held_of_table(const struct chosen *plan) {
    size_t links = plan->links < 4 ? 4 - plan->links : 0, ports = plan->ports < 4 ? 4 - plan->ports : 0;
    return plan->bytes - 24 * links - 32 * ports;
}

/* Opened from its table, a plan takes just what afdx_memory says, and makes the frames of the one from the text. */
static void check_table(const struct chosen *plan, afdx_end_system *by_text) {
    static const uint8_t message[8192] = {1, 2, 3};
    afdx_end_system by_table = {0};
    afdx_port ports[2] = {{0}};
    uint8_t standing[2] = {7, 8};
    size_t before = bytes, taken = 7;
    CHECK(afdx_memory(plan->table, plan->length, &taken) == AFDX_OK && taken == held_of_table(plan) && bytes == before);
    most = bytes;
    CHECK(afdx_open_table(&by_table, plan->table, plan->length) == AFDX_OK && bytes - before == taken);
    CHECK(most - before <= taken + MOST_LISTS);
    afdx_end_system *both[] = {by_text, &by_table};
    for (uint64_t now = 0; now < 12000; now += 1000) {
        for (uint16_t k = 0; k < plan->ports; k++) {
            uint8_t answers[2];
            for (int of = 0; of < 2; of++) {
                CHECK(afdx_port_of(both[of], k, &ports[of]) == AFDX_OK);
                answers[of] = afdx_send(&ports[of], message, 1 + (k * 977 + now) % 8192);
                CHECK(afdx_give_back(both[of], &ports[of]) == AFDX_OK);
            }
            CHECK(answers[0] == answers[1]);
        }
        for (int of = 0; of < 2; of++) CHECK(afdx_poll(both[of], now, &standing[of]) == AFDX_OK);
        for (uint8_t network = AFDX_A; network <= AFDX_B; network++) are_same(by_text, &by_table, network);
    }
    CHECK(afdx_free(&by_table) == AFDX_OK && bytes == before);
}

/* A call that does what it has to, and requests and frees no memory. */
#define KEEPS(holds) \
    do { \
        size_t asked = requests, freed = frees; \
        CHECK(holds); \
        check(requests == asked && frees == freed, __LINE__, "memory: " #holds); \
    } while (0)

/* The calls that show what is there. `made` is how many frames the last poll made for A. */
static void shows(const afdx_end_system *it, const afdx_port *port, size_t made) {
    static uint8_t all[AFDX_MOST_FRAMES * AFDX_GREATEST_FRAME];
    size_t lengths[AFDX_MOST_FRAMES], count = 7, length = 0;
    uint16_t ids[AFDX_MOST_PORTS];
    uint64_t many = 7;
    afdx_released released;
    afdx_counts counts;
    uint8_t done = 7;
    KEEPS(afdx_frames(it, AFDX_A, &count) == AFDX_OK && count == made);
    KEEPS(afdx_all_frames(it, AFDX_A, all, sizeof all, lengths, AFDX_MOST_FRAMES, &count) == AFDX_OK && count == made);
    KEEPS(afdx_frame(it, AFDX_A, made, all, sizeof all, &length) == AFDX_NO_FRAME);
    if (made > 0) {
        KEEPS(afdx_frame(it, AFDX_A, 0, all, sizeof all, &length) == AFDX_OK && length == lengths[0]);
        KEEPS(afdx_frame(it, AFDX_A, 0, all, length - 1, &length) == AFDX_SMALL_BUFFER);
        KEEPS(afdx_release(it, AFDX_A, 0, &released) == AFDX_OK && released.sub == 0);
    }
    KEEPS(afdx_link_counts(it, 900, &counts) == AFDX_OK && afdx_link_counts(it, 1, &counts) == AFDX_NO_LINK);
    KEEPS(afdx_next_due(it, &many) == AFDX_OK);
    KEEPS(afdx_ports(it, ids, AFDX_MOST_PORTS, &count) == AFDX_OK && count == 2);
    KEEPS(afdx_links(it, ids, AFDX_MOST_LINKS, &count) == AFDX_OK && count == 1);
    if (port != NULL) KEEPS(afdx_accepted(port, &many) == AFDX_OK);
    KEEPS(afdx_is_done(it, &done) == (port == NULL ? AFDX_OK : AFDX_NOT_GATHERED));
}

/* Each call after opening, done and refused, requests and frees nothing, while no request would be granted. Freeing the
   end system frees all. */
static void check_calls(void) {
    static const uint8_t message[8193] = {1};
    afdx_end_system it = {0};
    afdx_port ports[2] = {{0}}, none = {0};
    uint8_t standing = 7;
    uint64_t total = 7;
    open_plan(&it, plan(1, 1, 2, 2));
    refused_in = 0;
    for (uint16_t k = 0; k < 2; k++) KEEPS(afdx_port_of(&it, k, &ports[k]) == AFDX_OK);
    KEEPS(afdx_port_of(&it, 0, &none) == AFDX_NO_PORT && afdx_port_of(&it, 2, &none) == AFDX_NO_PORT);
    KEEPS(afdx_send(&ports[0], message, 8192) == AFDX_OK);
    KEEPS(afdx_send(&ports[0], message, 0) == AFDX_EMPTY && afdx_send(&ports[0], message, 8193) == AFDX_TOO_LONG);
    KEEPS(afdx_send(&ports[1], message, 1) == AFDX_OK && afdx_send(&ports[1], message, 1) == AFDX_FULL);
    shows(&it, &ports[0], 0);
    for (uint64_t k = 0; k < 9; k++) {
        KEEPS(afdx_poll(&it, 1000 * k, &standing) == AFDX_OK);
        shows(&it, &ports[0], k < 7);
    }
    KEEPS(afdx_poll(&it, 0, &standing) == AFDX_TIME_BACK);
    KEEPS(afdx_send(&ports[0], message, 1472) == AFDX_OK && afdx_send(&ports[1], message, 3000) == AFDX_OK);
    KEEPS(afdx_close(&it, 900, 0, &total) == AFDX_OK && total == 4);
    KEEPS(afdx_close(&it, 900, 0, &total) == AFDX_OK && afdx_close(&it, 900, 1, &total) == AFDX_NO_SUB);
    KEEPS(afdx_send(&ports[0], message, 1) == AFDX_CLOSED && afdx_gather(&it) == AFDX_PORT_MISSING);
    KEEPS(afdx_give_back(&it, &ports[0]) == AFDX_OK && afdx_give_back(&it, &ports[0]) == AFDX_NOT_HELD);
    KEEPS(afdx_port_of(&it, 0, &ports[0]) == AFDX_OK);
    for (int k = 0; k < 2; k++) KEEPS(afdx_give_back(&it, &ports[k]) == AFDX_OK);
    KEEPS(afdx_gather(&it) == AFDX_OK && afdx_gather(&it) == AFDX_GATHERED);
    for (uint64_t k = 10; k < 16; k++) {
        KEEPS(afdx_poll(&it, 1000 * k, &standing) == AFDX_OK);
        shows(&it, NULL, k < 15);
        if (k == 12) KEEPS(afdx_fail(&it, AFDX_B) == AFDX_OK && afdx_fail(&it, 2) == AFDX_NO_NETWORK);
    }
    KEEPS(afdx_fail(&it, AFDX_A) == AFDX_OK && standing == AFDX_A_STANDS);
    size_t asked = requests, freed = frees, held = blocks;
    CHECK(afdx_free(&it) == AFDX_OK && blocks == 0 && bytes == 0 && frees == freed + held && requests == asked);
    refused_in = -1;
}

/* No call requests or frees memory between opening and freeing: not with ports that are taken and given back, messages
   of each length, refused ones among them, closing, gathering and draining. */
static void keeps(afdx_end_system *it, const struct chosen *plan) {
    static const uint8_t message[8192] = {1};
    afdx_port ports[AFDX_MOST_PORTS] = {{0}};
    size_t asked = requests, freed = frees;
    uint64_t now = 0, total = 0;
    uint8_t standing = 7, done = 0;
    for (int round = 0; round < 3; round++) {
        for (uint16_t k = 0; k < plan->ports; k++) CHECK(afdx_port_of(it, k, &ports[k]) == AFDX_OK);
        for (size_t length = 0; length < sizeof message; length += 1021)
            for (uint16_t k = 0; k < plan->ports; k++) (void)afdx_send(&ports[k], message, length);
        for (int polls = 0; polls < 9; polls++, now += 1000) CHECK(afdx_poll(it, now, &standing) == AFDX_OK);
        if (round == 1) CHECK(afdx_close(it, 0, 0, &total) == AFDX_OK);
        for (uint16_t k = 0; k < plan->ports; k++) CHECK(afdx_give_back(it, &ports[k]) == AFDX_OK);
    }
    CHECK(afdx_gather(it) == AFDX_OK);
    for (int polls = 0; polls < 1000 && done == 0; polls++, now += 1000) {
        CHECK(afdx_poll(it, now, &standing) == AFDX_OK && afdx_is_done(it, &done) == AFDX_OK);
    }
    CHECK(done == 1 && requests == asked && frees == freed);
}

/* Writes a plan to a folder, and prints its number and the bytes that an end system of it holds. */
static void show(const char *folder, int number, const struct chosen *plan) {
    char path[400];
    CHECK(snprintf(path, sizeof path, "%s/%d.toml", folder, number) < (int)sizeof path);
    FILE *file = fopen(path, "w");
    CHECK(file != NULL && fputs(plan->text, file) >= 0 && fclose(file) == 0);
    printf("plan %d: %zu bytes\n", number, bytes);
}

/* The formula is exact, and memory is taken at opening alone. Shows the plan if a folder is given. */
static void check_plan(const struct chosen *plan, const char *folder, int number) {
    afdx_end_system it = {0};
    open_plan(&it, plan->text);
    CHECK(bytes == plan->bytes);
    if (folder != NULL) show(folder, number, plan);
    keeps(&it, plan);
    CHECK(bytes == plan->bytes && afdx_free(&it) == AFDX_OK && blocks == 0 && bytes == 0);
    open_plan(&it, plan->text);
    check_table(plan, &it);
    CHECK(bytes == plan->bytes && afdx_free(&it) == AFDX_OK && blocks == 0 && bytes == 0);
}

/* 400 plans and the greatest, which holds most with queues of 256 messages. Shows every tenth, and the greatest. */
static void check_kept(const char *folder) {
    static struct chosen plan = {.number = 7};
    size_t taken = 7;
    for (int times = 0; times < 400; times++) {
        do choose(&plan);
        while (plan.ports == 0);
        check_plan(&plan, times % 10 == 0 ? folder : NULL, times);
    }
    choose_greatest(&plan, 2);
    check_plan(&plan, folder, 400);
    choose_greatest(&plan, 256);
    CHECK(afdx_memory(plan.table, plan.length, &taken) == AFDX_OK && taken == plan.bytes && taken > 540000000);
}

/* Opens a plan of `links` links from its table, whose one port sends a message of its greatest length. */
static void sends(int links, int id, int size) {
    static const uint8_t message[8192] = {1};
    static struct chosen plan;
    afdx_end_system it = {0};
    afdx_port port = {0};
    uint8_t standing = 7;
    begins(&plan);
    for (int k = 0; k < links; k++) adds_link(&plan, 1, 1);
    adds_port(&plan, id, links - 1, 0, size);
    plan.bytes = of_sub_vl(1, 1, (size_t)size) + (size_t)(links - 1) * of_sub_vl(1, 0, 0);
    ends(&plan);
    CHECK(afdx_open_table(&it, plan.table, plan.length) == AFDX_OK && bytes == held_of_table(&plan));
    CHECK(afdx_port_of(&it, (uint16_t)id, &port) == AFDX_OK && afdx_send(&port, message, (size_t)size) == AFDX_OK);
    CHECK(afdx_poll(&it, 0, &standing) == AFDX_OK && standing == (AFDX_A_STANDS | AFDX_B_STANDS));
    CHECK(afdx_free_port(&port) == AFDX_OK);
    CHECK(afdx_free(&it) == AFDX_OK && blocks == 0 && bytes == 0);
}

/* Each greatest length of a message, with the last identifiers of ports, and each number of links. */
static void check_one_port(void) {
    for (int size = 1; size <= 8192; size++) sends(1, UINT16_MAX + 1 - size, size);
    for (int links = 1; links <= AFDX_MOST_LINKS; links++) sends(links, links, 1);
}

/* Returns the answer to a table, which both calls give. A table that is refused leaves nothing. */
static uint8_t reads(const struct chosen *plan) {
    afdx_end_system it = {0};
    size_t taken = 7;
    uint8_t answer = afdx_memory(plan->table, plan->length, &taken);
    CHECK(blocks == 0 && bytes == 0 && (answer == AFDX_OK || taken == 7));
    CHECK(afdx_open_table(&it, plan->table, plan->length) == answer && it.held == (answer == AFDX_OK));
    if (it.held) CHECK(bytes == taken && afdx_free(&it) == AFDX_OK);
    CHECK(blocks == 0 && bytes == 0);
    return answer;
}

/* Overwrites a number of the table, and the check. */
static void sets(struct chosen *it, size_t cell, int value) {
    size_t length = it->length;
    it->length = 2 * cell;
    puts_cells(it, &value, 1);
    puts_check(it, length - 4);
}

/* Each request for memory that is refused leaves nothing, and the call with memory has this answer. */
static void refuses_each(const struct chosen *plan, uint8_t wanted) {
    for (int opens = 0; opens < 2; opens++) {
        bool is_refused = true;
        for (long asked = 0; is_refused; asked++) {
            afdx_end_system it = {0};
            size_t taken = 7;
            refused_in = asked;
            uint8_t answer = opens ? afdx_open_table(&it, plan->table, plan->length) : afdx_memory(plan->table, plan->length, &taken);
            is_refused = refused_in < 0;
            refused_in = -1;
            CHECK(answer == (is_refused ? AFDX_MEMORY : wanted) && (is_refused || asked > 2));
            CHECK(it.held == (opens && answer == AFDX_OK) && (answer == AFDX_OK || taken == 7));
            if (it.held) CHECK(afdx_free(&it) == AFDX_OK);
            CHECK(blocks == 0 && bytes == 0);
        }
    }
}

/* A table that is refused, by each fault, or a request of which is, leaves nothing. */
static void check_refused(void) {
    static struct chosen plan;
    size_t seen[UINT8_MAX + 1] = {0};
    begins(&plan);
    for (int k = 0; k < 2; k++) adds_link(&plan, 2, 2);
    for (int k = 0; k < 5; k++) adds_port(&plan, k, k / 2 == 0 ? 0 : 1, k % 2, 2000);
    ends(&plan);
    /* a port on each link has an address of its own */
    for (size_t port = 0; port < 4; port += 2)
        for (size_t k = 0; k < 2; k++) sets(&plan, 8 + 2 * 6 + 11 * port + 8 + k, k == 0 ? 10 * 256 : 1 + (int)port);
    refuses_each(&plan, AFDX_OK);
    for (size_t cell = 0; 2 * cell < plan.length - 4; cell++) {
        int before = plan.table[2 * cell] << 8 | plan.table[2 * cell + 1];
        for (int k = 0; k < 6; k++) {
            sets(&plan, cell, (int[]){0, 1, 2, UINT16_MAX, before + 1, before - 1}[k]);
            seen[reads(&plan)]++;
        }
        sets(&plan, cell, before);
    }
    for (size_t k = 0, whole = plan.length; k < whole; k++) {
        plan.table[k] ^= 1;
        seen[reads(&plan)]++;
        plan.table[k] ^= 1;
        plan.length = k;
        seen[reads(&plan)]++;
        plan.length = whole;
    }
    sets(&plan, 8 + 2, 0);
    refuses_each(&plan, AFDX_WRONG_VALUE);
    begins(&plan);
    for (int k = 0; k <= AFDX_MOST_LINKS; k++) adds_link(&plan, 1, 1);
    ends(&plan);
    seen[reads(&plan)]++;
    for (size_t k = AFDX_CONFIG_DUPLICATE_VL; k <= AFDX_WRONG_VALUE; k++) CHECK((seen[k] > 0) == (k != AFDX_MEMORY));
}

int main(int count, char **words) {
    check_memory();
    check_kept(count > 1 ? words[1] : NULL);
    check_calls();
    check_one_port();
    check_refused();
    return end_of_checks();
}
