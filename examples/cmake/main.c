/* Sends one byte through port 10 of a plan, and prints its frame for each network.

       main CONFIG */
#include <afdx.h>
#include <stdio.h>

/* Returns whether a call succeeded; prints its answer if it didn't. */
static int is_ok(const char *name, afdx_call call, uint8_t answer) {
    if (answer != AFDX_OK) fprintf(stderr, "%s: %s\n", name, afdx_answer_name(call, answer));
    return answer == AFDX_OK;
}

/* Prints the frames that the last poll made for a network. */
static int print_frames(const afdx_end_system *it, uint8_t network) {
    uint8_t frame[AFDX_GREATEST_FRAME];
    size_t count = 0, length = 0;
    if (!is_ok("afdx_frames", AFDX_CALL_OTHER, afdx_frames(it, network, &count))) return 0;
    for (size_t k = 0; k < count; k++) {
        if (!is_ok("afdx_frame", AFDX_CALL_OTHER, afdx_frame(it, network, k, frame, sizeof frame, &length))) return 0;
        printf("%c 0 ", network == AFDX_A ? 'A' : 'B');
        for (size_t i = 0; i < length; i++) printf("%02x", frame[i]);
        printf("\n");
    }
    return 1;
}

int main(int argc, char **argv) {
    static uint8_t text[65536];
    const uint8_t message[] = {0x01};
    uint8_t up = 0;
    afdx_end_system it = {0};
    afdx_port port = {0};
    FILE *file = argc == 2 ? fopen(argv[1], "rb") : NULL;
    if (file == NULL) {
        fprintf(stderr, "usage: main CONFIG\n");
        return 2;
    }
    size_t length = fread(text, 1, sizeof text, file);
    fclose(file);
    int is_done = is_ok("afdx_open", AFDX_CALL_OPEN, afdx_open(&it, text, length))
        && is_ok("afdx_port_of", AFDX_CALL_OTHER, afdx_port_of(&it, 10, &port))
        && is_ok("afdx_send", AFDX_CALL_SEND, afdx_send(&port, message, sizeof message))
        && is_ok("afdx_poll", AFDX_CALL_POLL, afdx_poll(&it, 0, &up))
        && print_frames(&it, AFDX_A) && print_frames(&it, AFDX_B);
    afdx_free_port(&port);
    afdx_free(&it);
    return !is_done;
}
