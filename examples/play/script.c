/* The script of afdx_play: its lines, read by the library, and the end system that obeys them. */
#define _GNU_SOURCE
#include "play.h"

#include <ctype.h>
#include <errno.h>
#include <stdlib.h>
#include <string.h>
#include <sys/stat.h>

/* The most lines of a script, the most bytes of a message in a line, the most bytes of a file. */
enum { MOST_LINES = 1000000, GREATEST_MESSAGE = 10000, FIRST_ROOM = 1 << 16 };
static const size_t GREATEST_FILE = (size_t)1 << 32;

const char *short_name(afdx_call call, uint8_t answer) {
    static char name[40];
    const char *from = afdx_answer_name(call, answer);
    for (const char *const *front = (const char *const[]){"AFDX_", "CONFIG_", "LINE_", NULL}; *front != NULL; front++)
        if (strncmp(from, *front, strlen(*front)) == 0) from += strlen(*front);
    size_t length = 0;
    for (bool is_first = true; *from != '\0' && length + 1 < sizeof name; from++) {
        if (*from != '_') name[length++] = (char)(is_first ? *from : tolower((unsigned char)*from));
        is_first = *from == '_';
    }
    name[length] = '\0';
    return name;
}

uint8_t *read_all(FILE *file, size_t *length) {
    size_t room = FIRST_ROOM;
    struct stat found;
    bool is_too_long = fstat(fileno(file), &found) == 0 && S_ISREG(found.st_mode) && found.st_size > (off_t)GREATEST_FILE;
    uint8_t *text = is_too_long ? NULL : malloc(room);
    *length = 0;
    while (text != NULL) {
        *length += fread(text + *length, 1, room - *length, file);
        if (*length < room || room >= GREATEST_FILE) break;
        uint8_t *more = realloc(text, room *= 2);
        if (more == NULL) free(text);
        text = more;
    }
    if (text != NULL && *length == room) is_too_long = fgetc(file) != EOF;
    if (text != NULL && !is_too_long && !ferror(file)) return text;
    int error = is_too_long ? EFBIG : errno;
    free(text);
    errno = error;
    return NULL;
}

void tell_unread(const char *what, int error) {
    const char *why = error == EFBIG ? "it has more than 4 GiB, the most that is read" : strerror(error);
    fprintf(stderr, "%s\n%s: %s\n", error == ENOMEM ? "out of memory" : "read failed", what, why);
}

uint8_t *read_file(const char *path, size_t *length) {
    FILE *file = fopen(path, "rb");
    uint8_t *text = file == NULL ? NULL : read_all(file, length);
    if (text == NULL) tell_unread(path, errno);
    if (file != NULL) fclose(file);
    return text;
}

/* Adds what a line says. Returns 0, the number of the line's fault, or AFDX_MEMORY. */
static uint8_t add_line(struct script *script, size_t number, const uint8_t *line, size_t length) {
    static uint8_t message[GREATEST_MESSAGE];
    struct command command = {.line = number};
    uint8_t answer = afdx_script_line(line, length, &command.says, message, sizeof message);
    if (answer != AFDX_OK || command.says.kind == AFDX_SAYS_NOTHING) return answer;
    if ((script->count & (script->count + 1)) == 0) {
        struct command *more = realloc(script->commands, (2 * script->count + 2) * sizeof *more);
        if (more == NULL) return AFDX_MEMORY;
        script->commands = more;
    }
    if (command.says.length > 0) {
        command.message = malloc(command.says.length);
        if (command.message == NULL) return AFDX_MEMORY;
        memcpy(command.message, message, command.says.length);
    }
    script->commands[script->count++] = command;
    return AFDX_OK;
}

int read_script(const uint8_t *text, size_t length, struct script *script) {
    static const uint8_t mark[] = {0xef, 0xbb, 0xbf}; // the byte order mark of UTF-8
    size_t number = 0, skipped = length >= sizeof mark && memcmp(text, mark, sizeof mark) == 0 ? sizeof mark : 0;
    const uint8_t *at = text + skipped, *end = text + length;
    while (at < end && script->faulty == 0 && !script->is_too_long) {
        const uint8_t *feed = memchr(at, '\n', (size_t)(end - at)), *stop = feed == NULL ? end : feed;
        const uint8_t *last = feed != NULL && stop > at && stop[-1] == '\r' ? stop - 1 : stop;
        if (++number > MOST_LINES) {
            script->is_too_long = true;
        } else if ((script->fault = add_line(script, number, at, (size_t)(last - at))) != AFDX_OK) {
            script->faulty = number;
        }
        at = feed == NULL ? end : feed + 1;
    }
    if (script->fault != AFDX_MEMORY) return 0;
    fprintf(stderr, "out of memory\n");
    return ENDS_BROKEN;
}

int tell_end(const struct script *script, const char *path) {
    static const char *const wanted[] = {
        [AFDX_LINE_WORD] = "a line is `send PORT HEX`, `at MICROS` or `close VL SUB`",
        [AFDX_LINE_NUMBER] = "decimal digits are wanted: up to 65535 for a port or a link, 255 for a sub-VL, 2^64 - 1 for a time",
        [AFDX_LINE_HEX] = "bytes are an even number of hexadecimal digits, or `-`",
        [AFDX_LINE_EXTRA] = "nothing may follow `send PORT HEX`, `at MICROS` or `close VL SUB` on a line",
        [AFDX_LINE_LONG] = "a line has at most 20000 bytes",
    };
    bool has_form = script->fault < sizeof wanted / sizeof *wanted;
    if (script->is_too_long) fprintf(stderr, "script refused: too many lines\n%s: a script has at most %d lines\n", path, MOST_LINES);
    if (script->faulty != 0)
        fprintf(stderr, "script line %zu: %d %s\n%s:%zu: %s\n", script->faulty, script->fault, short_name(AFDX_CALL_LINE, script->fault), path,
                script->faulty, has_form ? wanted[script->fault] : "the line can't be read");
    return script->is_too_long || script->faulty != 0 ? ENDS_UNREAD : 0;
}

/* Prints the faults of a plan, each with its place. */
static void explain(const uint8_t *text, size_t length) {
    size_t size = 0;
    if (afdx_explain(text, length, NULL, 0, &size) != AFDX_SMALL_BUFFER) return;
    uint8_t *lines = malloc(size);
    if (lines != NULL && afdx_explain(text, length, lines, size, &size) == AFDX_OK) fwrite(lines, 1, size, stderr);
    free(lines);
}

int open_tx(struct tx *tx, const uint8_t *text, size_t length) {
    uint8_t answer = afdx_open(&tx->end_system, text, length);
    if (answer == AFDX_OK) {
        answer = afdx_ports(&tx->end_system, tx->ids, AFDX_MOST_PORTS, &tx->count);
        for (size_t k = 0; k < tx->count && answer == AFDX_OK; k++)
            answer = afdx_port_of(&tx->end_system, tx->ids[k], &tx->ports[k]);
    }
    if (answer == AFDX_OK) return 0;
    if (answer == AFDX_MEMORY) {
        fprintf(stderr, "out of memory\n");
        return ENDS_BROKEN;
    }
    fprintf(stderr, "configuration refused: %d %s\n", answer, short_name(AFDX_CALL_OPEN, answer));
    explain(text, length);
    return ENDS_UNREAD;
}

void free_tx(struct tx *tx) {
    for (size_t k = 0; k < tx->count; k++) afdx_free_port(&tx->ports[k]);
    afdx_free(&tx->end_system);
}

uint8_t send_by(struct tx *tx, const struct command *command) {
    for (size_t k = 0; k < tx->count; k++)
        if (tx->ids[k] == command->says.id) return afdx_send(&tx->ports[k], command->message, command->says.length);
    return AFDX_NO_PORT;
}
