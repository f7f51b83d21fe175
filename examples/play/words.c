/* The words of the command line of afdx_play. */
#define _GNU_SOURCE
#include "play.h"

#include <errno.h>
#include <stdlib.h>
#include <string.h>
#include <sys/wait.h>
#include <unistd.h>

static const char USAGE[] =
    "usage: afdx_play PLAN SCRIPT INTERFACE_A INTERFACE_B [--as-written] [--speed X] [--repeat N] [--capture FILE]\n"
    "                 [--fault TEXT].. [--priority]\n"
    "       afdx_play PLAN INTERFACE_A INTERFACE_B --traffic CSV --seconds N [--seed N] ..\n";
static const char HELP[] =
    "\n"
    "Plays a script (as afdx_bench run) by the clock, over two network interfaces. It needs the right to open packet\n"
    "sockets. At the time of each `at` it sends the messages before it. It polls then, and whenever a link becomes due, with\n"
    "the present time: a late player sends late, and never catches up.\n"
    "\n"
    "  --traffic CSV   plays the script that afdx_bench schedule makes of these periods; --seconds N is its length, and\n"
    "                  --seed N chooses the times at which the ports begin\n"
    "  --as-written    polls at each `at` alone and with its time, as afdx_bench run: a late player then sends frames of a\n"
    "                  link too close together\n"
    "  --speed X       plays X times as fast: 0.001 to 1000\n"
    "  --repeat N      plays the script N times, each from the last time of the one before; 0: until a signal\n"
    "  --capture FILE  records what the interfaces took: pcapng with nanoseconds\n"
    "  --priority      locks memory and asks for SCHED_FIFO\n"
    "  --fault TEXT    injects a fault into the frames after the library made them; may be given several times. Frames of\n"
    "                  a network count from 1:\n"
    "                    lose A 100        doesn't send frame 100 of network A\n"
    "                    repeat B 7        sends frame 7 of network B twice\n"
    "                    swap A 5 6        exchanges frames 5 and 6\n"
    "                    number A 9 200    gives frame 9 the sequence number 200\n"
    "                    early A 12 300    sends frame 12 300 microseconds early\n"
    "                    flip B 20 1a      inverts the byte at index 1a (hexadecimal) of frame 20\n"
    "                    down A 1000       sends neither frame 1000 nor any after it\n"
    "                  With swap and early, whose frames have to be known before, the run is as written. Two faults of\n"
    "                  which one keeps the other from being made are refused\n";

/* The name of the way to afdx_bench in messages. */
static const char PIPE[] = "a pipe to afdx_bench";

/* Where a word with a value keeps it, or NULL if it isn't one that keeps its text. */
static const char **text_of(struct words *words, const char *word) {
    if (strcmp(word, "--capture") == 0) return &words->capture;
    if (strcmp(word, "--traffic") == 0) return &words->traffic;
    if (strcmp(word, "--seconds") == 0) return &words->seconds;
    return strcmp(word, "--seed") == 0 ? &words->seed : NULL;
}

/* Reads the value of --speed, --repeat or --fault. Returns whether it is right, and prints what is wanted if it isn't. */
static bool read_value(struct words *words, const char *word, const char *value) {
    char *end = NULL;
    const char *wanted = "a number from 0.001 to 1000";
    if (strcmp(word, "--fault") == 0) return read_fault(&words->faults, value);
    if (strcmp(word, "--speed") == 0) {
        words->speed = strtod(value, &end);
        if (end != value && *end == '\0' && words->speed >= 0.001 && words->speed <= 1000) return true;
    } else {
        wanted = "a whole number from 0 to 18446744073709551615";
        errno = 0;
        words->rounds = strtoull(value, &end, 10);
        if (*value >= '0' && *value <= '9' && *end == '\0' && errno == 0) return true;
    }
    fprintf(stderr, "%s: %s is wanted, and \"%s\" is seen\n", word, wanted, value);
    return false;
}

/* Reads an option; `value` is the word after it, or NULL. Returns how many words are read, or 0, with a message, if one of
 * them is wrong. */
static int read_option(struct words *words, const char *word, const char *value) {
    const char **text = text_of(words, word);
    bool is_priority = strcmp(word, "--priority") == 0, is_as_written = strcmp(word, "--as-written") == 0;
    words->has_priority |= is_priority;
    words->as_written |= is_as_written;
    if (is_priority || is_as_written) return 1;
    if (text == NULL && strcmp(word, "--speed") != 0 && strcmp(word, "--repeat") != 0 && strcmp(word, "--fault") != 0) {
        fprintf(stderr, "%s: afdx_play has no such option\n", word);
        return 0;
    }
    if (value == NULL) {
        fprintf(stderr, "%s: a value is missing\n", word);
        return 0;
    }
    if (text == NULL) return read_value(words, word, value) ? 2 : 0;
    *text = value;
    return 2;
}

/* Gives the words that are no options their meaning. Returns whether they are as many as are wanted, and prints how many are
 * if they aren't. */
static bool place_words(struct words *words, const char *const *paths, size_t count) {
    size_t k = 0;
    bool is_made = words->traffic != NULL;
    if (!is_made && (words->seconds != NULL || words->seed != NULL)) {
        fprintf(stderr, "%s needs --traffic\n", words->seconds != NULL ? "--seconds" : "--seed");
        return false;
    }
    if (is_made && words->seconds == NULL) {
        fprintf(stderr, "--traffic needs --seconds\n");
        return false;
    }
    if (count != (is_made ? 3U : 4U)) {
        const char *wanted = is_made ? "with --traffic, PLAN and two interfaces" : "PLAN, SCRIPT and two interfaces";
        fprintf(stderr, "%s are wanted, and %zu %s seen\n", wanted, count, count == 1 ? "word is" : "words are");
        return false;
    }
    words->plan = paths[k++];
    if (!is_made) words->script = paths[k++];
    words->interfaces[0] = paths[k++];
    words->interfaces[1] = paths[k];
    return true;
}

/* Prints what was asked for. Returns how the player ends. */
static int answer(const char *text, const char *more) {
    printf("%s%s", text, more);
    return end_output() ? ENDS_WELL : ENDS_BROKEN;
}

int read_words(int argc, char **argv, struct words *words) {
    const char *paths[4] = {NULL, NULL, NULL, NULL}, *one, *other;
    size_t count = 0;
    bool is_right = true;
    for (int k = 1; k < argc && is_right;) {
        const char *word = argv[k];
        if (strcmp(word, "--help") == 0) return answer(USAGE, HELP);
        if (strcmp(word, "--version") == 0) return answer("afdx_play " AFDX_VERSION, "\n");
        int taken = word[0] == '-' ? read_option(words, word, argv[k + 1]) : 1;
        if (word[0] != '-' && count++ < 4) paths[count - 1] = word;
        is_right = taken > 0;
        k += taken;
    }
    words->as_written |= has_to_rehearse(&words->faults);
    if (is_right && find_clash(&words->faults, &one, &other)) {
        fprintf(stderr, "--fault %s: with `%s` it can't be made\n", other, one);
        is_right = false;
    }
    if (is_right && place_words(words, paths, count)) return -1;
    fputs(USAGE, stderr);
    return ENDS_UNREAD;
}

/* Becomes `afdx_bench schedule`: the program beside this one, or else on the PATH. */
static void become_schedule(const struct words *words, int out) {
    char path[4096] = "";
    const char *command[] = {"afdx_bench", "schedule", words->plan, "--traffic", words->traffic, "--seconds", words->seconds,
                             words->seed == NULL ? NULL : "--seed", words->seed, NULL};
    ssize_t length = readlink("/proc/self/exe", path, sizeof path - sizeof "afdx_bench");
    char *name = length < 0 ? NULL : strrchr(path, '/');
    if (dup2(out, STDOUT_FILENO) < 0) {
        tell_unread(PIPE, errno);
        _exit(ENDS_BROKEN);
    }
    if (name != NULL) {
        strcpy(name + 1, "afdx_bench");
        execv(path, (char *const *)command);
    }
    execvp("afdx_bench", (char *const *)command);
    if (errno == ENOENT) fprintf(stderr, "read failed\nafdx_bench is neither beside afdx_play nor on the PATH\n");
    else tell_unread("afdx_bench", errno);
    _exit(ENDS_BROKEN);
}

const char *script_name(const struct words *words) { return words->script != NULL ? words->script : "afdx_bench schedule"; }

uint8_t *read_text(const struct words *words, size_t *length, int *ends) {
    int ways[2], status = 0;
    *ends = ENDS_BROKEN;
    if (words->script != NULL) return read_file(words->script, length);
    if (pipe(ways) != 0) return tell_unread(PIPE, errno), NULL;
    pid_t child = fork();
    if (child < 0) return tell_unread("a process for afdx_bench", errno), NULL;
    if (child == 0) become_schedule(words, ways[1]);
    close(ways[1]);
    FILE *file = fdopen(ways[0], "rb");
    uint8_t *text = file == NULL ? NULL : read_all(file, length);
    if (text == NULL) tell_unread(file == NULL ? PIPE : script_name(words), errno);
    if (file != NULL) fclose(file);
    bool is_ended = waitpid(child, &status, 0) == child, is_made = is_ended && WIFEXITED(status) && WEXITSTATUS(status) == 0;
    if (is_made) return text;
    if (is_ended && WIFEXITED(status)) *ends = WEXITSTATUS(status);
    else if (text != NULL) fprintf(stderr, "read failed\n%s: signal %d ended it\n", script_name(words), WTERMSIG(status));
    free(text);
    return NULL;
}
