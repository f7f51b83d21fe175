/* Plays a script by the clock: the proved AFDX end system of a plan over two network interfaces.

       afdx_play PLAN SCRIPT INTERFACE_A INTERFACE_B [--as-written] [--speed X] [--repeat N] [--capture FILE]
                 [--fault TEXT].. [--priority]
       afdx_play PLAN INTERFACE_A INTERFACE_B --traffic CSV --seconds N [--seed N] ..

   docs/guide/player.md says what it prints, how it ends, and what a fault on purpose is. */
#define _GNU_SOURCE
#include "play.h"

#include <errno.h>
#include <fcntl.h>
#include <inttypes.h>
#include <sched.h>
#include <signal.h>
#include <stdlib.h>
#include <string.h>
#include <sys/mman.h>
#include <sys/prctl.h>
#include <sys/stat.h>
#include <time.h>
#include <unistd.h>

/* The number of the signal that stops the run, or 0. */
static volatile sig_atomic_t stopped_by;

static void stop(int signal_number) { stopped_by = signal_number; }

/* The script's time by the clock, in microseconds: not before the last poll. */
static uint64_t micros_now(const struct play *play) {
    uint64_t now = nanos_now(), gone = now < play->begun ? 0 : now - play->begun;
    long double micros = (long double)gone * (long double)play->words.speed / 1000;
    uint64_t at = micros < (long double)(UINT64_MAX - play->first) ? play->first + (uint64_t)micros : UINT64_MAX;
    return at > play->last ? at : play->last;
}

/* The number of nanoseconds from the start to a time of the script. */
static uint64_t nanos_of(const struct play *play, uint64_t at) {
    if (at <= play->first) return 0;
    long double nanos = (long double)(at - play->first) * 1000 / (long double)play->words.speed;
    return nanos < 9e18L ? (uint64_t)nanos : UINT64_MAX / 2;
}

/* Sleeps until so many nanoseconds after the start. Returns whether it did. */
static bool sleep_until(const struct play *play, uint64_t nanos) {
    uint64_t until = play->begun + nanos;
    struct timespec time = {.tv_sec = (time_t)(until / 1000000000), .tv_nsec = (long)(until % 1000000000)};
    while (stopped_by == 0 && clock_nanosleep(CLOCK_MONOTONIC, TIMER_ABSTIME, &time, NULL) == EINTR) continue;
    return stopped_by == 0;
}

/* Notes that frames of the next poll, or early ones before it, have been sent, which were due at a script's time. */
static void note_lateness(struct play *play, uint64_t at) {
    uint64_t now = nanos_now(), due = play->begun + nanos_of(play, at);
    if (now > due && now - due > play->pending) play->pending = now - due;
    if (play->pending > play->late.greatest) play->late.greatest = play->pending;
}

/* Counts a poll by how late its frames were sent. */
static void count_poll(struct play *play) {
    uint64_t micros = (play->pending + 999) / 1000;
    play->late.polls[micros < MICROS ? micros : MICROS]++;
    play->pending = 0;
    play->polls++;
}

/* Sends the frames that are sent early, of those that come before a time. */
static void send_early(struct play *play, uint64_t before) {
    struct fault *early;
    while ((early = next_early(&play->words.faults)) != NULL) {
        uint64_t at = early->own.at < early->value ? 0 : early->own.at - early->value;
        if (at > before || !sleep_until(play, nanos_of(play, at))) return;
        struct frame frames[2] = {early->own};
        frames[0].faults = 1U << (early - play->words.faults.list);
        int times = alter(&play->words.faults, early->network, early->frame, early->frame, &frames[0]);
        frames[1] = frames[0];
        early->done = true;
        transmit(&play->networks[early->network], frames, (size_t)times, &play->capture, play->offset);
        note_lateness(play, at);
    }
}

/* Copies the frames of a poll for a network, changed by the faults. Returns how many are to be sent. */
static size_t take_frames(struct play *play, struct network *network, uint64_t at, struct frame *frames) {
    size_t made = 0, count = 0;
    if (afdx_frames(&play->tx.end_system, network->which, &made) != AFDX_OK) return 0;
    for (size_t k = 0; k < made; k++) {
        struct frame *frame = &frames[count];
        if (afdx_frame(&play->tx.end_system, network->which, k, frame->bytes, sizeof frame->bytes, &frame->length) != AFDX_OK) return count;
        frame->at = at;
        frame->faults = 0;
        uint64_t place = ++network->made, number = exchange(&play->words.faults, network->which, place, frame);
        int times = alter(&play->words.faults, network->which, place, number, frame);
        if (times == 0) network->faults |= frame->faults;
        if (times == 2) frames[count + 1] = *frame;
        count += (size_t)times;
    }
    return count;
}

/* Waits until a poll may come that is due: by the clock until it makes no gap short. Returns its time. */
static uint64_t wait_for_poll(const struct play *play, uint64_t due) {
    uint64_t at = due;
    bool is_clear = !sleep_until(play, nanos_of(play, due)) || play->words.as_written;
    while (!is_clear) {
        uint64_t now = micros_now(play);
        at = clear_time(play->sent, play->links, play->link_count, now > at ? now : at);
        is_clear = at <= micros_now(play) || !sleep_until(play, nanos_of(play, at));
    }
    return at;
}

/* Polls once that a time has come, and sends the frames. Returns the number of afdx_poll. */
static uint8_t poll_at(struct play *play, uint64_t due) {
    static struct frame frames[2][2 * AFDX_MOST_FRAMES];
    size_t counts[2];
    uint8_t standing = 0;
    send_early(play, due);
    uint64_t at = wait_for_poll(play, due);
    if (stopped_by != 0) return AFDX_OK;
    uint8_t answer = afdx_poll(&play->tx.end_system, at, &standing);
    if (answer != AFDX_OK) return answer;
    play->last = at;
    for (int n = 0; n < 2; n++) {
        struct network *network = &play->networks[n];
        counts[n] = take_frames(play, network, at, frames[n]);
        transmit(network, frames[n], counts[n], &play->capture, play->offset);
        if (network->failed) afdx_fail(&play->tx.end_system, network->which);
    }
    /* (the present time in whole microseconds, rounded up) */
    for (int n = 0; n < 2; n++) note_sent(play->sent, frames[n], counts[n], micros_now(play) + 1);
    note_lateness(play, due);
    count_poll(play);
    return AFDX_OK;
}

/* Sleeps until a time of the script. By the clock, polls whenever a link becomes due before that. Returns the number of the
 * last poll. */
static uint8_t serve_until(struct play *play, uint64_t at) {
    uint8_t answer = AFDX_OK;
    uint64_t due = AFDX_NEVER;
    while (answer == AFDX_OK && stopped_by == 0 && afdx_next_due(&play->tx.end_system, &due) == AFDX_OK && due < at)
        answer = poll_at(play, due);
    if (answer == AFDX_OK) sleep_until(play, nanos_of(play, at));
    return answer;
}

/* The time of an `at` in the present round. */
static uint64_t time_of(const struct play *play, const struct command *at) {
    return at->says.at <= UINT64_MAX - play->shift ? at->says.at + play->shift : UINT64_MAX;
}

/* The time of the first `at` from a line of the script on; 0 if none follows. */
static uint64_t next_at(const struct play *play, size_t k) {
    const struct script *script = &play->script;
    while (k < script->count && script->commands[k].says.kind != AFDX_SAYS_AT) k++;
    return k < script->count ? time_of(play, &script->commands[k]) : 0;
}

/* Polls for an `at`. Returns the number of afdx_poll. */
static uint8_t obey_at(struct play *play, uint64_t at) {
    /* (by the clock, polls are later than the script's times, so the library can't tell that these go back) */
    if (!play->words.as_written && at < play->asked) return AFDX_TIME_BACK;
    uint8_t answer = play->words.as_written ? AFDX_OK : serve_until(play, at);
    if (answer == AFDX_OK) answer = poll_at(play, at);
    if (answer == AFDX_OK) play->asked = at;
    return answer;
}

/* Obeys a line, by the clock at the time of the next `at`, and prints its note. Returns how the run ends, or 0. */
static int obey(struct play *play, size_t k) {
    const struct command *command = &play->script.commands[k];
    const afdx_line *says = &command->says;
    uint64_t total = 0;
    uint8_t answer = AFDX_OK;
    if (says->kind == AFDX_SAYS_AT) answer = obey_at(play, time_of(play, command));
    else if (!play->words.as_written) answer = serve_until(play, next_at(play, k));
    if (answer == AFDX_BOTH_DOWN) return ENDS_BROKEN;
    if (stopped_by != 0) return 0;
    if (says->kind == AFDX_SAYS_SEND) answer = send_by(&play->tx, command);
    if (says->kind == AFDX_SAYS_CLOSE) answer = afdx_close(&play->tx.end_system, says->id, says->sub, &total);
    if (answer != AFDX_OK) {
        printf("line %zu: refused %s\n", command->line, short_name(says->kind == AFDX_SAYS_SEND ? AFDX_CALL_SEND : AFDX_CALL_OTHER, answer));
        play->refused++;
    } else if (says->kind == AFDX_SAYS_CLOSE) {
        printf("line %zu: closed %" PRIu64 "\n", command->line, total);
    }
    return 0;
}

/* Finds the frames that faults have to know: plays the script without the clock and the networks. */
static int rehearse(struct play *play, const uint8_t *text, size_t length) {
    static struct tx tx;
    static struct frame frame;
    uint64_t made[2] = {0, 0}, total = 0;
    int failed = open_tx(&tx, text, length);
    for (size_t k = 0; k < play->script.count && !failed; k++) {
        const struct command *command = &play->script.commands[k];
        uint8_t standing = 0;
        if (command->says.kind == AFDX_SAYS_SEND) (void)send_by(&tx, command);
        if (command->says.kind == AFDX_SAYS_CLOSE) afdx_close(&tx.end_system, command->says.id, command->says.sub, &total);
        if (command->says.kind != AFDX_SAYS_AT || afdx_poll(&tx.end_system, command->says.at, &standing) != AFDX_OK) continue;
        frame.at = command->says.at;
        for (uint8_t n = 0; n < 2; n++)
            for (size_t i = 0; afdx_frame(&tx.end_system, n, i, frame.bytes, sizeof frame.bytes, &frame.length) == AFDX_OK; i++)
                learn(&play->words.faults, n, ++made[n], &frame);
    }
    free_tx(&tx);
    return failed;
}

/* Asks for a time slice before all others, and for memory that stays. */
static void ask_for_priority(void) {
    struct sched_param most = {.sched_priority = sched_get_priority_max(SCHED_FIFO) / 2};
    if (mlockall(MCL_CURRENT | MCL_FUTURE) != 0) perror("--priority: memory isn't locked");
    if (sched_setscheduler(0, SCHED_FIFO, &most) != 0) perror("--priority: no SCHED_FIFO");
}

/* Whether a file is one of the two that are read. */
static bool is_read(const struct words *words) {
    struct stat one, other;
    const char *read[] = {words->plan, words->script == NULL ? words->traffic : words->script};
    if (words->capture == NULL || stat(words->capture, &one) != 0) return false;
    for (int k = 0; k < 2; k++)
        if (stat(read[k], &other) == 0 && one.st_dev == other.st_dev && one.st_ino == other.st_ino) return true;
    return false;
}

/* Opens the end system, reads the script, and plays it without the clock if a fault has to know frames. Returns how the player
 * ends if that fails, or 0. */
static int read_all_texts(struct play *play) {
    size_t length = 0, script_length = 0;
    uint8_t *text = read_file(play->words.plan, &length), *script = NULL;
    if (text == NULL) return ENDS_BROKEN;
    int failed = open_tx(&play->tx, text, length);
    if (!failed) script = read_text(&play->words, &script_length, &failed);
    if (script != NULL) failed = read_script(script, script_length, &play->script);
    if (!failed && has_to_rehearse(&play->words.faults)) failed = rehearse(play, text, length);
    if (!failed && !play->words.as_written) failed = find_bags(play->sent, text, length);
    free(script);
    free(text);
    return failed;
}

/* Opens all. Returns how the player ends if that fails, or 0. */
static int prepare(struct play *play) {
    int failed = read_all_texts(play);
    if (failed) return failed;
    if (is_read(&play->words)) {
        fprintf(stderr, "write failed\n%s: the command reads this file, so name another\n", play->words.capture);
        return ENDS_BROKEN;
    }
    for (int n = 0; n < 2; n++) {
        play->networks[n].which = (uint8_t)n;
        play->networks[n].interface = play->words.interfaces[n];
        if (!open_network(&play->networks[n])) return ENDS_BROKEN;
    }
    return play->words.capture == NULL || open_capture(&play->capture, play->words.capture) ? 0 : ENDS_BROKEN;
}

/* Obeys the script, again and again if that is wanted. Returns how the run ends, or 0. */
static int run_rounds(struct play *play) {
    /* (one with a fault ends there, and one whose times don't go on would never end) */
    bool is_whole = play->script.faulty == 0 && !play->script.is_too_long;
    for (uint64_t round = 1; stopped_by == 0; round++) {
        for (size_t k = 0; k < play->script.count && stopped_by == 0; k++) {
            int ends = obey(play, k);
            if (ends != 0) return ends;
        }
        play->shift = play->asked - play->first;
        if (!is_whole || play->shift == 0 || round == play->words.rounds) return 0;
    }
    return 0;
}

/* Runs the script. Returns how that ends. */
static int run(struct play *play) {
    const struct sigaction action = {.sa_handler = stop};
    sigaction(SIGINT, &action, NULL);
    sigaction(SIGTERM, &action, NULL);
    prctl(PR_SET_TIMERSLACK, 1UL, 0UL, 0UL, 0UL);
    if (play->words.has_priority) ask_for_priority();
    for (size_t k = play->script.count; k > 0; k--)
        if (play->script.commands[k - 1].says.kind == AFDX_SAYS_AT) play->first = play->last = play->script.commands[k - 1].says.at;
    afdx_links(&play->tx.end_system, play->links, AFDX_MOST_LINKS, &play->link_count);
    setvbuf(stdout, NULL, _IOFBF, BUFSIZ * 8);
    struct timespec day;
    clock_gettime(CLOCK_REALTIME, &day);
    play->begun = nanos_now();
    play->offset = (uint64_t)day.tv_sec * 1000000000 + (uint64_t)day.tv_nsec - play->begun;
    play->begun += 10000000; /* (the first poll's time has to come) */
    int ends = run_rounds(play);
    if (ends != 0) return ends;
    send_early(play, UINT64_MAX);
    return stopped_by == 0 ? 0 : ENDS_STOPPED + stopped_by;
}

static void let_go(struct play *play) {
    for (size_t k = 0; k < play->script.count; k++) free(play->script.commands[k].message);
    free(play->script.commands);
    free_tx(&play->tx);
    for (int n = 0; n < 2; n++)
        if (play->networks[n].interface != NULL && play->networks[n].socket >= 0) close(play->networks[n].socket);
}

/* Opens standard streams that are closed, so that no socket or file takes their place: neither can be read or written. */
static void hold_streams(void) {
    static const int ways[] = {O_WRONLY, O_RDONLY, O_RDONLY};
    for (int k = 0; k < 3; k++)
        if (fcntl(k, F_GETFD) == -1 && open("/dev/null", ways[k]) != k) _exit(ENDS_BROKEN);
}

int main(int argc, char **argv) {
    static struct play play;
    hold_streams();
    play.words.speed = 1;
    play.words.rounds = 1;
    play.networks[AFDX_A].socket = play.networks[AFDX_B].socket = -1;
    int ends = read_words(argc, argv, &play.words);
    if (ends >= 0) return ends;
    ends = prepare(&play);
    bool is_ready = ends == 0;
    if (is_ready) {
        ends = run(&play);
        int told = tell(&play);
        if (ends == 0) ends = play.networks[0].failed || play.networks[1].failed ? ENDS_BROKEN : tell_end(&play.script, script_name(&play.words));
        if (ends == 0) ends = told;
        if (ends == 0 && play.refused > 0) ends = ENDS_REFUSED;
    }
    bool is_kept = close_capture(&play.capture), is_told = end_output();
    let_go(&play);
    return is_kept && is_told ? ends : ENDS_BROKEN;
}
