/* What the files of afdx_play share. */
#ifndef PLAY_H
#define PLAY_H

#include "afdx.h"

#include <stdbool.h>
#include <stdio.h>

/* How the player ends: as `afdx_bench run` does, or with 128 and the number of the signal that stopped it. */
enum { ENDS_WELL = 0, ENDS_UNREAD = 2, ENDS_REFUSED = 3, ENDS_BROKEN = 4, ENDS_STOPPED = 128 };

/* A line of the script that has an effect. */
struct command {
    size_t line; /* its number, from 1 */
    afdx_line says;
    uint8_t *message;
};

/* The lines of a script up to its end or to its first fault, and what ended it. */
struct script {
    struct command *commands;
    size_t count;
    size_t faulty; /* the number of the faulty line, or 0 */
    uint8_t fault;
    bool is_too_long; /* it has more lines than a script may have */
};

/* Reads a file; NULL, with a message, if that fails. */
uint8_t *read_file(const char *path, size_t *length);

/* Reads what is left of a stream; NULL if that fails, for the reason in errno, which is EFBIG for over 4 GiB. */
uint8_t *read_all(FILE *file, size_t *length);

/* Prints that something can't be read, and the reason, a value of errno as read_all has it. */
void tell_unread(const char *what, int error);

/* Reads the lines of a script's text. Returns how the player ends if there is no memory for them, or 0. */
int read_script(const uint8_t *text, size_t length, struct script *script);

/* Prints how the script of this name ended, if not at its end. Returns how the player ends, or 0. */
int tell_end(const struct script *script, const char *path);

/* The name that `afdx_bench` prints of an answer, as "TooLong" of AFDX_TOO_LONG. */
const char *short_name(afdx_call call, uint8_t answer);

/* The end system of a plan with all of its ports. */
struct tx {
    afdx_end_system end_system;
    afdx_port ports[AFDX_MOST_PORTS];
    uint16_t ids[AFDX_MOST_PORTS];
    size_t count;
};

/* Opens the end system of a plan's text, and takes its ports. Returns how the player ends if that fails, or 0. */
int open_tx(struct tx *tx, const uint8_t *text, size_t length);
void free_tx(struct tx *tx);

/* Sends a message. Returns the number of afdx_send, or AFDX_NO_PORT. */
uint8_t send_by(struct tx *tx, const struct command *command);

/* A frame, with the time of its poll. */
struct frame {
    uint64_t at;
    uint32_t faults; /* a bit for each fault that changes it */
    size_t length;
    uint8_t bytes[AFDX_GREATEST_FRAME];
};

enum fault_kind { LOSE, REPEAT, SWAP, NUMBER, EARLY, FLIP, DOWN };

/* A fault on purpose, in a frame of a network, which are counted from 1. */
struct fault {
    enum fault_kind kind;
    uint8_t network;
    uint64_t frame;
    uint64_t value;      /* of SWAP the other frame, of NUMBER the number, of EARLY microseconds, of FLIP the index */
    bool is_known, done; /* of EARLY: `own` is that frame; it was sent */
    struct frame own, other;
    const char *text;
};

enum { MOST_FAULTS = 16 };

struct faults {
    struct fault list[MOST_FAULTS];
    size_t count;
};

/* Reads a fault, as "lose A 100". Returns whether it is one, and prints the form of one if it isn't. */
bool read_fault(struct faults *faults, const char *text);

/* The first two faults that can't both be made, as a frame that isn't sent can't be changed. Returns whether there are
   any. */
bool find_clash(const struct faults *faults, const char **one, const char **other);

/* Whether a fault has to know frames before they are made. */
bool has_to_rehearse(const struct faults *faults);

/* Keeps a frame that a fault has to know. */
void learn(struct faults *faults, uint8_t network, uint64_t number, const struct frame *frame);

/* Puts the frame that swaps send in this place in place of the frame that is there. Returns its number. */
uint64_t exchange(const struct faults *faults, uint8_t network, uint64_t place, struct frame *frame);

/* Changes frame `number` of a network, which is sent in this place, as the other faults say. Returns how many times it is
   sent: 0, 1 or 2. Of a frame that isn't sent, `faults` has those that keep it back. */
int alter(const struct faults *faults, uint8_t network, uint64_t place, uint64_t number, struct frame *frame);

/* The next fault that sends a frame early, or NULL. */
struct fault *next_early(struct faults *faults);

/* The words of the command line. */
struct words {
    const char *plan, *script, *interfaces[2];
    const char *traffic, *seconds, *seed; /* in place of a script */
    uint64_t rounds;                      /* how many times the script is played; 0: until a signal */
    double speed;
    const char *capture;
    bool has_priority, as_written;
    struct faults faults;
};

/* Reads the words. Returns -1, or how the player ends at once. */
int read_words(int argc, char **argv, struct words *words);

/* Reads the text of the script, or has `afdx_bench schedule` make one of the traffic. Returns NULL, with a message and how the
   player ends, if that fails. */
uint8_t *read_text(const struct words *words, size_t *length, int *ends);

/* The name of the script in messages: its path, or the command that makes it. */
const char *script_name(const struct words *words);

/* Prints that something can't be written, and the reason, a value of errno. */
void tell_unwritten(const char *what, int error);

/* Writes what is left of the standard output. Returns whether all of it was written, and prints the reason if it wasn't. */
bool end_output(void);

/* A capture: pcapng with nanoseconds. */
struct capture {
    FILE *file; /* NULL if nothing is captured */
    const char *path;
    int error; /* the value of errno at the first write that failed, or 0 */
};

/* Makes the file of a capture. Returns whether it could. */
bool open_capture(struct capture *capture, const char *path);
void add_packet(struct capture *capture, uint8_t network, uint64_t nanos, const uint8_t *bytes, size_t length);

/* Writes what is left of a capture. Returns whether all of it was written, and prints the reason if it wasn't. */
bool close_capture(struct capture *capture);

/* What an interface has counted: frames sent, frames dropped and frames not sent for an error, each modulo 2^32. */
struct counters {
    uint32_t sent, dropped, errors;
};

enum { LINKS = UINT16_MAX + 1, LAST_FRAMES = 1 << 16 };

/* The times at which the kernel gave frames to an interface, in nanoseconds. */
struct stamps {
    bool are_asked;                     /* the kernel tells times */
    uint64_t count;                     /* how many it told */
    uint16_t links[LAST_FRAMES];        /* the link of each of the last frames, by its number from 0 */
    uint64_t last[LINKS], least[LINKS]; /* of each link: the last time, and the least gap; 0 if there is none */
};

/* A network: an interface, and the frames that it took. */
struct network {
    uint8_t which;
    const char *interface;
    int socket;
    bool failed;
    uint64_t made, taken;
    uint32_t faults; /* a bit for each fault that was made */
    bool has_counters;
    struct counters before;
    struct stamps stamps;
};

/* Nanoseconds of the monotonic clock. */
uint64_t nanos_now(void);

/* Opens a packet socket on the interface. Returns whether it could. */
bool open_network(struct network *network);

/* Writes the frames to the interface, which fails if it doesn't take one, and those that it took to the capture, with
   the present time and `offset` nanoseconds. */
void transmit(struct network *network, struct frame *frames, size_t count, struct capture *capture, uint64_t offset);

/* Asks the kernel to tell when it gives a socket's frames to the interface. Returns whether it will. */
bool ask_for_stamps(int socket);

/* Notes the link of frame `number`, before it is sent. */
void number_frame(struct stamps *stamps, uint64_t number, const struct frame *frame);

/* Reads the times that the kernel has told since the last call. */
void read_stamps(struct network *network);

/* Reads what an interface has counted. Returns whether it could. */
bool read_counters(const char *interface, struct counters *counters);

/* Waits up to a tenth of a second for the last times of an interface, and up to two seconds while it has counted too few
   frames. Returns how many of the frames that it took it didn't send, by its counters, and how far these went. */
uint64_t find_losses(struct network *network, struct counters *counted);

/* A link's BAG, the time of the last poll that made a frame of it, and a time at which the interfaces had that frame, in the
 * script's microseconds. */
struct sent {
    uint64_t bag, polled, gone;
};

/* Finds the BAG of each link with a port, by an end system of its own. Links are the places in `sent`. Returns how the player
 * ends if that fails, or 0. */
int find_bags(struct sent *sent, const uint8_t *text, size_t length);

/* Notes that the interfaces have these frames of a poll by the time `gone`. */
void note_sent(struct sent *sent, const struct frame *frames, size_t count, uint64_t gone);

/* The least time from `at` on, or one after it, at which no link is due whose gap a poll would make short on the wire. The library
 * counts a BAG from the time of a poll, and the interfaces have its frames somewhat later. */
uint64_t clear_time(const struct sent *sent, const uint16_t *links, size_t count, uint64_t at);

/* How many polls' frames were sent how late, in microseconds rounded up. Those of a second and more count together, with the
 * greatest of all in nanoseconds. A run may last for days, so single polls aren't kept. */
enum { MICROS = 1000000 };
struct lateness {
    uint64_t polls[MICROS + 1], greatest;
};

/* A run: the time of its start, the times of the script's first `at`, of the last one obeyed and of the last poll, how much
 * later than written the present round is, and how late frames were sent, `pending` those of the next poll in nanoseconds.
 * Frames that a fault sends early count with the poll after them. */
struct play {
    struct tx tx;
    struct script script;
    struct network networks[2];
    struct capture capture;
    struct words words;
    uint64_t begun, offset, first, asked, last, shift;
    uint16_t links[AFDX_MOST_LINKS];
    size_t link_count;
    struct sent sent[LINKS];
    struct lateness late;
    uint64_t pending, polls;
    size_t refused;
};

/* Prints what was sent, and how late. Returns how the player ends for it, with lost frames or faults that weren't made, or 0. */
int tell(struct play *play);

#endif
