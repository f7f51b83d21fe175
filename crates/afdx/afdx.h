/** @file
   The proved transmitting AFDX end system (ARINC 664 Part 7), for C99 and later and for C++.

   Build: cc program.c $(pkg-config --cflags --libs afdx), after `bash install/install.sh PREFIX`.

   An end system is opened from the text or the table of a plan. Each of its ports may be moved to a thread of its own,
   which sends. One thread polls with the present time and then copies out the frames of that poll, for network A and
   for network B, from the destination MAC address to the sequence number, without the frame check sequence. Once each
   port that was taken is given back, afdx_gather begins to drain: later polls transmit what is left, and afdx_is_done
   says whether all of it was transmitted.

   Every call returns 0 or a number below. After any other number than 0 nothing has changed except as stated with
   the call. The numbers of a call are in the order in which it checks them, and the first that applies is returned.
   A call that may return AFDX_MEMORY may return it in place of any other.

   The caller must keep these rules, which no call can check:
   - A handle is all zeroes before it is first passed to afdx_open or afdx_port_of, and only calls change it. Where
     it is moved, as a struct that is returned or assigned, the old one is not used again. A call sees only the bytes
     of a handle: a copy of a freed one looks like one in use, and points to memory that is gone. C++ and Python have
     handles that can't be copied.
   - One call at a time uses a handle, also if it takes a pointer to const. Different threads may use different handles
     at the same time. A handle moves from one thread to another as any data does, by a lock or by a thread's start or
     end.
   - A pointer leads to as many bytes as the call states, and may be NULL only for 0 bytes. Nobody else writes there
     during the call. What is written lies apart from what is read and from everything else that is written.
   - The two handles of one call are different.
   - Memory comes from rattle_alloc, rattle_realloc and rattle_dealloc. libafdx.a and libafdx.so have these three over malloc,
     realloc and free, which come from one allocator; a program that links libafdx_core.a defines them itself, as
     docs/guide/c.md says.
   - No call is made from a signal handler or an interrupt, or in the forked child of a process with threads.
   - The stack has room: 4 KB for the library, and what rattle_alloc takes; AFDX_TEXT_STACK bytes for a call that reads
     a text, and 20 KB for afdx_capture_lost.
   A call that takes a pointer to const for a handle changes neither the handle nor the end system or port in it.
   afdx_script_line, afdx_explain, afdx_memory and afdx_version_number take no handle, and may be called by any thread.

   Calls detect, and report by their numbers: a call after afdx_free, a port that is taken twice, a port of another
   end system, a time that goes back, an unknown identifier, and a buffer that is too small. */
#ifndef AFDX_H
#define AFDX_H /**< this header is included */
#include <stddef.h>
#include <stdint.h>

#ifdef __cplusplus
extern "C" {
#endif

/** The version of this header and of the library installed with it. The first number changes with incompatible
   changes, and libafdx.so.2 is named by it; the second with calls, structs or numbers that are added. */
#define AFDX_VERSION "2.1.0"
#define AFDX_VERSION_MAJOR 2 /**< its first number */
#define AFDX_VERSION_MINOR 1 /**< its second number */
#define AFDX_VERSION_PATCH 0 /**< its third number */
/** All three as one number, as afdx_version_number returns those of the library. */
#define AFDX_VERSION_NUMBER (10000 * AFDX_VERSION_MAJOR + 100 * AFDX_VERSION_MINOR + AFDX_VERSION_PATCH)

/** An end system: sending while its ports are out, or draining after it has gathered them. {0} is one that isn't
   open, in C++ {}. */
typedef struct {
    void *at;      /**< the library's */
    uint8_t held;  /**< the library's */
    uint64_t mark; /**< which end system it is: no other has this number while it or one of its ports exists */
} afdx_end_system;

/** A port of an end system. {0} is none, in C++ {}. */
typedef struct {
    void *at;      /**< the library's */
    uint8_t held;  /**< the library's */
    uint64_t mark; /**< that of its end system */
} afdx_port;

/** The counts of a virtual link. */
typedef struct {
    uint64_t frames;   /**< accepted by at least one network */
    uint64_t bytes;    /**< the sum of their lengths */
    uint64_t messages; /**< those whose last frame is among them */
    uint64_t last;     /**< the time of the last frame in microseconds, 0 before the first */
} afdx_counts;

/** What a frame carries. */
typedef struct {
    uint16_t vl;    /**< the identifier of its virtual link */
    uint8_t sub;    /**< its sub-VL, from 0 */
    uint8_t number; /**< its sequence number */
} afdx_released;

/** What a line of a script says. A field that the line doesn't need is 0. */
typedef struct {
    uint8_t kind;  /**< AFDX_SAYS_NOTHING, AFDX_SAYS_SEND, AFDX_SAYS_AT or AFDX_SAYS_CLOSE */
    uint8_t sub;   /**< the sub-VL to close */
    uint16_t id;   /**< the port that sends, or the virtual link whose sub-VL is to be closed */
    uint64_t at;   /**< the time of a poll in microseconds */
    size_t length; /**< the length of the message in bytes */
} afdx_line;

/** What a line says. */
enum { AFDX_SAYS_NOTHING = 0, AFDX_SAYS_SEND = 1, AFDX_SAYS_AT = 2, AFDX_SAYS_CLOSE = 3 };

/** The networks. */
enum { AFDX_A = 0, AFDX_B = 1 };

/** Which networks are up, as the bits that afdx_poll writes. */
enum { AFDX_A_STANDS = 1, AFDX_B_STANDS = 2 };

/** The greatest frame in bytes, and the most frames that one poll makes for a network: one per virtual link. */
enum { AFDX_GREATEST_FRAME = 1514, AFDX_MOST_FRAMES = 64 };

#define AFDX_MOST_LINKS 64  /**< the most virtual links of a plan */
#define AFDX_MOST_PORTS 256 /**< the most ports of a plan */

/** The bytes of stack that a thread needs to read the text of a plan from an untrusted source: afdx_open, afdx_explain,
   afdx_judge and afdx_judge_pair go as deep as the text nests. The worst text that a search found takes 2.3 MB; the text of a
   valid plan takes less than 16 KB. afdx_capture_lost takes at most 20 KB, and all other calls at most 4 KB
   (docs/guide/embedding.md). */
#define AFDX_TEXT_STACK 4194304

/** Success of any call. */
enum { AFDX_OK = 0 };

/** Why afdx_open refuses a plan: the fault with the least number, as docs/guide/plan.md lists them. */
enum {
    AFDX_CONFIG_TOML = 1,
    AFDX_CONFIG_MISSING_KEY = 2,
    AFDX_CONFIG_UNKNOWN_KEY = 3,
    AFDX_CONFIG_WRONG_KIND = 4,
    AFDX_CONFIG_OUT_OF_RANGE = 5,
    AFDX_CONFIG_BAD_BAG = 6,
    AFDX_CONFIG_DUPLICATE_VL = 7,
    AFDX_CONFIG_DUPLICATE_PORT = 8,
    AFDX_CONFIG_NO_SUCH_VL = 9,
    AFDX_CONFIG_NO_SUCH_SUB = 10,
    AFDX_CONFIG_SAMPLING_TOO_LONG = 11,
    AFDX_CONFIG_SAME_FLOW = 12,
    AFDX_CONFIG_SHARED_UNICAST = 13,
    AFDX_CONFIG_LIMIT = 14,
    AFDX_MEMORY = 15 /**< an allocation failed */
};

/** Why afdx_open_table refuses a table, beside the faults of plans: the least number of these counts. */
enum {
    AFDX_NO_TABLE = 16,   /**< the bytes don't begin as a table does */
    AFDX_OTHER_LAYOUT = 17, /**< the table has another version of the layout */
    AFDX_WRONG_LENGTH = 18, /**< the bytes are more or fewer than its numbers of links and of ports want */
    AFDX_WRONG_SUM = 19,    /**< the check isn't that of the bytes before it */
    AFDX_WRONG_VALUE = 20   /**< a number is none that the table of a plan has there */
};

/** Why afdx_send refuses a message. */
enum {
    AFDX_EMPTY = 1,     /**< it has no bytes */
    AFDX_TOO_LONG = 2,  /**< it has more bytes than the plan allows the port (`max`) */
    AFDX_CLOSED = 3,    /**< the sub-VL was closed, for good */
    AFDX_EXHAUSTED = 4, /**< the port has used its 2^40 slot requests */
    AFDX_FULL = 5       /**< the queue of the sub-VL is full */
};

/** Why a line of a script is refused, in the order in which they are returned: LONG, WORD, NUMBER, HEX, EXTRA. */
enum {
    AFDX_LINE_WORD = 1,   /**< it begins with another word, or lacks one */
    AFDX_LINE_NUMBER = 2, /**< a number isn't decimal, or exceeds its range */
    AFDX_LINE_HEX = 3,    /**< other than hexadecimal digits, or an odd number of them */
    AFDX_LINE_EXTRA = 4,  /**< more words */
    AFDX_LINE_LONG = 5    /**< over 20,000 bytes */
};

/** Why a poll does nothing: both networks have failed before. */
enum { AFDX_BOTH_DOWN = 1 };

/** Misuse of any call. */
enum {
    AFDX_NOT_HELD = 32,     /**< the handle holds nothing: not opened, freed, or given back */
    AFDX_WRONG_HANDLE = 33, /**< it holds a port instead of an end system, or an end system instead of a port */
    AFDX_HELD = 34,         /**< the handle to be filled holds something */
    AFDX_TIME_BACK = 35,    /**< the time is before that of an earlier poll */
    AFDX_NO_PORT = 36,      /**< no such identifier, the port is out already, or it isn't of this end system */
    AFDX_NO_SUB = 37,       /**< no such virtual link, or no such sub-VL of it */
    AFDX_NO_LINK = 38,      /**< no such virtual link */
    AFDX_NO_NETWORK = 39,   /**< neither AFDX_A nor AFDX_B */
    AFDX_NO_FRAME = 40,     /**< the last poll made fewer frames for this network */
    AFDX_SMALL_BUFFER = 41, /**< a frame has more bytes than the buffer, or there is no room for all */
    AFDX_PORT_MISSING = 42, /**< a port of the plan is out */
    AFDX_GATHERED = 43,     /**< the ports were gathered: none is taken, given back, closed or gathered any more */
    AFDX_NOT_GATHERED = 44, /**< the ports weren't gathered yet */
    AFDX_BAD_CAPTURE = 45   /**< of afdx_judge.h: a capture is cut off or malformed */
};

/** Opens an end system from the text of a plan, `length` bytes, which are copied. Allocates all memory of the
   end system and its ports: no later call on these allocates, and none frees but afdx_free and afdx_free_port.
   @param out the handle to fill
   @param text the text, UTF-8
   @param length its length in bytes
   @return AFDX_OK. Refused: AFDX_HELD; or the number of the fault, 1 to 15. After a refusal the handle is
   unchanged. */
uint8_t afdx_open(afdx_end_system *out, const uint8_t *text, size_t length);

/** Opens an end system from the table of a plan, which `afdx_bench compile` writes and docs/guide/table.md lays out. The end system
   is that of the plan's text; nothing is parsed. The bytes are copied; memory is as in afdx_open.
   @param out the handle to fill
   @param table the table
   @param length its length in bytes
   @return AFDX_OK. Refused: AFDX_HELD; a number of the table, AFDX_NO_TABLE to AFDX_WRONG_VALUE; or the number of the
   fault that the plan's text would have, AFDX_CONFIG_DUPLICATE_VL to AFDX_MEMORY. After a refusal the handle is unchanged. */
uint8_t afdx_open_table(afdx_end_system *out, const uint8_t *table, size_t length);

/** Says what opening a table takes: the bytes that afdx_open_table requests and keeps until afdx_free, by the formula of
   docs/guide/embedding.md. While it opens it may hold up to 10,256 bytes more; no call after it requests any. afdx_memory requests
   memory for reading the table, and frees it. It needs no handle, and may be called by any thread.
   @param table the table
   @param length its length in bytes
   @param bytes the bytes
   @return AFDX_OK. Refused, with nothing written: as by afdx_open_table, but for AFDX_HELD. */
uint8_t afdx_memory(const uint8_t *table, size_t length, size_t *bytes);

/** Explains a refused plan: its faults, each with its place, as `afdx_bench explain` prints them
   (docs/guide/program.md) after the file and the line, in lines that end in a line feed; "no faults" if there is none.
   The first line counts them all; 1,000 have a line, and of more the last line is "and N more". Copies as much of the
   explanation as fits into the buffer, without a terminating zero, and writes its length.
   @param text the text
   @param length its length in bytes
   @param buffer where the explanation is copied to
   @param size its size in bytes
   @param written the length of the explanation
   @return AFDX_OK. Refused: AFDX_MEMORY, with nothing written; AFDX_SMALL_BUFFER: the explanation is longer than
   the buffer, and its front was written. So NULL and 0 give the length. */
uint8_t afdx_explain(const uint8_t *text, size_t length, uint8_t *buffer, size_t size, size_t *written);

/** Takes the port with an identifier, once. It may be moved to a thread of its own. Allocates nothing.
   @param it the end system
   @param id the identifier of the port
   @param out the handle to fill
   @return AFDX_OK. Refused: AFDX_HELD (of `out`), AFDX_NOT_HELD, AFDX_WRONG_HANDLE, AFDX_GATHERED, AFDX_NO_PORT,
   AFDX_MEMORY (its contract allows it, but afdx_open took what a port needs, so it was never seen). */
uint8_t afdx_port_of(afdx_end_system *it, uint16_t id, afdx_port *out);

/** The identifiers of all ports, in the order of the plan, whether or not a port
   is out: writes them into `ids`, which has room for `room` of them, and their number.
   @param it the end system
   @param ids where the identifiers are written to
   @param room how many have room there
   @param count their number
   @return AFDX_OK. Refused: AFDX_NOT_HELD, AFDX_WRONG_HANDLE, with nothing written; AFDX_SMALL_BUFFER: `room` is
   less than their number, and only `count` is written. So NULL and 0 give the number: at most AFDX_MOST_PORTS and
   AFDX_MOST_LINKS. */
uint8_t afdx_ports(const afdx_end_system *it, uint16_t *ids, size_t room, size_t *count);
/** The identifiers of all virtual links, as afdx_ports has those of ports.
   @param it the end system
   @param ids where the identifiers are written to
   @param room how many have room there
   @param count their number
   @return AFDX_OK. Refused: as by afdx_ports. */
uint8_t afdx_links(const afdx_end_system *it, uint16_t *ids, size_t room, size_t *count);

/** Copies a message in, at the end of the queue of the port's sub-VL. Called by the thread that has the port. Never
   waits, and allocates nothing: the copy goes to memory that afdx_open took.
   @param port the port
   @param message the message
   @param length its length in bytes
   @return AFDX_OK. Refused: AFDX_NOT_HELD, AFDX_WRONG_HANDLE; AFDX_EMPTY, AFDX_TOO_LONG, by the length alone, which
   change nothing; AFDX_CLOSED, AFDX_EXHAUSTED, AFDX_FULL: try again after a poll. A refused message isn't queued. A
   send of an allowed length that finds its queue open uses a slot request, also if the answer is AFDX_FULL, or
   AFDX_CLOSED because the queue was closed during the call. A close during the call may come too late for it. */
uint8_t afdx_send(afdx_port *port, const uint8_t *message, size_t length);

/** Writes the number of a port's accepted messages. Called by the thread that has the port.
   @param port the port
   @param count the number
   @return AFDX_OK. Refused: AFDX_NOT_HELD, AFDX_WRONG_HANDLE, with nothing written. */
uint8_t afdx_accepted(const afdx_port *port, uint64_t *count);

/** Gives each virtual link its turn at `now`, in microseconds: one that is due and has something to send makes
   exactly one frame. Writes which networks are up afterwards. The frames of the poll before are gone. Called by one
   thread at a time, as all calls on an end system. Never waits, and neither allocates nor frees memory.
   @param it the end system
   @param now the time in microseconds
   @param standing the networks that are up: AFDX_A_STANDS, AFDX_B_STANDS
   @return AFDX_OK. Refused: AFDX_NOT_HELD, AFDX_WRONG_HANDLE, AFDX_TIME_BACK, AFDX_BOTH_DOWN (standing is written
   as 0); the frames of the poll before are then kept. */
uint8_t afdx_poll(afdx_end_system *it, uint64_t now, uint8_t *standing);

/** No time: afdx_next_due writes it if no virtual link becomes due. */
#define AFDX_NEVER UINT64_MAX

/** When a poll may have something to do again, for a thread that sleeps between polls. Writes the first time after
   the last poll, in microseconds, at which a virtual link becomes due that wasn't due then and that a network
   carries that is up; or AFDX_NEVER. An earlier poll makes frames only of links that were due at the last poll and
   had nothing to send then. So sleep until that time, or until a port has sent, which no call reports. Whether the
   link has something to send isn't known before it is polled.
   @param it the end system
   @param at the time in microseconds, or AFDX_NEVER
   @return AFDX_OK. Refused: AFDX_NOT_HELD, AFDX_WRONG_HANDLE, with nothing written. */
uint8_t afdx_next_due(const afdx_end_system *it, uint64_t *at);

/** Writes the number of frames that the last poll made for a network.
   @param it the end system
   @param network AFDX_A or AFDX_B
   @param count the number of frames
   @return AFDX_OK. Refused: AFDX_NOT_HELD, AFDX_WRONG_HANDLE, AFDX_NO_NETWORK, with nothing written. */
uint8_t afdx_frames(const afdx_end_system *it, uint8_t network, size_t *count);

/** Copies frame k, from 0, that the last poll made for a network into a buffer, and writes its length: at most
   AFDX_GREATEST_FRAME. Nothing is written after those bytes. `length` doesn't lie in `buffer`.
   @param it the end system
   @param network AFDX_A or AFDX_B
   @param k which frame, from 0
   @param buffer where it is copied to
   @param size the size of the buffer in bytes
   @param length the length of the frame
   @return AFDX_OK. Refused: AFDX_NOT_HELD, AFDX_WRONG_HANDLE, AFDX_NO_NETWORK, AFDX_NO_FRAME, AFDX_SMALL_BUFFER,
   with nothing written. */
uint8_t afdx_frame(const afdx_end_system *it, uint8_t network, size_t k, uint8_t *buffer, size_t size, size_t *length);

/** Copies all frames that the last poll made for a network into a buffer, one after the other without gaps, writes
   their lengths into `lengths`, which has room for `room` of them, and their number. Frame k begins after the bytes
   of the k frames before it.
   @param it the end system
   @param network AFDX_A or AFDX_B
   @param buffer where the frames are copied to
   @param size the size of the buffer in bytes
   @param lengths where their lengths are written to
   @param room how many lengths have room there
   @param count the number of frames
   @return AFDX_OK. Refused: AFDX_NOT_HELD, AFDX_WRONG_HANDLE, AFDX_NO_NETWORK, with nothing written;
   AFDX_SMALL_BUFFER: they have more bytes than `size`, or are more than `room`, and only `count` is written.
   AFDX_MOST_FRAMES * AFDX_GREATEST_FRAME bytes and AFDX_MOST_FRAMES lengths are always enough. */
uint8_t afdx_all_frames(const afdx_end_system *it, uint8_t network, uint8_t *buffer, size_t size, size_t *lengths,
                        size_t room, size_t *count);

/** Writes the virtual link, the sub-VL and the sequence number of frame k, from 0, that the last poll made for a network:
   what afdx_frame's bytes of it say.
   @param it the end system
   @param network AFDX_A or AFDX_B
   @param k which frame, from 0
   @param out what the frame carries
   @return AFDX_OK. Refused: AFDX_NOT_HELD, AFDX_WRONG_HANDLE, AFDX_NO_NETWORK, AFDX_NO_FRAME, with nothing written. */
uint8_t afdx_release(const afdx_end_system *it, uint8_t network, size_t k, afdx_released *out);

/** Makes a network fail, for good: its next frame fails, and it gets none afterwards. Until a poll makes that frame the
   network is up. A link that this network alone carries loses the frame, and afdx_is_done then never writes 1.
   @param it the end system
   @param network AFDX_A or AFDX_B
   @return AFDX_OK. Refused: AFDX_NOT_HELD, AFDX_WRONG_HANDLE, AFDX_NO_NETWORK. */
uint8_t afdx_fail(afdx_end_system *it, uint8_t network);

/** Closes a sub-VL: no message is accepted from then on, and accepted ones are still transmitted. Writes the number
   of accepted messages; a later close writes the same.
   @param it the end system
   @param vl the identifier of the virtual link
   @param sub the sub-VL, from 0
   @param total the number of accepted messages
   @return AFDX_OK. Refused: AFDX_NOT_HELD, AFDX_WRONG_HANDLE, AFDX_GATHERED, AFDX_NO_SUB, with nothing written. */
uint8_t afdx_close(afdx_end_system *it, uint16_t vl, uint8_t sub, uint64_t *total);

/** Writes the counts of a virtual link so far.
   @param it the end system
   @param vl the identifier of the virtual link
   @param counts the counts
   @return AFDX_OK. Refused: AFDX_NOT_HELD, AFDX_WRONG_HANDLE, AFDX_NO_LINK, with nothing written. */
uint8_t afdx_link_counts(const afdx_end_system *it, uint16_t vl, afdx_counts *counts);

/** Gives a port back to the end system that it was taken from. It can be taken again. Its handle is empty then.
   Allocates nothing.
   @param it the end system
   @param port the port, whose handle is emptied
   @return AFDX_OK. Refused: AFDX_NOT_HELD, AFDX_WRONG_HANDLE (of either), AFDX_GATHERED, AFDX_NO_PORT: it isn't
   of this end system, also if the end system that it was taken from was freed; the port is unchanged. */
uint8_t afdx_give_back(afdx_end_system *it, afdx_port *port);

/** Starts draining, once each port was given back or never taken. The accepted messages are then known whole, and
   later polls transmit what is left.
   @param it the end system
   @return AFDX_OK. Refused: AFDX_NOT_HELD, AFDX_WRONG_HANDLE, AFDX_GATHERED, AFDX_PORT_MISSING. */
uint8_t afdx_gather(afdx_end_system *it);

/** Writes 1 if each fragment of each accepted message was accepted by network A or by network B, otherwise 0. Once a
   link that still owes frames has no network that is up, it stays 0.
   @param it the end system
   @param done 1 or 0
   @return AFDX_OK. Refused: AFDX_NOT_HELD, AFDX_WRONG_HANDLE, AFDX_NOT_GATHERED, with nothing written. */
uint8_t afdx_is_done(const afdx_end_system *it, uint8_t *done);

/** Frees an end system; its handle is empty then. Messages that are still queued are never sent. Ports that are
   out stay usable, but nothing takes their messages: sends are accepted up to the room that is left, and then AFDX_FULL.
   @param it the end system, whose handle is emptied
   @return AFDX_OK. Refused: AFDX_NOT_HELD, AFDX_WRONG_HANDLE. */
uint8_t afdx_free(afdx_end_system *it);

/** Frees a port; its handle is empty then. Its accepted messages are still transmitted, but the end system can't be
   gathered any more.
   @param port the port, whose handle is emptied
   @return AFDX_OK. Refused: AFDX_NOT_HELD, AFDX_WRONG_HANDLE. */
uint8_t afdx_free_port(afdx_port *port);

/** Reads a line of a script (docs/guide/program.md), given without its end: a line feed, or a carriage return and a line
   feed. Needs no handle. Allocates memory for the message, and frees it.
   @param line the line
   @param length its length in bytes
   @param out what it says
   @param buffer where the message of a send is copied to
   @param size its size in bytes; 10,000 are always enough
   @return AFDX_OK. Refused: AFDX_LINE_LONG, AFDX_LINE_WORD, AFDX_LINE_NUMBER, AFDX_LINE_HEX, AFDX_LINE_EXTRA, AFDX_MEMORY,
   with nothing written; AFDX_SMALL_BUFFER: the message is longer than the buffer, and only `out` is written. */
uint8_t afdx_script_line(const uint8_t *line, size_t length, afdx_line *out, uint8_t *buffer, size_t size);

/** The version of the library that a program runs with, as one number.
   @return 10,000 times its first number, 100 times its second, and its third: AFDX_VERSION_NUMBER of its header */
uint32_t afdx_version_number(void);

/** The call that returned a number, since numbers below 32 mean different things after different calls: AFDX_CALL_OPEN
   after afdx_open, afdx_open_table and afdx_memory, AFDX_CALL_SEND after afdx_send, AFDX_CALL_POLL after afdx_poll,
   AFDX_CALL_LINE after afdx_script_line, and AFDX_CALL_OTHER after any other. */
typedef enum { AFDX_CALL_OPEN, AFDX_CALL_SEND, AFDX_CALL_POLL, AFDX_CALL_OTHER, AFDX_CALL_LINE } afdx_call;

/** The version of the header that a program is compiled with.
   @return AFDX_VERSION */
static inline const char *afdx_version(void) { return AFDX_VERSION; }

/** The name above of a number that a call returned, as "AFDX_FULL" of 5 and AFDX_CALL_SEND, or "unknown answer".
   @param call the call that returned it
   @param answer the number
   @return the name */
static inline const char *afdx_answer_name(afdx_call call, uint8_t answer) {
    static const char *const of_open[] = {
        "AFDX_CONFIG_TOML", "AFDX_CONFIG_MISSING_KEY", "AFDX_CONFIG_UNKNOWN_KEY", "AFDX_CONFIG_WRONG_KIND",
        "AFDX_CONFIG_OUT_OF_RANGE", "AFDX_CONFIG_BAD_BAG", "AFDX_CONFIG_DUPLICATE_VL", "AFDX_CONFIG_DUPLICATE_PORT",
        "AFDX_CONFIG_NO_SUCH_VL", "AFDX_CONFIG_NO_SUCH_SUB", "AFDX_CONFIG_SAMPLING_TOO_LONG", "AFDX_CONFIG_SAME_FLOW",
        "AFDX_CONFIG_SHARED_UNICAST", "AFDX_CONFIG_LIMIT"};
    static const char *const of_table[] = {
        "AFDX_NO_TABLE", "AFDX_OTHER_LAYOUT", "AFDX_WRONG_LENGTH", "AFDX_WRONG_SUM", "AFDX_WRONG_VALUE"};
    static const char *const of_send[] = {"AFDX_EMPTY", "AFDX_TOO_LONG", "AFDX_CLOSED", "AFDX_EXHAUSTED", "AFDX_FULL"};
    static const char *const of_line[] = {"AFDX_LINE_WORD", "AFDX_LINE_NUMBER", "AFDX_LINE_HEX", "AFDX_LINE_EXTRA", "AFDX_LINE_LONG"};
    static const char *const of_any[] = {
        "AFDX_NOT_HELD", "AFDX_WRONG_HANDLE", "AFDX_HELD", "AFDX_TIME_BACK", "AFDX_NO_PORT", "AFDX_NO_SUB", "AFDX_NO_LINK",
        "AFDX_NO_NETWORK", "AFDX_NO_FRAME", "AFDX_SMALL_BUFFER", "AFDX_PORT_MISSING", "AFDX_GATHERED", "AFDX_NOT_GATHERED",
        "AFDX_BAD_CAPTURE"};
    const size_t k = answer, any = AFDX_NOT_HELD, table = AFDX_NO_TABLE;
    if (answer == AFDX_OK) return "AFDX_OK";
    if (answer == AFDX_MEMORY) return "AFDX_MEMORY";
    if (k >= any && k - any < sizeof of_any / sizeof *of_any) return of_any[k - any];
    if (call == AFDX_CALL_OPEN && k <= sizeof of_open / sizeof *of_open) return of_open[k - 1U];
    if (call == AFDX_CALL_OPEN && k >= table && k - table < sizeof of_table / sizeof *of_table) return of_table[k - table];
    if (call == AFDX_CALL_SEND && k <= sizeof of_send / sizeof *of_send) return of_send[k - 1U];
    if (call == AFDX_CALL_POLL && answer == AFDX_BOTH_DOWN) return "AFDX_BOTH_DOWN";
    if (call == AFDX_CALL_LINE && k <= sizeof of_line / sizeof *of_line) return of_line[k - 1U];
    return "unknown answer";
}

#ifdef __cplusplus
}
#endif
#endif
