/** @file
   Judging recordings: what is wrong with a capture of an end system, by the text of its plan, as
   `afdx_bench judge` finds it (docs/guide/judge.md). These calls take no handle, and may be called by any thread. */
#ifndef AFDX_JUDGE_H
#define AFDX_JUDGE_H /**< this header is included */

#include "afdx.h"

#ifdef __cplusplus
extern "C" {
#endif

/** What a recording may deviate by, and how it was made. {.skew = 10000} is what afdx_bench judge takes without
   options. */
typedef struct {
    uint64_t jitter; /**< how much the time from release to recording may vary, in microseconds */
    uint64_t skew;   /**< a frame and its twin are at most this many microseconds apart */
    uint8_t late;    /**< other than 0: the recording began after the end system */
    uint8_t fcs;     /**< other than 0: frames end with their check sequence, which is tested and left out */
    uint8_t arinc;   /**< other than 0: frames of another maker, by ARINC 664 alone */
} afdx_judge_options;

/** A finding: what a packet does wrong. */
typedef struct {
    uint64_t packet; /**< the number of the packet in its capture, from 1 */
    uint64_t at;     /**< its time in nanoseconds since 1970, 0 if it has none, UINT64_MAX if it is later */
    uint64_t seen;   /**< the number that was seen: docs/guide/judge.md says of each kind which that is */
    uint64_t wanted; /**< the number that was wanted */
    uint32_t vl;     /**< the identifier of its virtual link, or AFDX_NO_VL */
    uint8_t network; /**< AFDX_A or AFDX_B */
    uint8_t kind;    /**< AFDX_FINDING_FRAME to AFDX_FINDING_RESTART */
    uint8_t rule;    /**< which rule of AFDX_FINDING_FRAME, AFDX_FINDING_FRAGMENT or AFDX_FINDING_MESSAGE; 0 of others */
} afdx_finding;

/** The virtual link of a frame that isn't of the layout, or is of another end system. */
enum { AFDX_NO_VL = 65536 };

/** The kinds of findings. */
enum {
    AFDX_FINDING_FRAME = 1,
    AFDX_FINDING_SOURCE = 2,
    AFDX_FINDING_LINK = 3,
    AFDX_FINDING_NETWORK = 4,
    AFDX_FINDING_SIZE = 5,
    AFDX_FINDING_NUMBER = 6,
    AFDX_FINDING_EARLY = 7,
    AFDX_FINDING_PORT = 8,
    AFDX_FINDING_FRAGMENT = 9,
    AFDX_FINDING_MESSAGE = 10,
    AFDX_FINDING_TURN = 11,
    AFDX_FINDING_TWIN = 12,
    AFDX_FINDING_MISSING = 13,
    AFDX_FINDING_RESTART = 14
};

/** How a capture ends. From AFDX_CAPTURE_FORMAT on it is malformed. */
enum {
    AFDX_CAPTURE_WHOLE = 0,         /**< with its last block or record */
    AFDX_CAPTURE_CUT_OFF = 1,       /**< within a block or a record, or before its first one */
    AFDX_CAPTURE_FORMAT = 2,        /**< it is neither pcapng nor pcap */
    AFDX_CAPTURE_BYTE_ORDER = 3,    /**< the byte-order magic of a section is none */
    AFDX_CAPTURE_VERSION = 4,       /**< the major version isn't 1 in pcapng, or 2 in pcap */
    AFDX_CAPTURE_LENGTH = 5,        /**< a block's length is no multiple of 4, or too short for its type */
    AFDX_CAPTURE_TOO_LONG = 6,      /**< a block or a record of over 1 MiB */
    AFDX_CAPTURE_END_LENGTH = 7,    /**< a block has another length at its end than in front */
    AFDX_CAPTURE_LINK_TYPE = 8,     /**< the link type of an interface isn't Ethernet */
    AFDX_CAPTURE_BAD_OPTION = 9,    /**< an option runs past its block, or has a wrong length */
    AFDX_CAPTURE_INTERFACES = 10,   /**< a section of over 256 interfaces */
    AFDX_CAPTURE_OBSOLETE = 11,     /**< a packet block of the obsolete type 2 */
    AFDX_CAPTURE_NO_INTERFACE = 12, /**< a packet of an interface that its section lacks */
    AFDX_CAPTURE_CAPTURED = 13,     /**< the bytes of a packet run past its block */
    AFDX_CAPTURE_TIME = 14          /**< the time of a packet is before 1970 */
};

/** What was read of a capture. */
typedef struct {
    uint64_t packets; /**< its packets, those of other interfaces than the networks' included */
    uint64_t at;      /**< the byte at which the block or record begins that is cut off or malformed, otherwise 0 */
    uint8_t end;      /**< AFDX_CAPTURE_WHOLE to AFDX_CAPTURE_TIME */
} afdx_captured;

/** What is written beside the findings. */
typedef struct {
    size_t findings; /**< the number of all findings, also of those that had no room */
    afdx_captured a; /**< what was read of network A's capture; of one of both networks, the same twice */
    afdx_captured b; /**< what was read of network B's */
} afdx_judged;

/** Judges a capture of both networks, by interfaces named A and B, or its first two. Writes as many findings as have room,
   in the order in which they are made (a Missing when its twin can't come any more), and beside them their number and what
   was read. A capture that is cut off or malformed is judged up to there. Allocates 80 to 160 bytes for each packet and
   each finding, and memory for the plan and for frames that wait for their twins, and frees it all.
   @param plan the text of the plan
   @param plan_length its length in bytes
   @param options what is allowed
   @param capture the bytes of the capture, pcapng or pcap
   @param length its length in bytes
   @param findings where the findings are written to
   @param room how many have room there
   @param judged their number, and what was read
   @return AFDX_OK: every capture was read to its end, and all findings were written, none if the recording keeps the
   plan. Refused: the number of the plan's fault or AFDX_MEMORY, with nothing written; AFDX_BAD_CAPTURE:
   a capture is cut off or malformed; AFDX_SMALL_BUFFER: `room` is less than the number of findings. With the last two all
   is written as after AFDX_OK; so NULL and 0 give the number. */
uint8_t afdx_judge(const uint8_t *plan, size_t plan_length, const afdx_judge_options *options, const uint8_t *capture,
                   size_t length, afdx_finding *findings, size_t room, afdx_judged *judged);

/** Judges two captures as afdx_judge does one: all packets of `a` are of network A, and all of `b` of network B, whatever
   their interfaces.
   @param plan the text of the plan
   @param plan_length its length in bytes
   @param options what is allowed
   @param a the bytes of network A's capture
   @param a_length its length in bytes
   @param b the bytes of network B's capture
   @param b_length its length in bytes
   @param findings where the findings are written to
   @param room how many have room there
   @param judged their number, and what was read
   @return as afdx_judge */
uint8_t afdx_judge_pair(const uint8_t *plan, size_t plan_length, const afdx_judge_options *options, const uint8_t *a,
                        size_t a_length, const uint8_t *b, size_t b_length, afdx_finding *findings, size_t room,
                        afdx_judged *judged);

/** Tells how many packets the recorder of a capture lost, as its blocks say: the greater of what the packets and the
   statistics of each interface tell, summed over all interfaces. After a loss, a missing frame may be the recorder's
   fault, so the findings of afdx_judge prove nothing. Allocates 80 bytes for each packet, and frees them.
   @param capture the bytes of the capture, pcapng or pcap
   @param length its length in bytes
   @param lost the number of packets that were lost up to the end of the reading, 0 if the capture tells of none
   @return AFDX_OK: the capture was read to its end. Refused: AFDX_BAD_CAPTURE: it is cut off or malformed, and `lost` has
   the number up to there; AFDX_MEMORY, with nothing written */
uint8_t afdx_capture_lost(const uint8_t *capture, size_t length, uint64_t *lost);

/** The words that afdx_bench judge prints of a finding's kind and rule, as "Number" or "Frame Padding".
   @param finding the finding
   @return the words */
static inline const char *afdx_finding_name(const afdx_finding *finding) {
    static const char *const kinds[] = {"unknown finding", "Frame", "Source", "Link", "Network", "Size", "Number",
        "Early", "Port", "Fragment", "Message", "Turn", "Twin", "Missing", "Restart"};
    static const char *const of_frame[] = {"Frame Time", "Frame Snapped", "Frame CheckSequence", "Frame Recorded",
        "Frame Length", "Frame DestinationMac", "Frame SourceMac", "Frame Interface", "Frame EtherType", "Frame Version",
        "Frame TotalLength", "Frame Fragment", "Frame Protocol", "Frame HeaderSum", "Frame SourceAddress",
        "Frame DestinationAddress", "Frame Padding"};
    static const char *const of_fragment[] = {"Fragment Offset", "Fragment Identification", "Fragment Addresses",
        "Fragment Length", "Fragment Repeated"};
    static const char *const of_message[] = {"Message UdpLength", "Message Size", "Message UdpChecksum"};
    const size_t kind = finding->kind, rule = finding->rule;
    if (rule > 0U) {
        if (finding->kind == AFDX_FINDING_FRAME && rule <= sizeof of_frame / sizeof *of_frame) return of_frame[rule - 1U];
        if (finding->kind == AFDX_FINDING_FRAGMENT && rule <= sizeof of_fragment / sizeof *of_fragment) return of_fragment[rule - 1U];
        if (finding->kind == AFDX_FINDING_MESSAGE && rule <= sizeof of_message / sizeof *of_message) return of_message[rule - 1U];
    }
    return kinds[kind < sizeof kinds / sizeof *kinds ? kind : 0U];
}

#ifdef __cplusplus
}
#endif
#endif
