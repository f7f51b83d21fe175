/* The proved transmitting AFDX end system for C++11 and later: the calls of afdx.h as classes. Header only.

       afdx::EndSystem it(text);
       afdx::Port port = it.port(10);
       port.send(message);
       it.poll(now);
       it.each_frame(afdx::Network::A, [](const std::uint8_t *frame, std::size_t length) { ... });

   An end system and a port are moved and never copied, and their destructors free what they hold. One call at a time
   uses an object, so no call is const; a port may be moved into a thread of its own. Times are in microseconds and
   don't go back. afdx.h states what each call does and when it is refused. A number other than AFDX_OK is an
   exception here; a program that is compiled without exceptions uses afdx.h. */
#ifndef AFDX_HPP
#define AFDX_HPP

#include "afdx_judge.h"

#include <cstddef>
#include <cstdint>
#include <initializer_list>
#include <memory>
#include <stdexcept>
#include <string>
#include <utility>
#include <vector>

namespace afdx {

enum class Network : std::uint8_t { A = AFDX_A, B = AFDX_B };

/* Why a plan is refused. */
enum class ConfigFault : std::uint8_t {
    Toml = AFDX_CONFIG_TOML,
    MissingKey = AFDX_CONFIG_MISSING_KEY,
    UnknownKey = AFDX_CONFIG_UNKNOWN_KEY,
    WrongKind = AFDX_CONFIG_WRONG_KIND,
    OutOfRange = AFDX_CONFIG_OUT_OF_RANGE,
    BadBag = AFDX_CONFIG_BAD_BAG,
    DuplicateVl = AFDX_CONFIG_DUPLICATE_VL,
    DuplicatePort = AFDX_CONFIG_DUPLICATE_PORT,
    NoSuchVl = AFDX_CONFIG_NO_SUCH_VL,
    NoSuchSub = AFDX_CONFIG_NO_SUCH_SUB,
    SamplingTooLong = AFDX_CONFIG_SAMPLING_TOO_LONG,
    SameFlow = AFDX_CONFIG_SAME_FLOW,
    SharedUnicast = AFDX_CONFIG_SHARED_UNICAST,
    Limit = AFDX_CONFIG_LIMIT,
    NoTable = AFDX_NO_TABLE, /* of a table alone, as the next four */
    OtherLayout = AFDX_OTHER_LAYOUT,
    WrongLength = AFDX_WRONG_LENGTH,
    WrongSum = AFDX_WRONG_SUM,
    WrongValue = AFDX_WRONG_VALUE
};

/* Why a message is refused. */
enum class SendFault : std::uint8_t {
    Empty = AFDX_EMPTY,
    TooLong = AFDX_TOO_LONG,
    Closed = AFDX_CLOSED,
    Exhausted = AFDX_EXHAUSTED,
    Full = AFDX_FULL
};

/* Why a call can't be made now. NotHeld: the object was moved from, freed or given back. */
enum class MisuseFault : std::uint8_t {
    NotHeld = AFDX_NOT_HELD,
    WrongHandle = AFDX_WRONG_HANDLE,
    Held = AFDX_HELD,
    TimeBack = AFDX_TIME_BACK,
    NoPort = AFDX_NO_PORT,
    NoSub = AFDX_NO_SUB,
    NoLink = AFDX_NO_LINK,
    NoNetwork = AFDX_NO_NETWORK,
    NoFrame = AFDX_NO_FRAME,
    SmallBuffer = AFDX_SMALL_BUFFER,
    PortMissing = AFDX_PORT_MISSING,
    Gathered = AFDX_GATHERED,
    NotGathered = AFDX_NOT_GATHERED
};

/* A number other than AFDX_OK. `what` is its name in afdx.h, and more on the lines after it, if there is more. */
class Error : public std::runtime_error {
public:
    Error(afdx_call call, std::uint8_t answer, const std::string &more = std::string())
        : std::runtime_error(afdx_answer_name(call, answer) + (more.empty() ? more : "\n" + more)), answer_(answer) {}
    std::uint8_t answer() const noexcept { return answer_; }

private:
    std::uint8_t answer_;
};

/* An error with a fault. */
template <typename Fault> class Faulty : public Error {
public:
    using Error::Error;
    Fault fault() const noexcept { return static_cast<Fault>(answer()); }
};

/* A plan is refused. Of a plan's text `what` has the lines of `explain` after the fault's name. */
struct ConfigError : Faulty<ConfigFault> { using Faulty::Faulty; };
struct SendError : Faulty<SendFault> { using Faulty::Faulty; };
struct Misuse : Faulty<MisuseFault> { using Faulty::Faulty; };

/* Both networks had failed before the poll. */
struct BothDown : Error { using Error::Error; };

/* An allocation failed. */
struct OutOfMemory : Error { using Error::Error; };

/* A capture is cut off or malformed: what was found up to there, and what was read of the captures. */
struct BadCapture : Error {
    BadCapture(std::vector<afdx_finding> found, const afdx_judged &read)
        : Error(AFDX_CALL_OTHER, AFDX_BAD_CAPTURE), findings(std::move(found)), judged(read) {}
    std::vector<afdx_finding> findings;
    afdx_judged judged;
};

/* The recorder of a capture lost packets, so the recording isn't whole; `lost` tells how many. */
struct LostPackets : BadCapture { using BadCapture::BadCapture; };

namespace detail {

/* Throws the exception of a number that a call returned, if it isn't AFDX_OK. */
inline void want(std::uint8_t answer, afdx_call call = AFDX_CALL_OTHER) {
    if (answer == AFDX_OK) return;
    if (answer == AFDX_MEMORY) throw OutOfMemory(call, answer);
    if (answer >= AFDX_NOT_HELD) throw Misuse(call, answer);
    if (call == AFDX_CALL_OPEN) throw ConfigError(call, answer);
    if (call == AFDX_CALL_SEND) throw SendError(call, answer);
    if (call == AFDX_CALL_POLL) throw BothDown(call, answer);
    throw Error(call, answer);
}

struct Free {
    void operator()(afdx_end_system *it) const noexcept {
        afdx_free(it);
        delete it;
    }
    void operator()(afdx_port *port) const noexcept {
        afdx_free_port(port);
        delete port;
    }
};

/* A handle of afdx.h, which keeps its address when its object is moved. */
template <typename Kind> class Handle {
public:
    Handle() : at_(new Kind()) {}
    Kind *get() {
        if (!at_) throw Misuse(AFDX_CALL_OTHER, AFDX_NOT_HELD);
        return at_.get();
    }
    const Kind *get() const {
        if (!at_) throw Misuse(AFDX_CALL_OTHER, AFDX_NOT_HELD);
        return at_.get();
    }

private:
    std::unique_ptr<Kind, Free> at_;
};

} // namespace detail

/* Explains a refused plan: its faults, each with its place, in lines as `afdx_explain` writes them; "no faults"
   if there is none. Throws OutOfMemory. */
inline std::string explain(const std::string &text) {
    const auto *bytes = reinterpret_cast<const std::uint8_t *>(text.data());
    std::size_t length = 0;
    std::uint8_t answer = afdx_explain(bytes, text.size(), nullptr, 0, &length);
    std::string told(length, ' ');
    if (answer == AFDX_SMALL_BUFFER) {
        auto *front = reinterpret_cast<std::uint8_t *>(&told[0]);
        answer = afdx_explain(bytes, text.size(), front, told.size(), &length);
    }
    detail::want(answer);
    return told;
}

namespace detail {

inline const std::uint8_t *bytes_of(const std::string &text) {
    return reinterpret_cast<const std::uint8_t *>(text.data());
}

/* Throws the exception of a number that a call returned for a plan's text, if it isn't AFDX_OK. */
inline void want_plan(std::uint8_t answer, const std::string &text) {
    std::string faults;
    if (answer > AFDX_OK && answer < AFDX_MEMORY) {
        try {
            faults = explain(text);
            faults.erase(faults.find_last_not_of('\n') + 1);
        } catch (const OutOfMemory &) { /* the name alone */
        }
        throw ConfigError(AFDX_CALL_OPEN, answer, faults);
    }
    want(answer, AFDX_CALL_OPEN);
}

} // namespace detail

/* How many packets the recorder of a capture lost, as it told, up to where the capture may be cut off or malformed.
   Throws OutOfMemory. */
inline std::uint64_t lost(const std::string &capture) {
    std::uint64_t count = 0;
    const std::uint8_t answer = afdx_capture_lost(detail::bytes_of(capture), capture.size(), &count);
    if (answer != AFDX_BAD_CAPTURE) detail::want(answer);
    return count;
}

namespace detail {

/* Judges captures by a plan and a call that is passed room for findings. */
template <typename Call>
std::vector<afdx_finding> judged(const std::string &plan, std::initializer_list<const std::string *> captures, Call call) {
    std::vector<afdx_finding> findings;
    afdx_judged judged = afdx_judged();
    std::uint8_t answer = call(findings.data(), findings.size(), &judged);
    if (judged.findings > 0) {
        findings.resize(judged.findings);
        answer = call(findings.data(), findings.size(), &judged);
    }
    if (answer == AFDX_BAD_CAPTURE) throw BadCapture(std::move(findings), judged);
    want_plan(answer, plan);
    for (const std::string *capture : captures)
        if (lost(*capture) > 0) throw LostPackets(std::move(findings), judged);
    return findings;
}

} // namespace detail

/* What is wrong with a capture of both networks, by the text of a plan: nothing, if it keeps it. Throws
   ConfigError, BadCapture, LostPackets or OutOfMemory. */
inline std::vector<afdx_finding> judge(const std::string &plan, const std::string &capture,
                                       const afdx_judge_options &options) {
    return detail::judged(plan, {&capture}, [&](afdx_finding *findings, std::size_t room, afdx_judged *judged) {
        return afdx_judge(detail::bytes_of(plan), plan.size(), &options, detail::bytes_of(capture), capture.size(),
                          findings, room, judged);
    });
}

/* The same of a capture of network A and one of network B. */
inline std::vector<afdx_finding> judge(const std::string &plan, const std::string &a, const std::string &b,
                                       const afdx_judge_options &options) {
    return detail::judged(plan, {&a, &b}, [&](afdx_finding *findings, std::size_t room, afdx_judged *judged) {
        return afdx_judge_pair(detail::bytes_of(plan), plan.size(), &options, detail::bytes_of(a), a.size(),
                               detail::bytes_of(b), b.size(), findings, room, judged);
    });
}

/* The bytes that opening an end system from the table of a plan takes. Throws ConfigError or OutOfMemory. */
inline std::size_t memory(const std::uint8_t *table, std::size_t length) {
    std::size_t bytes = 0;
    detail::want(afdx_memory(table, length, &bytes), AFDX_CALL_OPEN);
    return bytes;
}

/* A port of an end system. Its accepted messages are still transmitted after it is freed, but its end system can't
   gather then: give it back instead. */
class Port {
public:
    /* Copies a message in. Throws SendError. After Full poll, then try again: each Full uses one of the
       port's 2^40 slot requests. */
    void send(const std::uint8_t *message, std::size_t length) {
        detail::want(try_send(message, length), AFDX_CALL_SEND);
    }

    /* The same for a vector, string, array or span of bytes. */
    template <typename Bytes> void send(const Bytes &message) {
        static_assert(sizeof *message.data() == 1, "a message is bytes");
        send(reinterpret_cast<const std::uint8_t *>(message.data()), message.size());
    }

    /* The same, but returns the number of afdx_send instead of throwing. */
    std::uint8_t try_send(const std::uint8_t *message, std::size_t length) {
        return afdx_send(handle_.get(), message, length);
    }

    /* The number of accepted messages. */
    std::uint64_t accepted() const {
        std::uint64_t count = 0;
        detail::want(afdx_accepted(handle_.get(), &count));
        return count;
    }

private:
    friend class EndSystem;
    Port() = default;
    detail::Handle<afdx_port> handle_;
};

/* An end system of a plan. */
class EndSystem {
public:
    /* Which networks are up. */
    struct Up {
        bool a, b;
    };

    /* Opens an end system from the text of a plan. Throws ConfigError or OutOfMemory. */
    explicit EndSystem(const std::string &text) {
        detail::want_plan(afdx_open(handle_.get(), detail::bytes_of(text), text.size()), text);
    }

    /* Opens an end system from the table of a plan (docs/guide/table.md). Throws ConfigError or OutOfMemory. */
    EndSystem(const std::uint8_t *table, std::size_t length) {
        detail::want(afdx_open_table(handle_.get(), table, length), AFDX_CALL_OPEN);
    }

    /* Takes the port with an identifier. Throws Misuse (NoPort if there is none or it is out, Gathered). */
    Port port(std::uint16_t id) {
        Port port;
        detail::want(afdx_port_of(handle_.get(), id, port.handle_.get()));
        return port;
    }

    /* Gives each virtual link its turn. Throws Misuse (TimeBack) or BothDown. */
    Up poll(std::uint64_t now) {
        std::uint8_t up = 0;
        detail::want(afdx_poll(handle_.get(), now, &up), AFDX_CALL_POLL);
        return {(up & AFDX_A_STANDS) != 0, (up & AFDX_B_STANDS) != 0};
    }

    /* The number of frames that the last poll made for a network. */
    std::size_t frames(Network network) const {
        std::size_t count = 0;
        detail::want(afdx_frames(handle_.get(), static_cast<std::uint8_t>(network), &count));
        return count;
    }

    /* Copies frame k of the last poll into a buffer, and returns its length. Throws Misuse (NoFrame, SmallBuffer). */
    std::size_t frame(Network network, std::size_t k, std::uint8_t *buffer, std::size_t size) const {
        std::size_t length = 0;
        detail::want(afdx_frame(handle_.get(), static_cast<std::uint8_t>(network), k, buffer, size, &length));
        return length;
    }

    /* The virtual link, sub-VL and sequence number of frame k of the last poll. Throws Misuse (NoFrame). */
    afdx_released released(Network network, std::size_t k) const {
        afdx_released released = afdx_released();
        detail::want(afdx_release(handle_.get(), static_cast<std::uint8_t>(network), k, &released));
        return released;
    }

    /* Copies all frames of the last poll into a buffer, one after the other, and their lengths, and returns their
       number. Throws Misuse (SmallBuffer: there is room for fewer). */
    std::size_t all_frames(Network network, std::uint8_t *buffer, std::size_t size, std::size_t *lengths,
                           std::size_t room) const {
        std::size_t count = 0;
        detail::want(afdx_all_frames(handle_.get(), static_cast<std::uint8_t>(network), buffer, size, lengths, room, &count));
        return count;
    }

    /* Calls `sink` with the bytes and the length of each frame that the last poll made for a network. */
    template <typename Sink> void each_frame(Network network, Sink &&sink) const {
        std::uint8_t buffer[AFDX_GREATEST_FRAME];
        const std::size_t count = frames(network);
        for (std::size_t k = 0; k < count; k++) {
            const std::size_t length = frame(network, k, buffer, sizeof buffer);
            sink(static_cast<const std::uint8_t *>(buffer), length);
        }
    }

    /* The first time after the last poll at which a virtual link becomes due that wasn't due then, or AFDX_NEVER: a
       poller may sleep until it, or until a port has sent. */
    std::uint64_t next_due() const {
        std::uint64_t at = 0;
        detail::want(afdx_next_due(handle_.get(), &at));
        return at;
    }

    /* The identifiers of all ports, whether or not a port is out, in the order of the plan. */
    std::vector<std::uint16_t> ports() const { return listed(afdx_ports); }

    /* The identifiers of all virtual links, in the order of the plan. */
    std::vector<std::uint16_t> links() const { return listed(afdx_links); }

    /* Makes a network fail: its next frame fails, and it gets none afterwards. */
    void fail(Network network) { detail::want(afdx_fail(handle_.get(), static_cast<std::uint8_t>(network))); }

    /* Closes a sub-VL, and returns the number of its accepted messages. Throws Misuse (NoSub, Gathered). */
    std::uint64_t close(std::uint16_t vl, std::uint8_t sub) {
        std::uint64_t total = 0;
        detail::want(afdx_close(handle_.get(), vl, sub, &total));
        return total;
    }

    /* The counts of a virtual link. Throws Misuse (NoLink). */
    afdx_counts counts(std::uint16_t vl) const {
        afdx_counts counts = afdx_counts();
        detail::want(afdx_link_counts(handle_.get(), vl, &counts));
        return counts;
    }

    /* Takes back a port of this end system, which is empty then. Throws Misuse (Gathered, NoPort), and the port is
       unchanged. */
    void give_back(Port &&port) { detail::want(afdx_give_back(handle_.get(), port.handle_.get())); }

    /* Makes each later poll transmit what is left. Throws Misuse (PortMissing while a port is out, Gathered). */
    void gather() { detail::want(afdx_gather(handle_.get())); }

    /* Whether all accepted messages were transmitted. Throws Misuse (NotGathered). */
    bool is_done() const {
        std::uint8_t done = 0;
        detail::want(afdx_is_done(handle_.get(), &done));
        return done != 0;
    }

private:
    template <typename Call> std::vector<std::uint16_t> listed(Call call) const {
        std::vector<std::uint16_t> ids(AFDX_MOST_PORTS);
        std::size_t count = 0;
        detail::want(call(handle_.get(), ids.data(), ids.size(), &count));
        ids.resize(count);
        return ids;
    }

    detail::Handle<afdx_end_system> handle_;
};

} // namespace afdx

#endif
