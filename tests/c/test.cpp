// Tests afdx.hpp: objects are moved and never copied, each fault is an exception, and a port sends from a thread of its own.
//
//     test CONFIG
//
// CONFIG is the demonstration configuration. Each failed check is printed; the last line is 'N passed, M failed'.
#include <afdx.hpp>

#include <algorithm>
#include <chrono>
#include <cstdio>
#include <fstream>
#include <iterator>
#include <string>
#include <thread>
#include <type_traits>
#include <utility>
#include <vector>

using afdx::ConfigFault;
using afdx::MisuseFault;
using afdx::Network;
using afdx::SendFault;

template <typename Of> constexpr bool is_move_only() {
    return std::is_nothrow_move_constructible<Of>::value && std::is_nothrow_move_assignable<Of>::value
        && !std::is_copy_constructible<Of>::value && !std::is_copy_assignable<Of>::value;
}
static_assert(is_move_only<afdx::EndSystem>() && is_move_only<afdx::Port>(), "objects are moved and never copied");
static_assert(!std::is_default_constructible<afdx::Port>::value, "a port is one of an end system");

static int passed, failed;

static void check(bool holds, int line, const char *text) {
    if (holds) {
        passed++;
    } else {
        failed++;
        std::printf("line %d: %s\n", line, text);
    }
}
#define CHECK(...) check((__VA_ARGS__), __LINE__, #__VA_ARGS__)

// Whether a call throws this type of exception with this fault.
template <typename Kind, typename Fault, typename Call> static bool throws(Fault fault, Call call) {
    try {
        call();
    } catch (const Kind &error) {
        return error.fault() == fault && std::string(error.what()).compare(0, 5, "AFDX_") == 0;
    }
    return false;
}
template <typename Call> static bool is_misuse(MisuseFault fault, Call call) { return throws<afdx::Misuse>(fault, call); }

static std::string replaced(std::string text, const std::string &old, const std::string &by) {
    return text.replace(text.find(old), old.size(), by);
}

// Whether a plan is refused in these words.
static bool says(const std::string &text, const std::string &words) {
    try {
        afdx::EndSystem it(text);
    } catch (const afdx::ConfigError &error) {
        return error.what() == words;
    }
    return false;
}

static void try_opening(const std::string &demo) {
    const auto is_refused = [](ConfigFault fault, const std::string &text) {
        return throws<afdx::ConfigError>(fault, [&] { afdx::EndSystem it(text); });
    };
    CHECK(is_refused(ConfigFault::Toml, replaced(demo, "[end_system]", "[")));
    CHECK(is_refused(ConfigFault::MissingKey, ""));
    CHECK(is_refused(ConfigFault::OutOfRange, replaced(demo, "1518", "63")));
    CHECK(is_refused(ConfigFault::BadBag, replaced(demo, "bag_ms = 1", "bag_ms = 3")));
    CHECK(is_refused(ConfigFault::NoSuchSub, replaced(demo, "sub = 0", "sub = 1")));
    CHECK(afdx::explain(demo) == "no faults\n");
    CHECK(afdx::explain(replaced(demo, "1518", "63")) == "1 fault\n5 OutOfRange: vl 1 (id 1), lmax is 63: 64 to 1518\n");
    CHECK(says(replaced(demo, "1518", "63"), "AFDX_CONFIG_OUT_OF_RANGE\n1 fault\n5 OutOfRange: vl 1 (id 1), lmax is 63: 64 to 1518"));
    CHECK(says("", "AFDX_CONFIG_MISSING_KEY\n" + afdx::explain("").substr(0, afdx::explain("").size() - 1)));
    std::string many;
    for (int k = 0; k < 1002; k++) many += "k" + std::to_string(k) + " = 1\n";
    const std::string told = afdx::explain(many + demo);
    CHECK(told.rfind("1002 faults\n", 0) == 0 && std::count(told.begin(), told.end(), '\n') == 1002);
    CHECK(told.size() > 11 && told.compare(told.size() - 11, 11, "and 2 more\n") == 0);
}

// Whether a call tells that the recorder of a capture lost packets.
template <typename Call> static bool loses(Call call) {
    try {
        call();
    } catch (const afdx::LostPackets &error) {
        return error.findings.empty() && error.judged.b.end == AFDX_CAPTURE_WHOLE;
    }
    return false;
}

// An empty capture is cut off; a section of pcapng without interfaces has no packets.
static void try_judging(const std::string &demo) {
    const std::string section("\n\r\r\n\x1c\0\0\0\x4d\x3c\x2b\x1a\1\0\0\0\xff\xff\xff\xff\xff\xff\xff\xff\x1c\0\0\0", 28);
    const std::string packet("\3\0\0\0\x10\0\0\0\0\0\0\0\x10\0\0\0", 16);
    const std::string interface("\1\0\0\0\x14\0\0\0\1\0\0\0\0\0\0\0\x14\0\0\0", 20);
    const afdx_judge_options options = {0, 10000, 0, 0, 0};
    CHECK(afdx::judge(demo, section, options).empty() && afdx::judge(demo, section, section, options).empty());
    const std::vector<afdx_finding> found = afdx::judge(demo, section + interface + packet + packet, options);
    CHECK(found.size() == 2 && found[1].packet == 2 && afdx_finding_name(&found[0]) == std::string("Frame Time"));
    CHECK(throws<afdx::ConfigError>(ConfigFault::Toml, [&] { afdx::judge("[", section, options); }));
    bool is_thrown = false;
    try {
        afdx::judge(demo, section + interface + packet, "", options);
    } catch (const afdx::BadCapture &error) {
        is_thrown = error.findings.size() == 1 && error.judged.b.end == AFDX_CAPTURE_CUT_OFF;
    }
    CHECK(is_thrown);
    // Statistics of the interface tell of two packets that it dropped.
    const std::string statistics("\5\0\0\0\x24\0\0\0\0\0\0\0\0\0\0\0\0\0\0\0\5\0\b\0\2\0\0\0\0\0\0\0\x24\0\0\0", 36);
    const std::string lossy = section + interface + statistics;
    CHECK(afdx::lost(lossy) == 2 && afdx::lost(section) == 0);
    CHECK(loses([&] { afdx::judge(demo, lossy, options); }) && loses([&] { afdx::judge(demo, section, lossy, options); }));
}

static void try_sending(const std::string &demo) {
    afdx::EndSystem it(demo);
    afdx::Port port = it.port(10);
    const auto is_refused = [&](SendFault fault, const std::string &message) {
        return throws<afdx::SendError>(fault, [&] { port.send(message); });
    };
    CHECK(is_refused(SendFault::Empty, ""));
    CHECK(throws<afdx::SendError>(SendFault::Empty, [&] { port.send(std::vector<std::uint8_t>()); }));
    CHECK(is_refused(SendFault::TooLong, std::string(8193, 'x')));
    port.send(std::vector<std::uint8_t>(8192));
    port.send(std::string("x"));
    CHECK(is_refused(SendFault::Full, "x"));
    const std::uint8_t byte = 0;
    CHECK(port.try_send(&byte, 1) == AFDX_FULL && port.accepted() == 2);
    CHECK(it.close(1, 0) == 2);
    CHECK(is_refused(SendFault::Closed, "x"));
}

static void try_misuse(const std::string &demo) {
    afdx::EndSystem it(demo);
    afdx::Port port = it.port(10);
    std::uint8_t buffer[59];
    port.send(std::string("x"));
    CHECK(it.poll(7).a && it.frames(Network::A) == 1 && it.counts(1).frames == 1);
    CHECK(is_misuse(MisuseFault::TimeBack, [&] { it.poll(6); }));
    CHECK(is_misuse(MisuseFault::NoPort, [&] { it.port(10); }));
    CHECK(is_misuse(MisuseFault::NoSub, [&] { it.close(1, 1); }));
    CHECK(is_misuse(MisuseFault::NoLink, [&] { it.counts(2); }));
    CHECK(is_misuse(MisuseFault::NoNetwork, [&] { it.fail(static_cast<Network>(2)); }));
    CHECK(is_misuse(MisuseFault::NoFrame, [&] { it.frame(Network::B, 1, buffer, sizeof buffer); }));
    CHECK(is_misuse(MisuseFault::SmallBuffer, [&] { it.frame(Network::B, 0, buffer, sizeof buffer); }));
    CHECK(it.released(Network::B, 0).vl == 1 && it.released(Network::B, 0).sub == 0 && it.released(Network::B, 0).number == 0);
    CHECK(is_misuse(MisuseFault::NoFrame, [&] { it.released(Network::A, 1); }));
    CHECK(is_misuse(MisuseFault::PortMissing, [&] { it.gather(); }));
    CHECK(is_misuse(MisuseFault::NotGathered, [&] { it.is_done(); }));
}

static void try_listing(const std::string &demo) {
    afdx::EndSystem it(demo);
    CHECK(it.ports() == std::vector<std::uint16_t>{10} && it.links() == std::vector<std::uint16_t>{1});
    CHECK(it.next_due() == AFDX_NEVER);
    it.port(10).send(std::string("x"));
    it.poll(5);
    CHECK(it.next_due() == 1005);
    std::uint8_t buffer[60];
    std::size_t length = 0;
    CHECK(it.all_frames(Network::B, buffer, sizeof buffer, &length, 1) == 1 && length == 60 && buffer[42] == 'x');
    CHECK(is_misuse(MisuseFault::SmallBuffer, [&] { it.all_frames(Network::A, buffer, 59, &length, 1); }));
    CHECK(is_misuse(MisuseFault::SmallBuffer, [&] { it.all_frames(Network::A, buffer, 60, &length, 0); }));
    afdx::EndSystem other(demo);
    afdx::Port foreign = other.port(10);
    CHECK(is_misuse(MisuseFault::NoPort, [&] { it.give_back(std::move(foreign)); }));
    other.give_back(std::move(foreign));
    other.gather();
}

static void try_moving(const std::string &demo) {
    afdx::EndSystem first(demo);
    afdx::Port port = first.port(10);
    port.send(std::string("x"));
    afdx::Port moved = std::move(port);
    CHECK(moved.accepted() == 1 && is_misuse(MisuseFault::NotHeld, [&] { port.accepted(); }));
    afdx::EndSystem it = std::move(first);
    CHECK(it.poll(0).b && is_misuse(MisuseFault::NotHeld, [&] { first.poll(0); }));
    it.give_back(std::move(moved));
    CHECK(is_misuse(MisuseFault::NotHeld, [&] { moved.accepted(); }));
    CHECK(is_misuse(MisuseFault::NotHeld, [&] { it.give_back(std::move(moved)); }));
    CHECK(it.port(10).accepted() == 1); // (freed at once, and so it is missing)
    CHECK(is_misuse(MisuseFault::PortMissing, [&] { it.gather(); }));
    it = afdx::EndSystem(demo);
    it.gather();
    CHECK(it.is_done() && is_misuse(MisuseFault::Gathered, [&] { it.port(10); }));
}

static void try_failing(const std::string &demo) {
    afdx::EndSystem it(demo);
    it.port(10).send(std::string("x"));
    it.fail(Network::A);
    it.fail(Network::B);
    const afdx::EndSystem::Up up = it.poll(0);
    CHECK(!up.a && !up.b);
    bool is_thrown = false;
    try {
        it.poll(1);
    } catch (const afdx::BothDown &error) {
        is_thrown = error.what() == std::string("AFDX_BOTH_DOWN");
    }
    CHECK(is_thrown);
}

static void send_all(afdx::Port port) {
    for (unsigned k = 0; k < 1000; k++) {
        const auto byte = static_cast<std::uint8_t>(k);
        while (port.try_send(&byte, 1) == AFDX_FULL) std::this_thread::yield();
    }
}

// A port is moved into a thread and sends and ends there. All that it sent is transmitted, in order.
static void try_thread(const std::string &demo) {
    afdx::EndSystem it(demo);
    std::thread sender(send_all, it.port(10));
    const auto end = std::chrono::steady_clock::now() + std::chrono::minutes(2);
    unsigned came = 0, in_order = 0;
    for (std::uint64_t now = 0; came < 1000 && std::chrono::steady_clock::now() < end; now += 1000) {
        it.poll(now);
        it.each_frame(Network::A, [&](const std::uint8_t *frame, std::size_t length) {
            in_order += length == 60 && frame[42] == (came & 0xff);
            came++;
        });
        std::this_thread::yield();
    }
    it.close(1, 0); // (so the sender ends, also if messages are missing)
    sender.join();
    CHECK(came == 1000 && in_order == 1000);
}

int main(int argc, char **argv) {
    if (argc != 2) return 2;
    std::ifstream file(argv[1], std::ios::binary);
    const std::string demo{std::istreambuf_iterator<char>(file), std::istreambuf_iterator<char>()};
    try {
        for (auto test : {try_opening, try_judging, try_sending, try_misuse, try_listing, try_moving, try_failing, try_thread}) test(demo);
    } catch (const std::exception &error) {
        check(false, __LINE__, error.what());
    }
    std::printf("%d passed, %d failed\n", passed, failed);
    return failed != 0;
}
