// Sends one byte through port 10 of a plan, and prints its frame for each network.
//
//     main CONFIG
#include <afdx.hpp>

#include <cstdio>
#include <fstream>
#include <iterator>
#include <string>

static void print(char network, const std::uint8_t *frame, std::size_t length) {
    std::printf("%c 0 ", network);
    for (std::size_t i = 0; i < length; i++) std::printf("%02x", frame[i]);
    std::printf("\n");
}

static void send_one(const std::string &config) {
    afdx::EndSystem it(config);
    afdx::Port port = it.port(10);
    port.send(std::string("\x01"));
    it.poll(0);
    it.each_frame(afdx::Network::A, [](const std::uint8_t *frame, std::size_t length) { print('A', frame, length); });
    it.each_frame(afdx::Network::B, [](const std::uint8_t *frame, std::size_t length) { print('B', frame, length); });
}

int main(int argc, char **argv) {
    if (argc != 2) {
        std::fprintf(stderr, "usage: main CONFIG\n");
        return 2;
    }
    std::ifstream file(argv[1], std::ios::binary);
    try {
        send_one(std::string(std::istreambuf_iterator<char>(file), std::istreambuf_iterator<char>()));
    } catch (const afdx::Error &error) {
        std::fprintf(stderr, "%s\n", error.what());
        return 1;
    }
    return 0;
}
