// Draws the sheet in a file, and prints the drawing or the refusal as the program place does.
//
// Exit status: 0 drawn, 1 refused, 2 the file cannot be read or the answer cannot be written.
#include <array>
#include <cstdint>
#include <fstream>
#include <iostream>
#include <strip.h>
#include <vector>

// The first bytes of a file, one more than any sheet has: no answer depends on a later one.
std::vector<std::uint8_t> contents(std::ifstream &file) {
    std::vector<std::uint8_t> bytes(STRIP_MAX_SHEET_BYTES + 1);
    file.read(reinterpret_cast<char *>(bytes.data()), static_cast<std::streamsize>(bytes.size()));
    bytes.resize(static_cast<std::size_t>(file.gcount()));
    return bytes;
}

// Prints the total, then layer, position and place of each node.
void print(const std::uint16_t *numbers, std::uint32_t total, const std::uint16_t *place) {
    std::cout << "total " << total << '\n';
    std::size_t at = 2;
    for (int layer = 1; layer <= numbers[1]; layer++) {
        for (int position = 1; position <= numbers[at]; position++)
            std::cout << layer << ' ' << position << ' ' << *place++ << '\n';
        at += 2u * numbers[at] - 1;
    }
}

int main(int argc, char **argv) {
    if (argc != 2) {
        std::cerr << "usage: draw FILE\n";
        return 2;
    }
    std::ifstream file(argv[1], std::ios::binary);
    const auto sheet = contents(file);
    if (!file.is_open() || file.bad()) {
        std::cerr << "draw: cannot read " << argv[1] << '\n';
        return 2;
    }
    std::array<std::uint16_t, STRIP_MAX_NUMBERS> numbers;
    std::array<std::uint16_t, STRIP_MAX_PLACES> places;
    std::array<std::int32_t, STRIP_MAX_LIST> list;
    auto answer = strip_read(sheet.data(), sheet.size(), numbers.data(), numbers.size());
    if (strip_refusal(answer) == STRIP_OK)
        answer = strip_draw(sheet.data(), sheet.size(), places.data(), places.size(), list.data(),
                            list.size());
    const bool drawn = strip_refusal(answer) == STRIP_OK;
    if (drawn)
        print(numbers.data(), strip_value(answer), places.data());
    else
        std::cout << "refused " << strip_refusal(answer) << " at " << strip_value(answer) << '\n';
    if (!std::cout.flush()) {
        std::cerr << "draw: cannot write the answer\n";
        return 2;
    }
    return drawn ? 0 : 1;
}
