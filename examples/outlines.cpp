// A list of outlines on a card: each read as the part of the row that holds it, and one corrected by another of its length.
#include <cstdint>
#include <iostream>
#include <stdexcept>
#include <string>
#include <string_view>
#include <vector>

#include "../desk/loafcompass.h"

// What the library refused, with its number.
struct Refused : std::runtime_error {
    explicit Refused(uint64_t answer) : std::runtime_error("refused " + std::to_string(loaf_number(answer))) {}
};

static uint32_t taken(uint64_t answer) {
    if (loaf_number(answer)) throw Refused(answer);
    return loaf_length(answer);
}

static const uint8_t *bytes(std::string_view s) { return reinterpret_cast<const uint8_t *>(s.data()); }

class Row {
public:
    Row(std::string schema, std::string_view listing) : schema_(std::move(schema)), row_(16384) {
        row_.resize(taken(loaf_write(bytes(schema_), schema_.size(), bytes(listing), listing.size(), row_.data(), row_.size())));
    }

    uint64_t count(const std::vector<uint32_t> &path) const { return read(path)[3]; }

    std::string_view text(const std::vector<uint32_t> &path) const {
        const std::vector<uint64_t> answer = read(path);
        if (answer[0] != LOAF_BYTES) return "(none)";
        return {reinterpret_cast<const char *>(row_.data()) + answer[1], static_cast<size_t>(answer[2])};
    }

    void set_text(const std::vector<uint32_t> &path, std::string_view text) {
        taken(loaf_set(bytes(schema_), schema_.size(), row_.data(), row_.size(), path.data(), path.size(), LOAF_BYTES, 0, bytes(text), text.size()));
    }

private:
    std::vector<uint64_t> read(const std::vector<uint32_t> &path) const {
        std::vector<uint64_t> answer(4);
        taken(loaf_read(bytes(schema_), schema_.size(), row_.data(), row_.size(), path.data(), path.size(), answer.data(), answer.size()));
        return answer;
    }

    std::string schema_;
    std::vector<uint8_t> row_;
};

static void show(const Row &row) {
    for (uint32_t i = 0; i < row.count({0}); i++) std::cout << i << ' ' << row.text({0, i}) << '\n';
}

int main() {
    using namespace std::string_literals;
    // one field, a list of strings; the second outline is null
    Row row("ro\1list"s, "ro" "li\3\0\0\0" "st\3\0\0\0STK" "nu" "st\3\0\0\0PWR"s);
    show(row);
    row.set_text({0, 2}, "TPH");
    show(row);
    try {
        row.set_text({0, 0}, "TP");
    } catch (const Refused &refusal) {
        std::cout << "two bytes for three: " << refusal.what() << '\n';
    }
    return 0;
}
