// usage: read_class [STACK]
//
// Reads the input of one class from standard input (docs/MANUAL.md, "The program"), calls the reader, and prints the line: number, detail,
// sheet and text. With STACK the call is made on a thread that has that many bytes of stack (std::thread can't say how many).
#include <array>
#include <cstdint>
#include <cstdio>
#include <cstdlib>
#include <pthread.h>
#include <stdexcept>
#include <string>
#include <utility>
#include <vector>

#include "sheet_reader.h"

namespace {

struct Class {
    std::int32_t k, major, minor, patch;
    std::vector<std::uint16_t> d1, d2;
    std::vector<std::uint32_t> ends;
};

struct Areas {
    std::vector<std::uint8_t> sheet, text;
};

using Answer = std::array<std::uint64_t, SHEET_ANSWER>;

// An empty vector's data() may be null, which the reader must not be handed: then any object of the type will do. Nothing is read or
// written there, the count being 0.
template <class T> T *lent(std::vector<T> &v) {
    static T none;
    return v.empty() ? &none : v.data();
}

template <class T> const T *lent(const std::vector<T> &v) {
    static const T none{};
    return v.empty() ? &none : v.data();
}

Answer read(const Class &c, Areas &areas) {
    Answer answer{};
    sheet_read(c.k, c.major, c.minor, c.patch, lent(c.d1), c.d1.size(), lent(c.d2), c.d2.size(), lent(c.ends), c.ends.size(),
               lent(areas.sheet), areas.sheet.size(), lent(areas.text), areas.text.size(), answer.data());
    return answer;
}

struct Call {
    const Class &input;
    Areas &areas;
    Answer answer;
};

void *make_call(void *lent_call) {
    Call &call = *static_cast<Call *>(lent_call);
    call.answer = read(call.input, call.areas);
    return nullptr;
}

Answer read_on_thread(const Class &c, Areas &areas, std::size_t stack) {
    Call call{c, areas, {}};
    pthread_t thread;
    pthread_attr_t attributes;
    if (pthread_attr_init(&attributes) || pthread_attr_setstacksize(&attributes, stack)) throw std::runtime_error("no such stack");
    int failed = pthread_create(&thread, &attributes, make_call, &call);
    pthread_attr_destroy(&attributes);
    if (failed || pthread_join(thread, nullptr)) throw std::runtime_error("no thread");
    return call.answer;
}

// What is announced and isn't there.
struct TooShort {};

class Bytes {
public:
    explicit Bytes(std::vector<unsigned char> bytes) : bytes_(std::move(bytes)) {}

    std::uint32_t number(std::size_t width) {
        if (bytes_.size() - at_ < width) throw TooShort{};
        std::uint32_t n = 0;
        for (std::size_t i = 0; i < width; i++) n |= std::uint32_t(bytes_[at_++]) << 8 * i;
        return n;
    }

    template <class T> std::vector<T> numbers() {
        std::uint32_t count = number(4);
        if ((bytes_.size() - at_) / sizeof(T) < count) throw TooShort{};
        std::vector<T> all;
        while (all.size() < count) all.push_back(T(number(sizeof(T))));
        return all;
    }

private:
    std::vector<unsigned char> bytes_;
    std::size_t at_ = 0;
};

Class input_of(Bytes bytes) {
    Class c;
    for (std::int32_t *n : {&c.k, &c.major, &c.minor, &c.patch}) *n = std::int32_t(bytes.number(4));
    c.d1 = bytes.numbers<std::uint16_t>();
    c.d2 = bytes.numbers<std::uint16_t>();
    c.ends = bytes.numbers<std::uint32_t>();
    return c;
}

std::string hex(const std::vector<std::uint8_t> &bytes, std::uint64_t length) {
    std::string text = length ? "" : "-";
    for (std::uint64_t i = 0; i < length; i++) {
        text += "0123456789abcdef"[bytes[i] >> 4];
        text += "0123456789abcdef"[bytes[i] & 15];
    }
    return text;
}

std::vector<unsigned char> standard_input() {
    std::vector<unsigned char> all;
    for (int byte; (byte = std::getchar()) != EOF;) all.push_back(static_cast<unsigned char>(byte));
    return all;
}

} // namespace

int main(int argc, char **argv) {
    try {
        Class c = input_of(Bytes(standard_input()));
        Areas areas{std::vector<std::uint8_t>(65536), std::vector<std::uint8_t>(65536)};
        Answer a = argc > 1 ? read_on_thread(c, areas, std::strtoul(argv[1], nullptr, 10)) : read(c, areas);
        std::printf("%llu %llu %s %s\n", static_cast<unsigned long long>(a[SHEET_NUMBER]), static_cast<unsigned long long>(a[SHEET_DETAIL]),
                    hex(areas.sheet, a[SHEET_LENGTH]).c_str(), hex(areas.text, a[SHEET_TEXT_LENGTH]).c_str());
    } catch (TooShort) {
        std::puts("input");
    } catch (const std::exception &e) {
        std::fprintf(stderr, "read_class: %s\n", e.what());
        return 2;
    }
    return 0;
}
