// Memory lent to the library: it ends where the next page cannot be touched, or begins where the page before cannot, and the rest is filled with a pattern that is
// looked at afterwards. A read past the end stops the program, and a write beside the slice is seen.
#pragma once
#include <sys/mman.h>
#include <unistd.h>

#include <cstdint>
#include <cstring>
#include <stdexcept>
#include <vector>

template <class T>
class Guarded {
    uint8_t *pages;
    size_t page = size_t(sysconf(_SC_PAGESIZE)), inner;
    std::vector<uint8_t> before;

   public:
    explicit Guarded(size_t most) : inner((most * sizeof(T) / page + 1) * page) {
        void *all = mmap(nullptr, inner + 2 * page, PROT_READ | PROT_WRITE, MAP_PRIVATE | MAP_ANONYMOUS, -1, 0);
        if (all == MAP_FAILED) throw std::runtime_error("mmap");
        pages = static_cast<uint8_t *>(all);
        if (mprotect(pages, page, PROT_NONE) || mprotect(pages + page + inner, page, PROT_NONE)) throw std::runtime_error("mprotect");
    }

    Guarded(const Guarded &) = delete;
    ~Guarded() { munmap(pages, inner + 2 * page); }

    // A slice of that many elements that ends (or begins) at the guard, the whole filled with a pattern.
    T *slice(size_t count, bool at_end) {
        uint8_t *data = pages + page;
        for (size_t k = 0; k < inner; ++k) data[k] = uint8_t(k * 37 + 11);
        before.assign(data, data + inner);
        return reinterpret_cast<T *>(at_end ? data + inner - count * sizeof(T) : data);
    }

    T *copy(const std::vector<T> &values, bool at_end) {
        T *s = slice(values.size(), at_end);
        if (!values.empty()) std::memcpy(s, values.data(), values.size() * sizeof(T));
        before.assign(pages + page, pages + page + inner);
        return s;
    }

    // What the memory should hold where the first elements of the slice were written, and nothing else.
    bool only_changed(const T *s, const std::vector<T> &front) {
        size_t at = size_t(reinterpret_cast<const uint8_t *>(s) - (pages + page));
        if (!front.empty()) std::memcpy(before.data() + at, front.data(), front.size() * sizeof(T));
        return std::memcmp(before.data(), pages + page, inner) == 0;
    }

    bool unchanged() { return std::memcmp(before.data(), pages + page, inner) == 0; }
};
