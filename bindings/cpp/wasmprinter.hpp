// wasmprinter.hpp: prints WebAssembly modules, from the binary format to the text format. For C++17 and later.
//
//     std::string text = wasmprinter::print(wasm);
//
// All functions are inline, and print by those of wasmprinter.h. Its head says how to link the library, and its statements on lengths, places
// and threads hold here too. Each function that prints throws Error if the module can't be printed, std::bad_alloc if memory is missing, and
// std::length_error if a name in Options::omitted has 4 GiB or more.
#ifndef WASMPRINTER_HPP
#define WASMPRINTER_HPP

#if __cplusplus < 201703L
#error "wasmprinter.hpp needs C++17"
#endif

#include "wasmprinter.h"

#include <algorithm>
#include <cstddef>
#include <cstdint>
#include <cstdlib>
#include <iterator>
#include <memory>
#include <new>
#include <optional>
#include <stdexcept>
#include <string>
#include <string_view>
#include <type_traits>
#include <utility>
#include <vector>

namespace wasmprinter {

// The options of printing.
struct Options {
    bool offsets = false;           // begin each line after the first with its place
    bool skeleton = false;          // leave out bodies, items of element segments, and bytes of data segments and (@custom ..)
    bool name_unnamed = false;      // synthesize identifiers for items and labels without a name
    bool fold = false;              // put each operator in parentheses with its operands
    std::string_view indent = "  "; // the text of one level of nesting, in UTF-8
    std::size_t limit = 0;          // the greatest length of the text in bytes; 0: no limit
    // The names of custom sections to leave out, as WasmprinterOptions.omitted describes.
    std::vector<std::string_view> omitted = {};
};

// The reason why a module was not printed. what() describes it, as `malformed module at byte 0x1f`.
class Error : public std::runtime_error {
  public:
    Error(WasmprinterStatus status, std::uint64_t detail)
        : std::runtime_error(describe(status, detail)), status_(status), detail_(detail) {}

    // Returns the number of the error, such as WASMPRINTER_MALFORMED. It is WASMPRINTER_TOO_LONG if the text is longer than the limit. It is
    // never WASMPRINTER_MEMORY: then std::bad_alloc is thrown.
    WasmprinterStatus status() const noexcept { return status_; }

    // Returns the place, count, id or bits of the error, as wasmprinter.h describes it, or 0 if it has none.
    std::uint64_t detail() const noexcept { return detail_; }

  private:
    static std::string describe(WasmprinterStatus status, std::uint64_t detail) {
        char text[WASMPRINTER_ERROR_TEXT_LEN + 1];
        wasmprinter_error_text(status, detail, wasmprinter_buffer(text, sizeof text));
        return text;
    }

    WasmprinterStatus status_;
    std::uint64_t detail_;
};

namespace detail {

// Frees a block from malloc or realloc.
struct Free {
    void operator()(void *block) const noexcept { std::free(block); }
};

// An array whose elements are not initialized, so that only the printer writes to them. Pages that are not written to take no memory. A vector
// takes time for each element if the compiler does not optimize, even if its allocator initializes none.
template <typename T> class Array {
    static_assert(std::is_trivial_v<T>);

  public:
    Array() = default;

    // Allocates an array of this length, or an empty one if memory is missing.
    explicit Array(std::size_t size) noexcept
        : block_(size <= SIZE_MAX / sizeof(T) ? static_cast<T *>(std::malloc(size * sizeof(T))) : nullptr), size_(block_ ? size : 0) {}

    Array(const Array &other) : Array(other.size_) {
        if (size_ < other.size_) {
            throw std::bad_alloc();
        }
        std::copy_n(other.data(), size_, data());
    }
    Array(Array &&other) noexcept : block_(std::move(other.block_)), size_(std::exchange(other.size_, 0)) {}
    Array &operator=(Array other) noexcept {
        block_ = std::move(other.block_);
        size_ = other.size_;
        return *this;
    }

    T *data() noexcept { return block_.get(); }
    const T *data() const noexcept { return block_.get(); }
    std::size_t size() const noexcept { return size_; }
    bool empty() const noexcept { return size_ == 0; }
    const T &operator[](std::size_t index) const noexcept { return block_[index]; }

    // Leaves out the elements from this index on.
    void shorten(std::size_t size) noexcept { size_ = size; }

  private:
    std::unique_ptr<T[], Free> block_;
    std::size_t size_ = 0;
};

// The text of a module, and the table of its lines or of its events.
struct Printed {
    Array<char> text;
    Array<WasmprinterEvent> table;

    std::string_view view() const noexcept { return {text.data(), text.size()}; }
};

// Returns bytes of another type as a view.
inline std::string_view view_of(const void *bytes, std::size_t size) noexcept { return {static_cast<const char *>(bytes), size}; }

inline WasmprinterBytes bytes_of(std::string_view bytes) noexcept { return wasmprinter_bytes(bytes.data(), bytes.size()); }

// Returns the names as a list for C. Throws std::length_error if a name has 2^32 bytes or more.
inline std::string list_of(const std::vector<std::string_view> &names) {
    std::string list;
    for (const std::string_view name : names) {
        if (name.size() > UINT32_MAX) {
            throw std::length_error("wasmprinter: a name of a custom section has 2^32 bytes or more");
        }
        const std::size_t size = list.size();
        list.resize(wasmprinter_add_name({nullptr, 0}, size, name.data(), name.size()));
        wasmprinter_add_name({list.data(), list.size()}, size, name.data(), name.size());
    }
    return list;
}

// Returns the options for C with a list of names. An empty indent stays empty, even if its pointer is null.
inline WasmprinterOptions options_of(const Options &options, const std::string &list) noexcept {
    WasmprinterOptions chosen = {0, bytes_of(options.indent.empty() ? "" : options.indent), options.limit, bytes_of(list)};
    chosen.flags |= options.offsets ? WASMPRINTER_OFFSETS : 0;
    chosen.flags |= options.skeleton ? WASMPRINTER_SKELETON : 0;
    chosen.flags |= options.name_unnamed ? WASMPRINTER_NAME_UNNAMED : 0;
    chosen.flags |= options.fold ? WASMPRINTER_FOLD : 0;
    return chosen;
}

// Throws the error, if there is one.
inline void check(WasmprinterStatus status, const WasmprinterResult &result) {
    if (status == WASMPRINTER_MEMORY) {
        throw std::bad_alloc();
    }
    if (status != WASMPRINTER_OK) {
        throw Error(status, result.detail);
    }
}

// Returns the expected length of the text of a module of this size. Nearly every text has at most 32 bytes for each byte of the module.
inline std::size_t expected_length(std::size_t wasm_size, std::size_t limit) noexcept {
    constexpr std::size_t expected = 32, least = 4096;
    const std::size_t length = wasm_size < SIZE_MAX / (2 * expected) ? wasm_size * expected + least : least;
    return limit != 0 && limit < length ? limit : length;
}

// Prints a module with the table that the options choose. `count` is the expected length of the table. If the text or the table is longer than
// expected, or if there is not enough memory for the expected lengths, the module is printed again.
inline Printed print_whole(std::string_view wasm, const WasmprinterOptions &chosen, std::size_t count) {
    std::size_t length = expected_length(wasm.size(), chosen.limit);
    for (bool is_measured = false;; is_measured = true) {
        Array<char> text(length);
        Array<WasmprinterEvent> table(count);
        if (is_measured && (text.size() < length || table.size() < count)) {
            throw std::bad_alloc();
        }
        WasmprinterResult result = {0, 0, 0};
        check(wasmprinter_print_lines(bytes_of(wasm), &chosen, {text.data(), text.size()}, {table.data(), table.size()}, &result), result);
        if (result.length <= text.size() && result.count <= table.size()) {
            text.shorten(result.length);
            table.shorten(result.count);
            return {std::move(text), std::move(table)};
        }
        length = result.length;
        count = result.count;
    }
}

// Returns the ANSI escape sequences that `printwasm --color` writes for an event of this kind.
inline std::string_view sequence_of(std::uint32_t kind) noexcept {
    switch (kind) {
    case WASMPRINTER_NAME: return "\x1b[0m\x1b[35m";
    case WASMPRINTER_LITERAL: return "\x1b[0m\x1b[31m";
    case WASMPRINTER_KEYWORD: return "\x1b[0m\x1b[1m\x1b[38;5;11m";
    case WASMPRINTER_TYPE: return "\x1b[0m\x1b[1m\x1b[38;5;10m";
    case WASMPRINTER_COMMENT: return "\x1b[0m\x1b[36m";
    case WASMPRINTER_RESET: return "\x1b[0m";
    default: return {};
    }
}

} // namespace detail

// The text of a module, in the block that it was printed to. It is not copied, so this is faster than a string. A view of it is valid until it
// is destroyed, moved or assigned to.
class Text {
  public:
    Text() = default; // the empty text

    std::string_view view() const noexcept { return block_ ? std::string_view(block_.get(), size_) : std::string_view(); }
    operator std::string_view() const noexcept { return view(); }

    // Returns the text with a zero byte at its end.
    const char *c_str() const noexcept { return block_ ? block_.get() : ""; }
    std::size_t size() const noexcept { return view().size(); }

  private:
    friend Text print_text(std::string_view wasm, const Options &options);
    Text(std::unique_ptr<char, detail::Free> block, std::size_t size) noexcept : block_(std::move(block)), size_(size) {}

    std::unique_ptr<char, detail::Free> block_;
    std::size_t size_ = 0;
};

// Returns the text of a module, without a copy.
[[nodiscard]] inline Text print_text(std::string_view wasm, const Options &options = {}) {
    const std::string list = detail::list_of(options.omitted);
    const WasmprinterOptions chosen = detail::options_of(options, list);
    WasmprinterBuffer text = {nullptr, 0};
    WasmprinterResult result = {0, 0, 0};
    const WasmprinterStatus status = wasmprinter_print_alloc(detail::bytes_of(wasm), &chosen, nullptr, nullptr, &text, &result);
    std::unique_ptr<char, detail::Free> block(text.ptr);
    detail::check(status, result);
    return {std::move(block), text.len};
}

// Returns the text of a module as a string, which is a copy of the text that is printed.
[[nodiscard]] inline std::string print(std::string_view wasm, const Options &options = {}) {
    return std::string(print_text(wasm, options).view());
}

// A line of a text.
struct Line {
    std::optional<std::uint64_t> place; // the place of the line in the module, if it has one
    std::string_view text;              // the line with its line feed
};

// The lines of a text. The views that it returns are valid until it is destroyed, moved or assigned to.
class Lines {
  public:
    // Goes through the lines.
    class iterator {
      public:
        using iterator_category = std::input_iterator_tag; // since `*` returns a value
        using value_type = Line;
        using difference_type = std::ptrdiff_t;
        using pointer = void;
        using reference = Line;

        iterator() = default;
        Line operator*() const noexcept { return (*lines_)[index_]; }
        iterator &operator++() noexcept {
            ++index_;
            return *this;
        }
        iterator operator++(int) noexcept { return iterator(lines_, index_++); }
        friend bool operator==(const iterator &a, const iterator &b) noexcept { return a.index_ == b.index_; }
        friend bool operator!=(const iterator &a, const iterator &b) noexcept { return a.index_ != b.index_; }

      private:
        friend class Lines;
        iterator(const Lines *lines, std::size_t index) noexcept : lines_(lines), index_(index) {}

        const Lines *lines_ = nullptr;
        std::size_t index_ = 0;
    };
    using const_iterator = iterator;
    using value_type = Line;

    // Returns the whole text.
    std::string_view text() const noexcept { return printed_.view(); }

    // Returns the number of lines.
    std::size_t size() const noexcept { return printed_.table.size(); }
    bool empty() const noexcept { return printed_.table.empty(); }

    // Returns a line. The index must be less than size().
    Line operator[](std::size_t index) const noexcept {
        const detail::Array<WasmprinterEvent> &table = printed_.table;
        const WasmprinterEvent &line = table[index];
        const std::size_t end = index + 1 < table.size() ? table[index + 1].start : text().size();
        return {line.kind == WASMPRINTER_LINE_AT_PLACE ? std::optional(line.place) : std::nullopt, text().substr(line.start, end - line.start)};
    }

    iterator begin() const noexcept { return {this, 0}; }
    iterator end() const noexcept { return {this, size()}; }

  private:
    friend Lines print_lines(std::string_view wasm, const Options &options);
    explicit Lines(detail::Printed printed) noexcept : printed_(std::move(printed)) {}

    detail::Printed printed_;
};

// Returns the lines of the text of a module.
[[nodiscard]] inline Lines print_lines(std::string_view wasm, const Options &options = {}) {
    const std::string list = detail::list_of(options.omitted);
    // Most texts have a line for every two bytes of the module, or fewer.
    return Lines(detail::print_whole(wasm, detail::options_of(options, list), wasm.size() / 2 + 64));
}

// The events of a text, with the text. The views that it returns are valid until it is destroyed, moved or assigned to.
class Events {
  public:
    using value_type = WasmprinterEvent;
    using const_iterator = const WasmprinterEvent *;
    using iterator = const_iterator;

    // Returns the whole text. The starts of events are offsets in it.
    std::string_view text() const noexcept { return printed_.view(); }

    // Returns the number of events.
    std::size_t size() const noexcept { return printed_.table.size(); }
    bool empty() const noexcept { return printed_.table.empty(); }

    // Returns an event, as wasmprinter.h describes it. The index must be less than size().
    const WasmprinterEvent &operator[](std::size_t index) const noexcept { return printed_.table[index]; }

    const_iterator begin() const noexcept { return printed_.table.data(); }
    const_iterator end() const noexcept { return printed_.table.data() + size(); }

  private:
    friend Events print_events(std::string_view wasm, const Options &options);
    explicit Events(detail::Printed printed) noexcept : printed_(std::move(printed)) {}

    detail::Printed printed_;
};

// Returns the text of a module with all its events: the starts of lines and of styles, and the custom sections.
[[nodiscard]] inline Events print_events(std::string_view wasm, const Options &options = {}) {
    const std::string list = detail::list_of(options.omitted);
    WasmprinterOptions chosen = detail::options_of(options, list);
    chosen.flags |= WASMPRINTER_EVENTS;
    // A place at the start of a line has two events.
    return Events(detail::print_whole(wasm, chosen, wasm.size() * (options.offsets ? 4 : 2) + 64));
}

// Returns the text of a module with ANSI escape sequences for colors. In folded operators, only places have colors.
[[nodiscard]] inline std::string print_ansi(std::string_view wasm, const Options &options = {}) {
    const Events events = print_events(wasm, options);
    std::string colored;
    std::size_t copied = 0;
    for (const WasmprinterEvent &event : events) {
        colored += events.text().substr(copied, event.start - copied);
        colored += detail::sequence_of(event.kind);
        copied = event.start;
    }
    colored += events.text().substr(copied);
    return colored;
}

// The same functions for bytes in a container, such as a std::vector<std::uint8_t> or a std::span<const std::byte>, and for a pointer.

template <typename Bytes, typename = std::enable_if_t<sizeof(*std::declval<const Bytes &>().data()) == 1>>
[[nodiscard]] std::string print(const Bytes &wasm, const Options &options = {}) {
    return print(detail::view_of(wasm.data(), wasm.size()), options);
}

template <typename Bytes, typename = std::enable_if_t<sizeof(*std::declval<const Bytes &>().data()) == 1>>
[[nodiscard]] Text print_text(const Bytes &wasm, const Options &options = {}) {
    return print_text(detail::view_of(wasm.data(), wasm.size()), options);
}

template <typename Bytes, typename = std::enable_if_t<sizeof(*std::declval<const Bytes &>().data()) == 1>>
[[nodiscard]] Lines print_lines(const Bytes &wasm, const Options &options = {}) {
    return print_lines(detail::view_of(wasm.data(), wasm.size()), options);
}

template <typename Bytes, typename = std::enable_if_t<sizeof(*std::declval<const Bytes &>().data()) == 1>>
[[nodiscard]] Events print_events(const Bytes &wasm, const Options &options = {}) {
    return print_events(detail::view_of(wasm.data(), wasm.size()), options);
}

template <typename Bytes, typename = std::enable_if_t<sizeof(*std::declval<const Bytes &>().data()) == 1>>
[[nodiscard]] std::string print_ansi(const Bytes &wasm, const Options &options = {}) {
    return print_ansi(detail::view_of(wasm.data(), wasm.size()), options);
}

[[nodiscard]] inline std::string print(const std::uint8_t *wasm, std::size_t size, const Options &options = {}) {
    return print(detail::view_of(wasm, size), options);
}

[[nodiscard]] inline Text print_text(const std::uint8_t *wasm, std::size_t size, const Options &options = {}) {
    return print_text(detail::view_of(wasm, size), options);
}

[[nodiscard]] inline Lines print_lines(const std::uint8_t *wasm, std::size_t size, const Options &options = {}) {
    return print_lines(detail::view_of(wasm, size), options);
}

[[nodiscard]] inline Events print_events(const std::uint8_t *wasm, std::size_t size, const Options &options = {}) {
    return print_events(detail::view_of(wasm, size), options);
}

[[nodiscard]] inline std::string print_ansi(const std::uint8_t *wasm, std::size_t size, const Options &options = {}) {
    return print_ansi(detail::view_of(wasm, size), options);
}

// Returns the release of the library, such as `0.263.0-r1`.
[[nodiscard]] inline std::string version() {
    const std::uint32_t number = wasmprinter_version();
    return std::to_string(number / 1000000) + '.' + std::to_string(number / 1000 % 1000) + '.' + std::to_string(number % 1000) + "-r" +
           std::to_string(wasmprinter_revision());
}

} // namespace wasmprinter

#endif
