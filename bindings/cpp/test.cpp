// test FILE: checks every case of bindings/cases.txt with wasmprinter.hpp, and calls that no case describes. Prints each difference and the
// counts; the status is 1 if there is a difference. Linked with --wrap=malloc, --wrap=realloc and --wrap=free, so that all allocations are
// counted and can fail, and with --wrap=wasmprinter_raw_print, so that the prints are counted.
#include "wasmprinter.hpp"

#include <cstdlib>
#include <exception>
#include <fstream>
#include <iostream>
#include <iterator>
#include <map>
#include <new>
#include <optional>
#include <sstream>
#include <string>
#include <string_view>
#include <tuple>
#include <utility>
#include <vector>
#if __cplusplus >= 202002L
#include <ranges>
#include <span>

static_assert(std::ranges::input_range<wasmprinter::Lines>);
#endif

using namespace std::literals;
using wasmprinter::Error;
using wasmprinter::Events;
using wasmprinter::Lines;
using wasmprinter::Options;

// ---- Allocations

// The number of blocks that are not freed yet.
static long live = 0;

// The allocations that fail: none, one, or one and all after it.
enum class Failing { none, once, always };
static Failing failing = Failing::none;
static unsigned allowed = 0; // the number of allocations that succeed before one fails
static unsigned refused = 0; // the number of allocations that failed

static bool is_allowed() {
    if (failing == Failing::none || (failing == Failing::once && refused > 0)) {
        return true;
    }
    if (allowed > 0) {
        allowed--;
        return true;
    }
    refused++;
    return false;
}

extern "C" {
void *__real_malloc(std::size_t size);
void *__real_realloc(void *old, std::size_t size);
void __real_free(void *old);

void *__wrap_malloc(std::size_t size) {
    void *block = is_allowed() ? __real_malloc(size) : nullptr;
    live += block != nullptr;
    return block;
}

void *__wrap_realloc(void *old, std::size_t size) {
    if (old == nullptr) {
        return __wrap_malloc(size);
    }
    return is_allowed() ? __real_realloc(old, size) : nullptr;
}

void __wrap_free(void *old) {
    live -= old != nullptr;
    __real_free(old);
}
}

void *operator new(std::size_t size) {
    void *block = __wrap_malloc(size);
    if (block == nullptr) {
        throw std::bad_alloc();
    }
    return block;
}

void operator delete(void *block) noexcept { __wrap_free(block); }
void operator delete(void *block, std::size_t) noexcept { __wrap_free(block); }

// ---- Prints

// The number of calls of wasmprinter_raw_print.
static unsigned prints = 0;

extern "C" {
decltype(wasmprinter_raw_print) __real_wasmprinter_raw_print;

WasmprinterStatus __wrap_wasmprinter_raw_print(const std::uint8_t *wasm, std::size_t wasm_len, std::uint32_t flags, const std::uint8_t *indent,
                                               std::size_t indent_len, std::size_t limit, const std::uint8_t *omitted, std::size_t omitted_len,
                                               std::uint8_t *out, std::size_t out_len, WasmprinterEvent *table, std::size_t table_len,
                                               WasmprinterResult *result) {
    prints++;
    return __real_wasmprinter_raw_print(wasm, wasm_len, flags, indent, indent_len, limit, omitted, omitted_len, out, out_len, table, table_len,
                                        result);
}
}

// ---- Cases

// A case: the input and the expected results.
struct Case {
    std::string title;
    Options options;
    std::string indent = "  ";
    std::vector<std::string> omitted;
    std::string wasm;
    bool has_places = false;
    std::string text;
    std::vector<std::pair<std::optional<std::uint64_t>, std::string>> lines;
    WasmprinterStatus status = WASMPRINTER_OK;
    std::uint64_t detail = 0;
    std::string error;
};

// The names of the errors in the file of cases.
static const std::map<std::string, WasmprinterStatus> ERRORS = {
    {"Malformed", WASMPRINTER_MALFORMED},
    {"Component", WASMPRINTER_COMPONENT},
    {"TooManyLocals", WASMPRINTER_TOO_MANY_LOCALS},
    {"TooManyFunctions", WASMPRINTER_TOO_MANY_FUNCTIONS},
    {"EmptyTableInit", WASMPRINTER_EMPTY_TABLE_INIT},
    {"FoldLegacy", WASMPRINTER_FOLD_LEGACY},
    {"FoldHint", WASMPRINTER_FOLD_HINT},
    {"DylinkSubsection", WASMPRINTER_DYLINK_SUBSECTION},
    {"InvalidIndent", WASMPRINTER_INVALID_INDENT},
};

// The options of the words in the file of cases.
static const std::map<std::string, bool Options::*> OPTIONS = {
    {"offsets", &Options::offsets},
    {"skeleton", &Options::skeleton},
    {"name_unnamed", &Options::name_unnamed},
    {"fold", &Options::fold},
};

// Reads bytes in hexadecimal.
static std::string read_bytes(std::istream &words) {
    std::string bytes;
    unsigned byte = 0;
    while (words >> std::hex >> byte) {
        bytes += static_cast<char>(byte);
    }
    return bytes;
}

static void read_options(std::istream &words, Options &options) {
    std::string word;
    while (words >> word) {
        options.*OPTIONS.at(word) = true;
    }
}

static void read_error(std::istream &words, Case &test_case) {
    std::string name;
    words >> name >> test_case.detail >> std::ws;
    std::getline(words, test_case.error);
    test_case.status = ERRORS.at(name);
}

// Reads a line of the text, with its place.
static void read_text(const std::string &line, Case &test_case) {
    const std::size_t bar = line.find('|');
    const std::string text = line.substr(bar + 1) + '\n';
    std::optional<std::uint64_t> place;
    if (bar > 0) {
        place = std::stoull(line.substr(0, bar), nullptr, 16);
    }
    test_case.text += text;
    test_case.lines.emplace_back(place, text);
}

// Reads a line of a case.
static void read_line(const std::string &line, Case &test_case) {
    std::istringstream words(line);
    std::string key;
    std::getline(words, key, ' ');
    if (key == "set") {
        read_options(words, test_case.options);
    } else if (key == "indent") {
        test_case.indent = read_bytes(words);
    } else if (key == "omit") {
        test_case.omitted.push_back(line.substr(line.find(' ') == std::string::npos ? line.size() : line.find(' ') + 1));
    } else if (key == "wasm") {
        test_case.wasm += read_bytes(words);
    } else if (key == "zeros") {
        test_case.wasm += std::string(std::stoul(line.substr(key.size())), '\0');
    } else if (key == "places") {
        test_case.has_places = true;
    } else if (key == "error") {
        read_error(words, test_case);
    } else if (key != "left") {
        read_text(line, test_case);
    }
}

// Reads a file of cases.
static std::vector<Case> read_cases(const char *path) {
    std::ifstream file(path);
    std::vector<Case> cases;
    for (std::string line; std::getline(file, line);) {
        if (line.rfind("case ", 0) == 0) {
            cases.emplace_back().title = line;
        } else if (!line.empty() && line[0] != '#') {
            read_line(line, cases.at(cases.size() - 1));
        }
    }
    return cases;
}

// ---- Checks

static unsigned failed = 0;

// Prints a message if a result is wrong.
static void expect(bool is_right, std::string_view title, std::string_view what) {
    if (!is_right) {
        std::cout << "wasmprinter.hpp: " << title << ": wrong " << what << '\n';
        failed++;
    }
}

// Checks that a call throws the error of a case, and that nothing stays allocated.
template <typename Call> static void expect_error(const Case &test_case, Call call) {
    const long before = live;
    try {
        call();
        expect(false, test_case.title, "success");
    } catch (const Error &error) {
        expect(error.status() == test_case.status, test_case.title, "status");
        expect(error.detail() == test_case.detail, test_case.title, "detail");
        expect(error.what() == test_case.error, test_case.title, "description");
    }
    expect(live == before, test_case.title, "number of blocks that are not freed");
}

// Checks the lines of a case.
static void expect_lines(const Case &test_case, const Lines &lines) {
    std::size_t index = 0;
    expect(lines.text() == test_case.text, test_case.title, "text of the lines");
    expect(lines.size() == test_case.lines.size() && !lines.empty(), test_case.title, "number of lines");
    for (const wasmprinter::Line line : lines) {
        if (index < test_case.lines.size()) {
            const auto &[place, text] = test_case.lines[index];
            expect(line.text == text && lines[index].text == text, test_case.title, "line");
            expect(!test_case.has_places || (line.place == place && lines[index].place == place), test_case.title, "place");
        }
        index++;
    }
    expect(index == lines.size() && std::next(lines.begin(), lines.size()) == lines.end(), test_case.title, "end of the lines");
}

// Checks the events of a case: its lines are among them, and no event starts before the one before it.
static void expect_events(const Case &test_case, const Events &events) {
    std::size_t start = 0, lines = 0, line_start = 0;
    expect(events.text() == test_case.text && !events.empty(), test_case.title, "text of the events");
    expect(&*events.begin() == &events[0] && events.end() == events.begin() + events.size(), test_case.title, "range of events");
    for (const WasmprinterEvent &event : events) {
        expect(event.start >= start && event.start < test_case.text.size(), test_case.title, "start of an event");
        expect(event.kind <= WASMPRINTER_CUSTOM_SECTION, test_case.title, "kind of an event");
        start = event.start;
        if (event.kind <= WASMPRINTER_LINE_AT_PLACE && lines < test_case.lines.size()) {
            const auto &[place, text] = test_case.lines[lines];
            const bool is_place = event.kind == (place ? WASMPRINTER_LINE_AT_PLACE : WASMPRINTER_LINE) && event.place == place.value_or(0);
            expect(start == line_start, test_case.title, "start of a line among events");
            expect(is_place || !test_case.has_places, test_case.title, "place of a line among events");
            line_start += text.size();
            lines++;
        }
    }
    expect(lines == test_case.lines.size() && line_start == test_case.text.size(), test_case.title, "number of lines among events");
}

// Compares a text, and moves it: the text it was moved from is then empty.
static void expect_text(wasmprinter::Text text, std::string_view expected, const std::string &title) {
    expect(text.view() == expected && text.size() == expected.size(), title, "text without a copy");
    expect(std::string(text.c_str()) == expected.substr(0, expected.find('\0')), title, "text with a zero byte");
    const wasmprinter::Text moved = std::move(text);
    expect(moved.view() == expected && text.view().empty() && *text.c_str() == '\0', title, "text that was moved");
}

// Prints a case with options that have its indent and this limit.
static void check_with(const Case &test_case, std::size_t limit) {
    Options options = test_case.options;
    options.indent = test_case.indent;
    options.limit = limit;
    options.omitted.assign(test_case.omitted.begin(), test_case.omitted.end());
    if (test_case.status != WASMPRINTER_OK) {
        expect_error(test_case, [&] { return wasmprinter::print(test_case.wasm, options); });
        expect_error(test_case, [&] { return wasmprinter::print_text(test_case.wasm, options); });
        expect_error(test_case, [&] { return wasmprinter::print_lines(test_case.wasm, options); });
        expect_error(test_case, [&] { return wasmprinter::print_events(test_case.wasm, options); });
        expect_error(test_case, [&] { return wasmprinter::print_ansi(test_case.wasm, options); });
        return;
    }
    expect(wasmprinter::print(test_case.wasm, options) == test_case.text, test_case.title, "text");
    expect_text(wasmprinter::print_text(test_case.wasm, options), test_case.text, test_case.title);
    expect_lines(test_case, wasmprinter::print_lines(test_case.wasm, options));
    expect_events(test_case, wasmprinter::print_events(test_case.wasm, options));
}

// Prints the module of a case with a limit that is less than the length of its text.
static void check_too_long(Case test_case, std::size_t limit) {
    test_case.status = WASMPRINTER_TOO_LONG;
    test_case.error = "the text is too long";
    check_with(test_case, limit);
}

// Prints a case without a limit, and with limits that its text does not exceed, and that it exceeds. An error of a case does not depend on the
// limit if it is found before printing.
static void check(const Case &test_case) {
    check_with(test_case, 0);
    check_with(test_case, SIZE_MAX);
    if (test_case.status == WASMPRINTER_OK) {
        check_with(test_case, test_case.text.size());
        check_with(test_case, test_case.text.size() + 1);
        check_too_long(test_case, test_case.text.size() - 1);
        check_too_long(test_case, 1);
    } else if (test_case.status != WASMPRINTER_DYLINK_SUBSECTION) {
        check_with(test_case, 1);
    }
}

// A module with a type, and its text.
static constexpr std::string_view ONE_TYPE = "\0asm\1\0\0\0\1\4\1\x60\0\0"sv;
static constexpr std::string_view ONE_TYPE_TEXT = "(module\n  (type (;0;) (func))\n)\n";

// Returns a case that prints a module as these lines.
static Case printed(std::string_view title, std::string_view wasm, const std::vector<std::string> &lines) {
    Case test_case;
    test_case.title = title;
    test_case.wasm = wasm;
    for (const std::string &line : lines) {
        read_text('|' + line, test_case);
    }
    return test_case;
}

static Case one_type() { return printed("one type", ONE_TYPE, {"(module", "  (type (;0;) (func))", ")"}); }

// ---- Events

// The text of ONE_TYPE in colors.
static constexpr std::string_view ONE_TYPE_IN_COLORS = "(\x1b[0m\x1b[1m\x1b[38;5;11mmodule\x1b[0m\n"
                                                       "  (\x1b[0m\x1b[1m\x1b[38;5;11mtype \x1b[0m\x1b[0m\x1b[35m(;0;)\x1b[0m "
                                                       "(\x1b[0m\x1b[1m\x1b[38;5;11mfunc\x1b[0m))\n"
                                                       ")\n";

// A function that returns its i32 parameter, exported as `f`.
static constexpr std::string_view IDENTITY = "\0asm\1\0\0\0\1\6\1\x60\1\x7f\1\x7f\3\2\1\0\7\5\1\1f\0\0\x0a\6\1\4\0\x20\0\x0b"sv;

// Its text in colors, with its places, which are comments.
static constexpr std::string_view IDENTITY_IN_COLORS =
    "(\x1b[0m\x1b[1m\x1b[38;5;11mmodule\x1b[0m\n"
    "\x1b[0m\x1b[36m(;@b     ;)\x1b[0m  (\x1b[0m\x1b[1m\x1b[38;5;11mtype \x1b[0m\x1b[0m\x1b[35m(;0;)\x1b[0m "
    "(\x1b[0m\x1b[1m\x1b[38;5;11mfunc\x1b[0m (\x1b[0m\x1b[1m\x1b[38;5;11mparam\x1b[0m \x1b[0m\x1b[1m\x1b[38;5;10mi32\x1b[0m) "
    "(\x1b[0m\x1b[1m\x1b[38;5;11mresult\x1b[0m \x1b[0m\x1b[1m\x1b[38;5;10mi32\x1b[0m)))\n"
    "\x1b[0m\x1b[36m(;@17    ;)\x1b[0m  (\x1b[0m\x1b[1m\x1b[38;5;11mexport \x1b[0m\x1b[0m\x1b[31m\"f\"\x1b[0m "
    "(\x1b[0m\x1b[1m\x1b[38;5;11mfunc \x1b[0m\x1b[0m\x1b[35m0\x1b[0m))\n"
    "\x1b[0m\x1b[36m(;@1f    ;)\x1b[0m  (\x1b[0m\x1b[1m\x1b[38;5;11mfunc \x1b[0m\x1b[0m\x1b[35m(;0;)\x1b[0m "
    "(\x1b[0m\x1b[1m\x1b[38;5;11mtype \x1b[0m\x1b[0m\x1b[35m0\x1b[0m) (\x1b[0m\x1b[1m\x1b[38;5;11mparam\x1b[0m "
    "\x1b[0m\x1b[1m\x1b[38;5;10mi32\x1b[0m) (\x1b[0m\x1b[1m\x1b[38;5;11mresult\x1b[0m \x1b[0m\x1b[1m\x1b[38;5;10mi32\x1b[0m)\n"
    "\x1b[0m\x1b[36m(;@20    ;)\x1b[0m    local.get \x1b[0m\x1b[35m0\x1b[0m\n"
    "\x1b[0m\x1b[36m(;@22    ;)\x1b[0m  )\n"
    "\x1b[0m\x1b[36m(;@23    ;)\x1b[0m)\n";

// Compares all events of ONE_TYPE, and texts in colors.
static void check_events() {
    const std::vector<std::tuple<std::size_t, std::uint64_t, std::uint32_t>> typed = {
        {0, 0, WASMPRINTER_LINE_AT_PLACE}, {1, 0, WASMPRINTER_KEYWORD}, {7, 0, WASMPRINTER_RESET},
        {8, 0xb, WASMPRINTER_LINE_AT_PLACE}, {11, 0, WASMPRINTER_KEYWORD}, {16, 0, WASMPRINTER_RESET},
        {16, 0, WASMPRINTER_NAME}, {21, 0, WASMPRINTER_RESET}, {23, 0, WASMPRINTER_KEYWORD}, {27, 0, WASMPRINTER_RESET},
        {30, 0xe, WASMPRINTER_LINE_AT_PLACE},
    };
    std::vector<std::tuple<std::size_t, std::uint64_t, std::uint32_t>> found;
    for (const WasmprinterEvent &event : wasmprinter::print_events(ONE_TYPE)) {
        found.emplace_back(event.start, event.place, event.kind);
    }
    expect(found == typed, "typed events", "list");
    Options options;
    options.offsets = true;
    expect(wasmprinter::print_ansi(ONE_TYPE) == ONE_TYPE_IN_COLORS, "colors", "text");
    expect(wasmprinter::print_ansi(IDENTITY, options) == IDENTITY_IN_COLORS, "colors and places", "text");
}

// Prints a custom section. Its event has the place of its data.
static void check_custom_section() {
    unsigned found = 0;
    for (const WasmprinterEvent &event : wasmprinter::print_events("\0asm\1\0\0\0\0\3\1a\1"sv)) {
        if (event.kind == WASMPRINTER_CUSTOM_SECTION) {
            expect(event.start == 7 && event.place == 12, "a custom section", "event");
            found++;
        }
    }
    expect(found == 1, "a custom section", "number of events");
}

// Leaves out custom sections: `ab`, `a` and `a` with a zero byte, all without data. The events stay, each with the place of its data.
static void check_omitted() {
    static constexpr auto wasm = "\0asm\1\0\0\0\0\3\2ab\0\2\1a\0\3\2a\0"sv;
    static const std::string ab = "  (@custom \"ab\" (before first) \"\")\n", a = "  (@custom \"a\" (before first) \"\")\n",
                             zero = "  (@custom \"a\\u{0}\" (before first) \"\")\n";
    Options options;
    options.omitted = {"a", "abc", std::string_view()};
    expect(wasmprinter::print(wasm, options) == "(module\n" + ab + zero + ")\n", "a name that is left out", "text");
    options.omitted = {"b", "ab", "a\0"sv};
    expect(wasmprinter::print(wasm, options) == "(module\n" + a + ")\n", "names that are left out", "text");
    std::vector<std::uint64_t> places;
    for (const WasmprinterEvent &event : wasmprinter::print_events(wasm, options)) {
        if (event.kind == WASMPRINTER_CUSTOM_SECTION) {
            places.push_back(event.place);
        }
    }
    expect(places == std::vector<std::uint64_t>{13, 17, 22}, "names that are left out", "places of events");
}

// Prints more events than expected: each of 200 types has seven events and three bytes.
static void check_many_events() {
    std::string wasm = "\0asm\1\0\0\0\1\xda\4\xc8\1"s;
    std::vector<std::string> lines = {"(module"};
    for (int i = 0; i < 200; i++) {
        wasm += "\x60\0\0"s;
        lines.push_back("  (type (;" + std::to_string(i) + ";) (func))");
    }
    lines.emplace_back(")");
    check(printed("many events", wasm, lines));
    expect(wasmprinter::print_events(wasm).size() == 4 + 200 * 7, "many events", "number");
}

// Prints other types of bytes.
static void check_other_bytes() {
    const auto *bytes = reinterpret_cast<const std::uint8_t *>(ONE_TYPE.data());
    expect(wasmprinter::print(bytes, ONE_TYPE.size()) == ONE_TYPE_TEXT, "a pointer and a length", "text");
    expect_lines(one_type(), wasmprinter::print_lines(bytes, ONE_TYPE.size()));
    const std::vector<std::uint8_t> numbers(bytes, bytes + ONE_TYPE.size());
    expect(wasmprinter::print(numbers) == ONE_TYPE_TEXT, "a vector of numbers", "text");
    expect_lines(one_type(), wasmprinter::print_lines(numbers));
    expect_events(one_type(), wasmprinter::print_events(bytes, ONE_TYPE.size()));
    expect_events(one_type(), wasmprinter::print_events(numbers));
    expect(wasmprinter::print_ansi(bytes, ONE_TYPE.size()) == ONE_TYPE_IN_COLORS, "a pointer and a length", "text in colors");
    expect(wasmprinter::print_ansi(numbers) == ONE_TYPE_IN_COLORS, "a vector of numbers", "text in colors");
    expect(wasmprinter::print(std::string(ONE_TYPE)) == ONE_TYPE_TEXT, "a string", "text");
    expect_text(wasmprinter::print_text(bytes, ONE_TYPE.size()), ONE_TYPE_TEXT, "a pointer and a length");
    expect_text(wasmprinter::print_text(numbers), ONE_TYPE_TEXT, "a vector of numbers");
    expect_text(wasmprinter::Text(), "", "the empty text");
#ifdef __cpp_lib_span
    const auto span = std::as_bytes(std::span(ONE_TYPE));
    expect(wasmprinter::print(span) == ONE_TYPE_TEXT, "a span", "text");
    expect_lines(one_type(), wasmprinter::print_lines(span));
    expect_events(one_type(), wasmprinter::print_events(span));
#endif
}

static void check_empty_input() {
    Case test_case;
    test_case.title = "no bytes";
    test_case.status = WASMPRINTER_MALFORMED;
    test_case.error = "malformed module at byte 0x0";
    expect_error(test_case, [] { return wasmprinter::print(std::string_view()); });
    expect_error(test_case, [] { return wasmprinter::print(""); });
    expect_error(test_case, [] { return wasmprinter::print(nullptr, 0); });
    expect_error(test_case, [] { return wasmprinter::print_lines(std::string_view()); });
}

// An empty indent is not the default, even if its pointer is null. An indent may hold a zero byte.
static void check_indents() {
    Options options;
    options.indent = std::string_view();
    expect(wasmprinter::print(ONE_TYPE, options) == "(module\n(type (;0;) (func))\n)\n", "an indent that is null", "text");
    options.indent = "\0\t"sv;
    expect(wasmprinter::print(ONE_TYPE, options) == "(module\n\0\t(type (;0;) (func))\n)\n"sv, "an indent with a zero byte", "text");
}

// Prints a text that is longer than expected.
static void check_long_text() {
    const std::string indent(10000, ' ');
    Case test_case = printed("a long indent", ONE_TYPE, {"(module", indent + "(type (;0;) (func))", ")"});
    test_case.indent = indent;
    check(test_case);
}

// Checks the length that a call returns, and how often it prints the module.
template <typename Call> static void expect_prints(std::size_t length, unsigned expected, Call call) {
    prints = 0;
    expect(call() == length, "prints", "length");
    expect(prints == expected, "prints", "number");
}

// The first block or array has 32 bytes for each byte of the module, and 4096 more. A text that fits into it is printed once, and any other twice.
static void check_prints() {
    // a function of 4000 `nop` operators
    const std::string nops = std::string(ONE_TYPE) + "\3\2\1\0\x0a\xa5\x1f\1\xa2\x1f\0"s + std::string(4000, '\1') + '\x0b';
    for (const auto &[level, length, expected] : {std::tuple(2, 32059, 1), {8, 80077, 1}, {14, 128095, 1}, {15, 136098, 2}}) {
        const std::string indent(level, ' ');
        Options options;
        options.indent = indent;
        expect_prints(length, expected, [&] { return wasmprinter::print(nops, options).size(); });
        expect_prints(length, expected, [&] { return wasmprinter::print_text(nops, options).size(); });
        expect_prints(length, expected, [&] { return wasmprinter::print_events(nops, options).text().size(); });
    }
    for (const auto &[level, length, expected] : {std::tuple(4300, 4330, 1), {4514, 4544, 1}, {4515, 4545, 2}}) {
        const std::string indent(level, ' ');
        Options options;
        options.indent = indent;
        expect_prints(length, expected, [&] { return wasmprinter::print_text(ONE_TYPE, options).size(); });
        expect_prints(length, expected, [&] { return wasmprinter::print_lines(ONE_TYPE, options).text().size(); });
        expect_prints(length, expected, [&] { return wasmprinter::print_events(ONE_TYPE, options).text().size(); });
    }
    expect(wasmprinter::detail::expected_length(0, 0) == 4096, "prints", "expected length of the text of no bytes");
    expect(wasmprinter::detail::expected_length(14, 0) == 4544, "prints", "expected length");
    expect(wasmprinter::detail::expected_length(14, 4543) == 4543, "prints", "expected length with a limit");
    expect(wasmprinter::detail::expected_length(SIZE_MAX, 0) == 4096, "prints", "expected length that a size can't hold");
}

// Prints more lines than expected: those of a function with 200 `nop` operators. The bodies have 205 bytes, the only one of them 202.
static void check_many_lines() {
    std::string wasm = "\0asm\1\0\0\0\1\4\1\x60\0\0\3\2\1\0\x0a\xcd\1\1\xca\1\0"s;
    std::vector<std::string> lines = {"(module", "  (type (;0;) (func))", "  (func (;0;) (type 0)"};
    for (int i = 0; i < 200; i++) {
        wasm += '\1';
        lines.emplace_back("    nop");
    }
    wasm += '\x0b';
    lines.emplace_back("  )");
    lines.emplace_back(")");
    check(printed("many lines", wasm, lines));
}

// Prints a module with each limit to a buffer that is longer than its text. After the text, or a prefix of it, the buffer is unchanged.
static void check_limits() {
    const std::string filler(ONE_TYPE_TEXT.size() + 2, '#');
    const std::string no_names;
    Options options;
    for (options.limit = 1; options.limit <= filler.size(); options.limit++) {
        std::string out = filler;
        WasmprinterResult result = {1, 1, 1};
        const WasmprinterOptions chosen = wasmprinter::detail::options_of(options, no_names);
        const auto status = wasmprinter_print(wasmprinter_bytes(ONE_TYPE.data(), ONE_TYPE.size()), &chosen, {out.data(), out.size()}, &result);
        const bool fits = ONE_TYPE_TEXT.size() <= options.limit;
        const std::size_t held = out.find('#');
        expect(status == (fits ? WASMPRINTER_OK : WASMPRINTER_TOO_LONG), "limits", "status");
        expect(result.length == (fits ? ONE_TYPE_TEXT.size() : 0) && result.detail == 0, "limits", "result");
        expect(fits ? held == ONE_TYPE_TEXT.size() : held <= options.limit, "limits", "length in the buffer");
        expect(out == std::string(ONE_TYPE_TEXT.substr(0, held)) + filler.substr(held), "limits", "buffer");
    }
}

// Copies and moves lines and events.
static void check_copies() {
    Lines lines = wasmprinter::print_lines(ONE_TYPE);
    const Lines copy = lines;
    const Lines moved = std::move(lines);
    expect(lines.empty() && lines.begin() == lines.end() && lines.text().empty(), "lines that were moved", "number");
    expect_lines(one_type(), copy);
    expect_lines(one_type(), moved);
    lines = copy;
    expect_lines(one_type(), lines);
    Events events = wasmprinter::print_events(ONE_TYPE);
    const Events copied_events = events;
    const Events moved_events = std::move(events);
    expect(events.empty() && events.begin() == events.end() && events.text().empty(), "events that were moved", "number");
    expect_events(one_type(), copied_events);
    expect_events(one_type(), moved_events);
    events = copied_events;
    expect_events(one_type(), events);
}

// Makes a call with failing allocations. Returns whether it threw std::bad_alloc. If it returned, it must return true.
template <typename Call> static bool throws(std::string_view title, Failing way, unsigned successes, Call call) {
    const long before = live;
    bool is_right = true, is_thrown = false;
    refused = 0;
    allowed = successes;
    failing = way;
    try {
        is_right = call();
    } catch (const std::bad_alloc &) {
        is_thrown = true;
    }
    failing = Failing::none;
    expect(is_right, title, "text");
    expect(live == before, title, "number of blocks that are not freed");
    return is_thrown;
}

// Lets each allocation of a call fail in turn: with all that follow, when the failure must be thrown, and alone, when the call may succeed.
template <typename Call> static void check_memory(std::string_view title, Call call) {
    unsigned successes = 0, thrown = 0;
    do {
        thrown += throws(title, Failing::once, successes, call);
        const bool is_thrown = throws(title, Failing::always, successes, call);
        expect(is_thrown == (refused > 0), title, "exception");
        successes++;
    } while (refused > 0);
    expect(thrown > 0, title, "number of exceptions");
}

static void check_failing_allocations() {
    const std::string indent(40, ' ');
    const std::string text = "(module\n" + indent + "(type (;0;) (func))\n)\n";
    Options options;
    options.indent = indent;
    check_memory("failing allocations", [&] { return wasmprinter::print(ONE_TYPE, options) == text; });
    check_memory("failing allocations of a text without a copy", [&] { return wasmprinter::print_text(ONE_TYPE, options).view() == text; });
    check_memory("failing allocations of lines", [&] { return wasmprinter::print_lines(ONE_TYPE, options).text() == text; });
    check_memory("failing allocations of events", [&] { return wasmprinter::print_events(ONE_TYPE, options).text() == text; });
    check_memory("failing allocations of colors", [&] { return wasmprinter::print_ansi(ONE_TYPE, options).size() > text.size(); });
    const Lines lines = wasmprinter::print_lines(ONE_TYPE, options);
    check_memory("failing allocations of a copy", [&] { return Lines(lines).text() == text; });
    options.limit = text.size();
    check_memory("failing allocations with a limit", [&] { return wasmprinter::print(ONE_TYPE, options) == text; });
    options.fold = true;
    check_memory("failing allocations, folded", [&] { return wasmprinter::print(ONE_TYPE, options) == text; });
}

// Lets the allocation for the text or for the table fail. The module is then measured, and printed to arrays of the lengths that it needs.
static void check_measured() {
    for (unsigned successes = 0; successes < 2; successes++) {
        const auto throws_once = [&](auto call) { return throws("little memory", Failing::once, successes, call); };
        prints = 0;
        expect(!throws_once([] { return wasmprinter::print_lines(ONE_TYPE).text() == ONE_TYPE_TEXT; }), "little memory", "exception of lines");
        expect(!throws_once([] { return wasmprinter::print_events(ONE_TYPE).text() == ONE_TYPE_TEXT; }), "little memory", "exception of events");
        expect(prints == 4, "little memory", "number of prints");
    }
    prints = 0;
    expect(!throws("little memory", Failing::once, 0, [] { return wasmprinter::print(ONE_TYPE) == ONE_TYPE_TEXT; }), "little memory", "exception");
    expect(prints == 2, "little memory", "number of prints of a text");
}

int main(int argc, char **argv) {
    const std::vector<Case> cases = read_cases(argc == 2 ? argv[1] : "");
    expect(!cases.empty(), "the file of cases", "number of cases");
    for (const Case &test_case : cases) {
        check(test_case);
    }
    check_other_bytes();
    check_empty_input();
    check_indents();
    check_long_text();
    check_prints();
    check_many_lines();
    check_events();
    check_custom_section();
    check_omitted();
    check_many_events();
    check_limits();
    check_copies();
    check_failing_allocations();
    check_measured();
    expect(wasmprinter::version() == "0.263.0-r1", "the library", "version");
    std::cout << "wasmprinter.hpp: " << cases.size() << " cases, " << failed << " differences\n";
    return failed == 0 ? EXIT_SUCCESS : EXIT_FAILURE;
}
