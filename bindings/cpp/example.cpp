// example FILE: writes the text of a module to standard output. The status is 2 after a wrong use, and 1 after any other failure.
#include "wasmprinter.hpp"

#include <exception>
#include <fstream>
#include <iostream>
#include <iterator>
#include <stdexcept>
#include <string>

// Reads a whole file. Throws if that fails.
static std::string read_file(const char *path) {
    std::ifstream file(path, std::ios::binary);
    if (!file) {
        throw std::runtime_error("the file can't be read");
    }
    return {std::istreambuf_iterator<char>(file), {}};
}

// Writes text to standard output. Throws if that fails.
static void write(const std::string &text) {
    std::cout << text << std::flush;
    if (!std::cout) {
        throw std::runtime_error("the text can't be written");
    }
}

int main(int argc, char **argv) {
    constexpr int wrong_use = 2;
    if (argc != 2) {
        std::cerr << "usage: example FILE\n";
        return wrong_use;
    }
    try {
        write(wasmprinter::print(read_file(argv[1])));
        return EXIT_SUCCESS;
    } catch (const std::exception &error) {
        std::cerr << "example: " << error.what() << '\n';
        return EXIT_FAILURE;
    }
}
