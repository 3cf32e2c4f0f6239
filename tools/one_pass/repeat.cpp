// repeat FILE N [string]: prints the module in the file N times, to a text or to a string. For tools/one_pass.py.
#include "wasmprinter.hpp"

#include <cstddef>
#include <cstdlib>
#include <fstream>
#include <iterator>
#include <string>

int main(int argc, char **argv) {
    if (argc != 3 && argc != 4) {
        return 2;
    }
    std::ifstream file(argv[1], std::ios::binary);
    const std::string bytes((std::istreambuf_iterator<char>(file)), std::istreambuf_iterator<char>());
    for (int left = std::atoi(argv[2]); left > 0; left--) {
        const std::size_t size = argc == 4 ? wasmprinter::print(bytes).size() : wasmprinter::print_text(bytes).size();
        if (size == 0) {
            return 1;
        }
    }
    return 0;
}
