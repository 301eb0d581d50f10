// How many functions the chunk in each file has, in C++.
//     c++ functions.cpp $(pkg-config --cflags --libs lafzimdo) -o functions && ./functions *.luac
#include <fstream>
#include <iostream>
#include <iterator>
#include <lafzimdo.h>
#include <lafzimdo_text.h>
#include <vector>

int main(int argc, char **argv) {
    const std::uint64_t limits[LAFZIMDO_LIMITS_NUMBERS] = LAFZIMDO_CEILINGS;
    int status = 0;
    for (int at = 1; at < argc; at++) {
        std::ifstream file(argv[at], std::ios::binary);
        if (!file) {
            std::cerr << "functions: " << argv[at] << " cannot be read\n";
            status = 3;
            continue;
        }
        std::vector<char> bytes((std::istreambuf_iterator<char>(file)), std::istreambuf_iterator<char>());
        bytes.reserve(1); // a pointer that is not null, also where the file is empty
        std::uint64_t summary[LAFZIMDO_SUMMARY_NUMBERS];
        const std::uint64_t refusal = lafzimdo_summary(reinterpret_cast<const std::uint8_t *>(bytes.data()), bytes.size(), limits, summary);
        if (refusal != 0) {
            std::cerr << "functions: " << argv[at] << ": " << lafzimdo_refusal_text(LAFZIMDO_NUMBER(refusal)) << "\n";
            status = 1;
            continue;
        }
        std::cout << argv[at] << ": " << summary[LAFZIMDO_SUMMARY_FUNCTIONS] << "\n";
    }
    return status;
}
