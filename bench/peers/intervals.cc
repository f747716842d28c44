/* The parser that binpac makes of intervals.pac, over an export: intervals FILE TIMES. Parses the file's bytes so many times and takes every
 * number of each interval; prints how many are whole, 1 or 0 for whether one is cut at the end, and the sums over those that are whole of the first
 * counters, of the second, and of the uses. */
#include "intervals_pac.h"

#include <cstdio>
#include <cstdlib>
#include <fstream>
#include <iterator>
#include <vector>

struct Sums {
    unsigned long whole, cut, first, second, used;
};

static Sums read_export(const std::vector<unsigned char> &stored) {
    binpac::intervals::Export read;
    Sums sums = {};
    try {
        read.Parse(stored.data(), stored.data() + stored.size());
    } catch (const binpac::ExceptionOutOfBound &) {
        sums.cut = 1;
    }
    sums.whole = read.whole()->size();
    for (const binpac::intervals::Interval *interval : *read.whole()) {
        sums.first += interval->first();
        sums.second += interval->second();
        sums.used += interval->used();
    }
    return sums;
}

int main(int argc, char **argv) {
    if (argc != 3) {
        std::fprintf(stderr, "use: intervals FILE TIMES\n");
        return 2;
    }
    std::ifstream file(argv[1], std::ios::binary);
    if (!file) {
        std::fprintf(stderr, "%s: cannot be opened\n", argv[1]);
        return 2;
    }
    const std::vector<unsigned char> stored((std::istreambuf_iterator<char>(file)), std::istreambuf_iterator<char>());
    Sums sums = {};
    for (int i = std::atoi(argv[2]); i > 0; i--) sums = read_export(stored);
    std::printf("%lu %lu %lu %lu %lu\n", sums.whole, sums.cut, sums.first, sums.second, sums.used);
    return 0;
}
