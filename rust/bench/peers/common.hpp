// What the peers in C++ share: the command line, the marks of a query and the timing.
//
//   PEER FILE MILLISECONDS BATCH [STEP...]
//
// A step is `.name`, `.*` or `[2]`, or with two dots `..name`, `..*` or `..[2]`. The peer reads the file, counts the nodes that the
// steps pick out of it again and again for so many milliseconds, so many times in a row for each
// measurement, and prints the count and the nanoseconds of one time in the fastest row. Time is that
// of the processor on this thread, so that other work on the machine does not count.
#pragma once

#include <algorithm>
#include <cstddef>
#include <cstdint>
#include <cstdio>
#include <cstdlib>
#include <fstream>
#include <iterator>
#include <string>
#include <string_view>
#include <time.h>
#include <vector>

// The steps of a query as bits: bit i is for step i + 1.
struct Query {
    std::vector<std::string> names;
    std::vector<size_t> positions; // 0 for a step without one
    uint32_t stars = 0;
    uint32_t placed = 0;
    uint32_t deep = 0;
    uint32_t all = 0;

    void add(std::string_view step)
    {
        uint32_t bit = uint32_t(1) << names.size();
        bool is_deep = step.substr(0, 2) == "..";
        std::string_view taken = step.substr(is_deep ? 2 : step[0] == '.' ? 1 : 0);
        bool is_placed = taken.substr(0, 1) == "[";
        deep |= is_deep ? bit : 0;
        stars |= taken == "*" ? bit : 0;
        placed |= is_placed ? bit : 0;
        all |= bit;
        names.emplace_back(taken);
        positions.push_back(is_placed ? std::stoul(std::string(taken.substr(1))) : 0);
    }

    // The steps of `marks` that take a member; `equals` compares a name of the query with its name.
    template <typename Equals> uint32_t taking_member(uint32_t marks, Equals equals) const
    {
        uint32_t taking = marks & stars;
        for (size_t at = 0; at < names.size(); at += 1) {
            uint32_t bit = uint32_t(1) << at;
            if ((marks & ~stars & ~placed & bit) != 0 && equals(std::string_view(names[at]))) {
                taking |= bit;
            }
        }
        return taking;
    }

    // The steps of `marks` that take the element at this position.
    uint32_t taking_element(uint32_t marks, size_t position) const
    {
        uint32_t taking = marks & stars;
        if ((marks & placed) != 0) {
            for (size_t at = 0; at < positions.size(); at += 1) {
                uint32_t bit = uint32_t(1) << at;
                if ((marks & placed & bit) != 0 && positions[at] == position) {
                    taking |= bit;
                }
            }
        }
        return taking;
    }

    // The marks of a node that these steps take, below a node with these marks.
    uint32_t next(uint32_t marks, uint32_t taking) const
    {
        return ((taking << 1) & all) | (marks & deep);
    }

    // 1 if the last step takes the node.
    size_t picked(uint32_t taking) const { return ((taking << 1) & ~all) >> names.size(); }
};

// The processor time of this thread in nanoseconds.
inline double now()
{
    timespec time;
    clock_gettime(CLOCK_THREAD_CPUTIME_ID, &time);
    return 1e9 * double(time.tv_sec) + double(time.tv_nsec);
}

// Reads the command line, lends the file's bytes to `load` and measures `count` on the query.
template <typename Load, typename Count>
int measure(int argc, char **argv, Load load, Count count)
{
    if (argc < 4) {
        std::fprintf(stderr, "usage: PEER FILE MILLISECONDS BATCH [STEP...]\n");
        return 2;
    }
    std::ifstream file(argv[1], std::ios::binary);
    load(std::string(std::istreambuf_iterator<char>(file), std::istreambuf_iterator<char>()));
    Query query;
    for (int at = 4; at < argc; at += 1) {
        query.add(argv[at]);
    }
    double time = 1e6 * std::atoi(argv[2]), best = 1e18, began = now();
    int batch = std::atoi(argv[3]);
    size_t nodes = 0;
    for (int rows = 0; rows < 2 || now() - began < time; rows += 1) {
        double row_began = now();
        for (int at = 0; at < batch; at += 1) {
            nodes = count(query);
        }
        best = std::min(best, (now() - row_began) / batch);
    }
    std::printf("%zu %.1f\n", nodes, best);
    return 0;
}

[[noreturn]] inline void fail(const char *why)
{
    std::fprintf(stderr, "%s\n", why);
    std::exit(1);
}
