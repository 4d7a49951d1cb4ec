// All six operations: prints the plan of a file, the kept list of each of its parts, of numbers set by
// hand the bounds, the load and the supply, and the chart of a cycle.
//
//     operations [FILE]        without FILE from standard input
//
// Status: 0 planned, 1 refused, 2 usage or input, 3 output lost.
#include <cerrno>
#include <cstddef>
#include <cstring>
#include <fstream>
#include <iostream>
#include <string>
#include <vector>

#include "planner.h"

namespace {

struct Refusal {
    uint64_t number, place;
};

std::ostream &operator<<(std::ostream &out, const Refusal &refusal) {
    return out << "refused with " << refusal.number << " at " << refusal.place << ": "
               << planner_refusal_text(refusal.number);
}

// The bytes of a file, and whether all of it was read; if not, errno says why. One byte more than a
// file may have is enough: then it is refused. The vector keeps its room, so data() is not null even
// of an empty file.
bool read_file(std::istream &in, std::vector<uint8_t> &file) {
    file.resize(PLANNER_MOST_BYTES + 1);
    if (in)
        in.read(reinterpret_cast<char *>(file.data()), static_cast<std::streamsize>(file.size()));
    if (in.bad() || (in.fail() && !in.eof()))
        return false;
    file.resize(static_cast<std::size_t>(in.gcount()));
    return true;
}

// Whether the file is planned.
bool print_plan(const std::vector<uint8_t> &file) {
    std::vector<char> listing(PLANNER_ROOM);
    const auto plan = planner_plan(file.data(), file.size(), reinterpret_cast<uint8_t *>(listing.data()), listing.size());
    if (plan.number != 0) {
        std::cerr << "operations: " << Refusal{plan.number, plan.place} << '\n';
        return false;
    }
    std::cout.write(listing.data(), static_cast<std::streamsize>(plan.written));
    return true;
}

// Whether there is such a part. Of a file that cannot be read there is none.
bool print_part(const std::vector<uint8_t> &file, std::size_t part) {
    const auto name = planner_name(file.data(), file.size(), part);
    if (name.number != 0)
        return false;
    const auto start = file.begin() + static_cast<std::ptrdiff_t>(name.start);
    std::cout << std::string(start, start + static_cast<std::ptrdiff_t>(name.length)) << ": ";
    const auto kept = planner_candidates(file.data(), file.size(), part);
    if (kept.number != 0)
        std::cout << Refusal{kept.number, kept.place};
    for (std::size_t i = 0; i < kept.count; i++)
        std::cout << '(' << kept.pairs[i].budget << ',' << kept.pairs[i].holding << ')';
    std::cout << '\n';
    return true;
}

void print_weighing(const std::vector<planner_row> &rows) {
    const auto weighed = planner_weigh_slice(rows.data(), rows.size());
    for (const auto &row : rows)
        std::cout << '(' << row.period << ',' << row.budget << ',' << row.holding << ')';
    if (weighed.number != 0) {
        std::cout << ": " << Refusal{weighed.number, weighed.place} << '\n';
        return;
    }
    std::cout << ": bounds";
    for (std::size_t i = 0; i < rows.size(); i++)
        std::cout << ' ' << weighed.bounds[i].num << '/' << weighed.bounds[i].den;
    std::cout << ", load " << weighed.load.num << '/' << weighed.load.den << " in row " << weighed.row << '\n';
}

void print_supply(uint64_t period, uint64_t budget, uint64_t time) {
    const auto supplied = planner_supply(period, budget, time);
    std::cout << '(' << period << ',' << budget << ") in " << time << ": ";
    if (supplied.number != 0)
        std::cout << Refusal{supplied.number, supplied.place} << '\n';
    else
        std::cout << supplied.ticks << '\n';
}

// Which part has which tick of a cycle, 60 ticks a line; `.` where a tick is unassigned.
void print_chart(const std::vector<uint8_t> &file) {
    std::vector<uint8_t> ticks(PLANNER_CYCLE);
    const auto chart = planner_chart(file.data(), file.size(), ticks.data(), ticks.size());
    std::cout << "chart:";
    if (chart.number != 0)
        std::cout << ' ' << Refusal{chart.number, chart.place};
    for (std::size_t tick = 0; tick < chart.written; tick++)
        std::cout << (tick % 60 == 0 ? "\n" : "") << ".123456789abcdefg"[ticks[tick]];
    std::cout << '\n';
}

} // namespace

int main(int count, char **words) {
    if (count > 2) {
        std::cerr << "usage: operations [FILE]\n";
        return 2;
    }
    // Without this std::cin takes a read error for the end of the file.
    std::ios::sync_with_stdio(false);
    std::vector<uint8_t> file;
    std::ifstream named;
    if (count > 1)
        named.open(words[1], std::ios::binary);
    if (!read_file(count > 1 ? named : std::cin, file)) {
        std::cerr << "operations: " << (count > 1 ? words[1] : "standard input") << ": " << std::strerror(errno) << '\n';
        return 2;
    }
    const bool planned = print_plan(file);
    for (std::size_t part = 1; print_part(file, part); part++) {
    }
    print_weighing({{20, 3, 2}, {10, 3, 3}});
    print_weighing({{20, 9, 2}, {10, 3, 3}});
    print_supply(20, 3, 60);
    print_supply(20, 3, PLANNER_MOST_NUMBER + 1);
    print_chart(file);
    if (!std::cout.flush()) {
        std::cerr << "operations: cannot write to standard output\n";
        return 3;
    }
    return planned ? 0 : 1;
}
