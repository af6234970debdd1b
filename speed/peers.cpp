// peers FILE: reads a file of facets with ours, with the C baseline, with admesh and with CGAL, for speed/peers. Each reads it twice:
// before the second reading, which is counted (speed/calls.h), it prints the reader, the file's name and how many facets and points came of
// the first.
#include <CGAL/IO/STL.h>
#include <CGAL/Simple_cartesian.h>
#include <array>
#include <cstdint>
#include <cstdio>
#include <cstdlib>
#include <fstream>
#include <string>
#include <vector>

extern "C" {
#include "stl.h"
#include "baseline.h"
}
#include "calls.h"
#include "wazelpunt.h"

using Point = CGAL::Simple_cartesian<double>::Point_3;

// What a reading leaves: whether it was good, and how many facets and points. Where the reader does not tell points apart they are 0.
struct Left {
    bool good;
    std::size_t facets, points;
};

// Everything that is kept until the reading is over, so that giving it back is not counted.
static std::uint8_t bytes[WAZELPUNT_STL_BYTES + 1];
static std::size_t length;
static std::uint32_t words[WAZELPUNT_WORDS];
static std::uint16_t corners[WAZELPUNT_CORNERS];
static stl_file opened;
static std::vector<Point> points;
static std::vector<std::array<std::size_t, 3>> facets;

static void read_bytes(const char *path) {
    std::FILE *file = std::fopen(path, "rb");
    if (file == nullptr) std::exit(2);
    length = std::fread(bytes, 1, sizeof bytes, file);
    std::fclose(file);
}

static inline Left read_in_memory(decltype(baseline_read_stl) *read) {
    std::size_t place, words_read, corners_read;
    const bool good = read(bytes, length, words, WAZELPUNT_WORDS, corners, WAZELPUNT_CORNERS, &place, &words_read, &corners_read) == 0;
    return {good, corners_read / 3, words_read / 3};
}

// The readers, each a function of its own, so that it can be told apart from this program. Those in memory find the file's bytes there.
#define READER extern "C" __attribute__((noinline)) void

READER reader_ours_in_memory(const char *, Left *left) { *left = read_in_memory(wazelpunt_read_stl); }

READER reader_baseline_in_memory(const char *, Left *left) { *left = read_in_memory(baseline_read_stl); }

READER reader_ours(const char *path, Left *left) {
    read_bytes(path);
    *left = read_in_memory(wazelpunt_read_stl);
}

READER reader_baseline(const char *path, Left *left) {
    read_bytes(path);
    *left = read_in_memory(baseline_read_stl);
}

READER reader_admesh(const char *path, Left *left) {
    stl_open(&opened, const_cast<char *>(path));
    *left = {!stl_get_error(&opened), static_cast<std::size_t>(opened.stats.number_of_facets), 0};
}

// As its command does it before it writes a file of points that are shared: neighbours first, by equal edges.
READER reader_admesh_shared(const char *path, Left *left) {
    stl_open(&opened, const_cast<char *>(path));
    stl_check_facets_exact(&opened);
    stl_generate_shared_vertices(&opened);
    *left = {!stl_get_error(&opened), static_cast<std::size_t>(opened.stats.number_of_facets),
             static_cast<std::size_t>(opened.stats.shared_vertices)};
}

READER reader_cgal(const char *path, Left *left) {
    std::ifstream stream(path, std::ios::binary);
    const bool good = CGAL::IO::read_STL(stream, points, facets);
    *left = {good, facets.size(), points.size()};
}

static void give_back_none() {}

static void give_back_admesh() { stl_close(&opened); }

static void give_back_cgal() {
    points = {};
    facets = {};
}

static const struct {
    const char *name;
    void (*read)(const char *, Left *);
    void (*give_back)();
} readers[] = {
    {"ours-in-memory", reader_ours_in_memory, give_back_none},
    {"baseline-in-memory", reader_baseline_in_memory, give_back_none},
    {"ours", reader_ours, give_back_none},
    {"baseline", reader_baseline, give_back_none},
    {"admesh", reader_admesh, give_back_admesh},
    {"admesh-shared", reader_admesh_shared, give_back_admesh},
    {"cgal", reader_cgal, give_back_cgal},
};

int main(int count, char **arguments) {
    if (count != 2) {
        std::fputs("use: peers FILE\n", stderr);
        return 2;
    }
    const std::string path = arguments[1], file = path.substr(path.rfind('/') + 1);
    read_bytes(path.c_str());
    for (const auto &reader : readers) {
        Left left;
        reader.read(path.c_str(), &left);
        reader.give_back();
        const std::string counts = left.good ? std::to_string(left.facets) + "," + std::to_string(left.points) : "refused";
        const std::string name = std::string(reader.name) + " " + file + " " + counts;
        std::puts(name.c_str());
        std::fflush(stdout);
        BEGIN;
        reader.read(path.c_str(), &left);
        END(name.c_str());
        reader.give_back();
    }
    return 0;
}
