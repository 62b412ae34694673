// The nearest marked pixel, beside that of the R-tree: from places anywhere, and from the middle of a ring, where it opens the most blocks.
#pragma once
#include "sets.hpp"

#include <chrono>
#include <cmath>

struct Searches { unsigned order; Codes ascending; std::vector<Pixel> places; };

// So many pixels on a circle: all at nearly one distance from its middle, so that nearly every block may hold the nearest.
inline Searches ring(size_t pixels)
{
    const double middle = 32768, radius = 20000, turn = 2 * std::acos(-1.0);
    Searches searches{16, {}, std::vector<Pixel>(20, Pixel{32768, 32768})};
    for (size_t i = 0; i < pixels; i++) {
        double angle = turn * i / pixels;
        long x = std::lround(middle + radius * std::cos(angle)), y = std::lround(middle + radius * std::sin(angle));
        searches.ascending.push_back(code_of({uint32_t(x), uint32_t(y)}));
    }
    std::sort(searches.ascending.begin(), searches.ascending.end());
    searches.ascending.erase(std::unique(searches.ascending.begin(), searches.ascending.end()), searches.ascending.end());
    return searches;
}

inline Searches searches_on(const std::string &panel, size_t pixels, uint32_t seed)
{
    if (panel == "ring")
        return ring(pixels);
    Workload work(panel == "crowded", pixels, seed);
    return {work.order, work.ascending, work.places};
}

struct Sought { double nanoseconds; std::vector<Nearest> found; };

// The best of the repeats.
template <class Set> Sought seek(const Set &set, const Searches &searches, int repeats)
{
    typedef std::chrono::steady_clock Clock;
    Sought sought{1e300, {}};
    for (int repeat = 0; repeat < repeats; repeat++) {
        sought.found.clear();
        auto start = Clock::now();
        for (Pixel place : searches.places)
            sought.found.push_back(set.nearest(place));
        std::chrono::duration<double, std::nano> time = Clock::now() - start;
        sought.nanoseconds = std::min(sought.nanoseconds, time.count() / searches.places.size());
    }
    return sought;
}

inline uint64_t opened_in_all(const Sought &sought)
{
    uint64_t opened = 0;
    for (Nearest nearest : sought.found)
        opened += nearest.opened;
    return opened;
}

// Of equally near pixels the R-tree gives any: the distances must agree.
inline void compare_nearest(const char *panel, size_t pixels, uint32_t seed, int repeats)
{
    Searches searches = searches_on(panel, pixels, seed);
    PointTree points;
    points.fill(searches.ascending);
    Sought other = seek(points, searches, repeats);
    for (uint32_t k : {3, 8}) {
        Register set(searches.order, k, searches.ascending.size());
        set.fill(searches.ascending);
        Sought ours = seek(set, searches, repeats);
        uint64_t most = 0;
        for (size_t i = 0; i < ours.found.size(); i++) {
            must(ours.found[i].distance == other.found[i].distance, "finds a pixel at another distance than pkreg", "R-tree");
            most = std::max(most, ours.found[i].opened);
        }
        std::printf("%-8s %6zu %2u %10.0f ns %12.3f %10.1f %8llu\n", panel, searches.ascending.size(), k, ours.nanoseconds,
                    other.nanoseconds / ours.nanoseconds, double(opened_in_all(ours)) / ours.found.size(), (unsigned long long)most);
    }
}

// One set's searches alone, for callgrind: calls and blocks opened.
template <class Set> void seek_only(Set set, const Searches &searches)
{
    set.fill(searches.ascending);
    Sought sought = seek(set, searches, 1);
    std::printf("%zu calls %llu opened\n", sought.found.size(), (unsigned long long)opened_in_all(sought));
}
