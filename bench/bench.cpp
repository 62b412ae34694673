// Times the calls of pkreg beside six other sets of pixels on the same seeded work, and stops if any of them finds another number.
// Usage: bench [--pixels N] [--seed S]
//        bench --only NAME [--set pkreg|tree] [--panel spread|crowded] [--pixels N] [--k K]
// The first prints the tables. The second is one kind of call alone, for callgrind: on pkreg, or on the C++ tree of tree.hpp; nearest and
// nearest-r-tree take --panel ring too.
#include "nearest.hpp"

#include <map>

enum Operation {
    MARK, ASK, COUNT_SMALL, COUNT_MEDIUM, COUNT_SPOT, COUNT_WHOLE, LIST_SMALL, LIST_MEDIUM, SAVE, CLEAR, LOAD, LIST_WHOLE, FILL, OPERATIONS
};
static const char *const names[OPERATIONS] = {"mark",    "ask",      "count-16", "count-256", "count-spot", "count-all", "list-16",
                                              "list-256", "save",    "clear",    "load",      "list-all",   "fill"};
static const int REPEATS = 3;

struct Measured { double nanoseconds; uint64_t found; };
struct Output { Codes codes; Bytes bytes; size_t length; };

static const std::vector<Window> &windows_of(const Workload &work, int operation)
{
    switch (operation) {
    case COUNT_SMALL: case LIST_SMALL: return work.small;
    case COUNT_MEDIUM: case LIST_MEDIUM: return work.medium;
    case COUNT_SPOT: return work.over_spots;
    default: return work.whole;
    }
}

static bool one_pixel(int operation) { return operation == MARK || operation == ASK || operation == CLEAR; }
static size_t calls_of(const Workload &work, int i) { return one_pixel(i) ? work.pixels.size() : windows_of(work, i).size(); }

// The number found in all windows, and the codes of the last one, as a sum that does not depend on their order.
template <class Set> uint64_t listed(const Set &set, const std::vector<Window> &windows, Codes &codes)
{
    uint64_t found = 0, last = 0;
    for (Window window : windows)
        found += last = set.list(window, codes);
    for (uint64_t i = 0; i < last; i++)
        found += uint64_t(codes[i]) << 8;
    return found;
}

template <class Set> uint64_t perform(Set &set, const Workload &work, int operation, Output &output)
{
    uint64_t found = 0;
    switch (operation) {
    case MARK: for (Pixel pixel : work.pixels) found += set.mark(pixel); break;
    case ASK: for (Pixel pixel : work.asked) found += set.ask(pixel); break;
    case CLEAR: for (Pixel pixel : work.cleared) found += set.clear(pixel); break;
    case SAVE: for (size_t i = 0; i < work.whole.size(); i++) output.length = set.save(output.bytes); break;
    case LOAD: for (size_t i = 0; i < work.whole.size(); i++) set.load(output.bytes, output.length); break;
    case FILL: for (size_t i = 0; i < work.whole.size(); i++) set.fill(work.ascending); break;
    case LIST_SMALL: case LIST_MEDIUM: case LIST_WHOLE: return listed(set, windows_of(work, operation), output.codes);
    default: for (Window window : windows_of(work, operation)) found += set.count(window);
    }
    return found;
}

static Output room_for(const Workload &work) { return {Codes(work.pixels.size()), Bytes(1u << 20), 0}; }

// After these, what the set holds is counted, so that one that does nothing is seen.
static bool finds_nothing(int operation) { return operation == SAVE || operation == LOAD || operation == FILL; }

static bool same_place(pk_place a, pk_place b)
{
    return a.refusal == b.refusal && a.marked == b.marked && a.opened == b.opened && a.level == b.level && a.code == b.code;
}

// The C++ tree is pkreg's equal: it finds the same numbers, places every pixel in the same block, lists the same codes, saves the same
// image, and its store stays sound.
static void must_agree(const Workload &work, uint32_t k)
{
    Register ours(work.order, k, work.pixels.size());
    Tree other(work.order, k, work.pixels.size());
    Output output = room_for(work), image = room_for(work);
    for (int operation = 0; operation < OPERATIONS; operation++) {
        uint64_t found = perform(ours, work, operation, output);
        must(perform(other, work, operation, image) == found, "finds another number than pkreg", "C++ tree");
        must(ours.count(work.whole[0]) == other.count(work.whole[0]), "holds another number than pkreg", "C++ tree");
        for (Pixel pixel : work.asked)
            must(same_place(ours.place(pixel), other.place(pixel)), "places a pixel elsewhere than pkreg", "C++ tree");
        must(output.codes == image.codes, "lists other codes than pkreg", "C++ tree");
        must(output.length == image.length && output.bytes == image.bytes, "saves another image than pkreg", "C++ tree");
        other.must_be_sound();
    }
}

// The best of the repeats; `make` gives an empty set.
template <class Make> std::vector<Measured> measure(const Workload &work, Make make)
{
    typedef std::chrono::steady_clock Clock;
    std::vector<Measured> best(OPERATIONS, Measured{1e300, 0});
    for (int repeat = 0; repeat < REPEATS; repeat++) {
        auto set = make();
        Output output = room_for(work);
        for (int operation = 0; operation < OPERATIONS; operation++) {
            auto start = Clock::now();
            best[operation].found = perform(set, work, operation, output);
            std::chrono::duration<double, std::nano> time = Clock::now() - start;
            best[operation].nanoseconds = std::min(best[operation].nanoseconds, time.count() / calls_of(work, operation));
            if (finds_nothing(operation))
                best[operation].found = set.count(work.whole[0]); // outside the time
        }
    }
    return best;
}

typedef std::vector<std::pair<const char *, std::vector<Measured>>> Columns;

// Stops if the columns do not agree.
static void print_table(const Columns &columns)
{
    for (const auto &column : columns)
        for (int i = 0; i < OPERATIONS; i++)
            must(column.second[i].found == columns[0].second[i].found, "finds another number than pkreg", column.first);
    std::printf("%-10s", "");
    for (const auto &column : columns)
        std::printf(" %12s", column.first);
    std::printf("\n");
    for (int i = 0; i < OPERATIONS; i++) {
        double ours = columns[1].second[i].nanoseconds;
        std::printf("%-10s %9.0f ns %9.0f ns", names[i], columns[0].second[i].nanoseconds, ours);
        for (size_t j = 2; j < columns.size(); j++)
            std::printf(" %12.3f", columns[j].second[i].nanoseconds / ours);
        std::printf("\n");
    }
}

static void compare(bool crowded, size_t pixels, uint32_t seed)
{
    Workload work(crowded, pixels, seed);
    must_agree(work, 3);
    must_agree(work, 8);
    Columns columns;
    columns.emplace_back("pkreg k=3", measure(work, [&] { return Register(work.order, 3, pixels); }));
    columns.emplace_back("pkreg k=8", measure(work, [&] { return Register(work.order, 8, pixels); }));
    columns.emplace_back("C++ k=8", measure(work, [&] { return Tree(work.order, 8, pixels); }));
    columns.emplace_back("std::set", measure(work, [] { return Sorted<std::set<uint32_t>>(); }));
    columns.emplace_back("vector", measure(work, [] { return Sorted<Codes>(); }));
    columns.emplace_back("CRoaring", measure(work, [] { return RoaringSet(); }));
    columns.emplace_back("R-tree", measure(work, [] { return PointTree(); }));
    // At order 16 a bitmap takes 512 MiB.
    if (crowded)
        columns.emplace_back("bitmap", measure(work, [&] { return Bitmap(work.order); }));
    std::printf("\n%zu pixels, %s\n", pixels, crowded ? "crowded on 2,048 x 2,048" : "spread over 65,536 x 65,536");
    print_table(columns);
}

// One kind of call; what is needed before is done too. Callgrind is told to count within the named call only.
template <class Set> void perform_on(Set set, const Workload &work, int only)
{
    Output output = room_for(work);
    if (only != MARK && only != FILL)
        perform(set, work, MARK, output);
    if (only == LOAD)
        perform(set, work, SAVE, output);
    uint64_t found = perform(set, work, only, output);
    if (finds_nothing(only))
        found = set.count(work.whole[0]) * calls_of(work, only);
    std::printf("%zu calls %llu found\n", calls_of(work, only), (unsigned long long)found);
}

static void perform_only(std::map<std::string, std::string> &options)
{
    size_t pixels = std::stoul(options["--pixels"]);
    uint32_t k = std::stoul(options["--k"]);
    std::string name = options["--only"];
    if (name == "nearest" || name == "nearest-r-tree") {
        Searches searches = searches_on(options["--panel"], pixels, 1);
        if (name == "nearest")
            return seek_only(Register(searches.order, k, searches.ascending.size()), searches);
        return seek_only(PointTree(), searches);
    }
    Workload work(options["--panel"] == "crowded", pixels, 1);
    int only = int(std::find(names, names + OPERATIONS, name) - names);
    must(only < OPERATIONS, "no such call", name.c_str());
    if (options["--set"] == "tree")
        return perform_on(Tree(work.order, k, pixels), work, only);
    perform_on(Register(work.order, k, pixels), work, only);
}

int main(int count, char **arguments)
{
    std::map<std::string, std::string> options{{"--seed", "1"}, {"--panel", "spread"}, {"--pixels", "0"}, {"--k", "3"}};
    for (int i = 1; i + 1 < count; i += 2)
        options[arguments[i]] = arguments[i + 1];
    if (options.count("--only")) {
        perform_only(options);
        return 0;
    }
    std::printf("Time of a call, best of %d repeats; right of pkreg: the other's time over that of pkreg k=8 (above 1: slower).\n", REPEATS);
    std::vector<size_t> sizes{1000, 5000, 24000};
    if (size_t pixels = std::stoul(options["--pixels"]))
        sizes = {pixels};
    for (bool crowded : {false, true})
        for (size_t pixels : sizes)
            compare(crowded, pixels, std::stoul(options["--seed"]));
    std::printf("\nThe nearest pixel, with no bound: time of a call, the R-tree's over it, blocks opened on average and at most.\n");
    std::printf("%-8s %6s %2s %13s %12s %10s %8s\n", "", "pixels", "k", "pkreg", "R-tree", "opened", "at most");
    for (const char *panel : {"spread", "crowded", "ring"})
        compare_nearest(panel, sizes.size() == 1 ? sizes[0] : 20000, std::stoul(options["--seed"]), REPEATS);
    std::printf("\nAll found the same numbers.\n");
    return 0;
}
