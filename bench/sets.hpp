// Seven sets of pixels with the same members, so that one loop measures them all. Needs Debian's libboost-dev and libroaring-dev.
#pragma once
#include "tree.hpp"

#include <boost/geometry.hpp>
#include <boost/geometry/index/rtree.hpp>
#include <boost/iterator/function_output_iterator.hpp>
#include <cstdio>
#include <cstdlib>
#include <cstring>
#include <roaring/roaring.hh>
#include <set>

typedef std::vector<uint32_t> Codes;
typedef std::vector<uint8_t> Bytes;

inline void must(bool holds, const char *what, const char *which)
{
    if (!holds) {
        std::fprintf(stderr, "bench: %s: %s\n", which, what);
        std::exit(1);
    }
}

// The squared distance of the nearest pixel, and the blocks opened on the way.
struct Nearest { uint64_t distance, opened; };

class Register {
    std::vector<uint32_t> store;

public:
    Register(unsigned order, uint32_t k, size_t most) : store(pk_words(k, most))
    {
        must(!pk_make(store.data(), store.size(), order, k, most), "refused", "make");
    }
    bool mark(Pixel p) { return pk_mark(store.data(), store.size(), p.x, p.y) == PK_ACCEPTED; }
    bool clear(Pixel p) { return pk_clear(store.data(), store.size(), p.x, p.y) == PK_ACCEPTED; }
    pk_place place(Pixel p) const { return pk_ask(store.data(), store.size(), p.x, p.y); }
    bool ask(Pixel p) const { return place(p).marked == 1; }
    Nearest nearest(Pixel p) const
    {
        pk_nearest_answer answer = pk_nearest(store.data(), store.size(), p.x, p.y, UINT32_MAX);
        must(answer.complete && answer.found, "finds no pixel", "nearest");
        return {answer.distance, answer.opened};
    }
    uint32_t count(Window w) const { return pk_count(store.data(), store.size(), w.x0, w.y0, w.x1, w.y1).first; }
    uint32_t list(Window w, Codes &output) const
    {
        return pk_list(store.data(), store.size(), w.x0, w.y0, w.x1, w.y1, output.data(), output.size()).first;
    }
    size_t save(Bytes &output) const
    {
        pk_answer saved = pk_save(store.data(), store.size(), output.data(), output.size());
        must(!saved.refusal, "refused", "save");
        return saved.first;
    }
    void load(const Bytes &image, size_t length) { must(!pk_load(store.data(), store.size(), image.data(), length), "refused", "load"); }
    void fill(const Codes &codes) { must(!pk_fill(store.data(), store.size(), codes.data(), codes.size()), "refused", "fill"); }
};

// The unverified C++ PK-tree, in a store of its own.
class Tree {
    std::vector<uint32_t> store;

public:
    Tree(unsigned order, uint32_t k, size_t most) : store(pk_words(k, most))
    {
        must(!pk_make(store.data(), store.size(), order, k, most), "refused", "make");
    }
    bool mark(Pixel p) { return unverified::mark(store.data(), store.size(), p.x, p.y) == PK_ACCEPTED; }
    bool clear(Pixel p) { return unverified::clear(store.data(), store.size(), p.x, p.y) == PK_ACCEPTED; }
    pk_place place(Pixel p) const { return unverified::ask(store.data(), store.size(), p.x, p.y); }
    bool ask(Pixel p) const { return place(p).marked == 1; }
    uint32_t count(Window w) const { return unverified::count(store.data(), store.size(), w.x0, w.y0, w.x1, w.y1).first; }
    uint32_t list(Window w, Codes &output) const
    {
        return unverified::list(store.data(), store.size(), w.x0, w.y0, w.x1, w.y1, output.data(), output.size()).first;
    }
    size_t save(Bytes &output) const
    {
        pk_answer saved = unverified::save(store.data(), store.size(), output.data(), output.size());
        must(!saved.refusal, "refused", "save of the C++ tree");
        return saved.first;
    }
    void load(const Bytes &image, size_t length)
    {
        must(!unverified::load(store.data(), store.size(), image.data(), length), "refused", "load of the C++ tree");
    }
    void fill(const Codes &codes)
    {
        must(!unverified::fill(store.data(), store.size(), codes.data(), codes.size()), "refused", "fill of the C++ tree");
    }
    void must_be_sound() const { must(pk_check(store.data(), store.size()).first == 1, "is no sound store", "the C++ tree"); }
};

// Counting and listing for a set that has search(window, visit), which hands the code of each pixel found to `visit`.
template <class Set> struct Searched {
    uint32_t count(Window w) const
    {
        uint32_t number = 0;
        static_cast<const Set *>(this)->search(w, [&](uint32_t) { number++; });
        return number;
    }
    uint32_t list(Window w, Codes &output) const
    {
        uint32_t number = 0;
        static_cast<const Set *>(this)->search(w, [&](uint32_t code) { output[number++] = code; });
        return number;
    }
};

// A bit for each pixel, row by row. An image is the bits as they stand.
class Bitmap : public Searched<Bitmap> {
    unsigned order;
    std::vector<uint64_t> rows;

    size_t index(Pixel p) const { return ((size_t(p.y) << order) + p.x) / 64; }
    template <class Visit> void words_of(Window w, Visit visit) const
    {
        for (uint32_t y = w.y0; y <= w.y1; y++)
            for (uint32_t x = w.x0 & ~63u; x <= w.x1; x += 64) {
                uint64_t from = x < w.x0 ? ~0ull << w.x0 % 64 : ~0ull, to = w.x1 - x < 63 ? ~0ull >> (63 - w.x1 % 64) : ~0ull;
                visit(x, y, rows[index({x, y})] & from & to);
            }
    }

public:
    explicit Bitmap(unsigned order) : order(order), rows((size_t(1) << 2 * order) / 64) {}
    bool ask(Pixel p) const { return rows[index(p)] >> p.x % 64 & 1; }
    bool mark(Pixel p) { return !ask(p) && (rows[index(p)] |= 1ull << p.x % 64); }
    bool clear(Pixel p) { return ask(p) && (rows[index(p)] &= ~(1ull << p.x % 64), true); }
    uint32_t count(Window w) const
    {
        uint32_t number = 0;
        words_of(w, [&](uint32_t, uint32_t, uint64_t bits) { number += __builtin_popcountll(bits); });
        return number;
    }
    template <class Visit> void search(Window w, Visit visit) const
    {
        words_of(w, [&](uint32_t x, uint32_t y, uint64_t bits) {
            for (; bits != 0; bits &= bits - 1)
                visit(code_of({x + uint32_t(__builtin_ctzll(bits)), y}));
        });
    }
    size_t save(Bytes &output) const { std::memcpy(output.data(), rows.data(), rows.size() * 8); return rows.size() * 8; }
    void load(const Bytes &image, size_t length) { std::memcpy(rows.data(), image.data(), length); }
    void fill(const Codes &codes)
    {
        std::fill(rows.begin(), rows.end(), 0);
        for (uint32_t code : codes)
            mark(pixel_of(code));
    }
};

// The least code above `code`, which is not in the window but below `high`, of a pixel in the window whose corners have the codes `low` and
// `high` (BIGMIN of Tropf and Herzog, 1981).
inline uint32_t next_in_window(uint32_t code, uint32_t low, uint32_t high)
{
    uint32_t best = 0;
    for (int i = 31; i >= 0; i--) {
        uint32_t bit = 1u << i, below = (bit - 1) & (i % 2 ? 0xaaaaaaaau : 0x55555555u);
        bool c = code & bit, l = low & bit, h = high & bit;
        if (c != l && c != h)
            return c ? best : low;
        if (c && !l)
            low = (low & ~below) | bit;
        if (!c && h) {
            best = (low & ~below) | bit;
            high = (high & ~bit) | below;
        }
    }
    return best;
}

// Visits the ascending codes of a window: on from code to code, and over what lies outside by jump(place, code), which gives the place
// of the first code that is not below.
template <class Place, class Jump, class Visit> void walk_window(Place at, Place end, Jump jump, Window w, Visit visit)
{
    uint32_t low = code_of({w.x0, w.y0}), high = code_of({w.x1, w.y1});
    at = jump(at, low);
    while (at != end && *at <= high) {
        if (inside(w, pixel_of(*at))) {
            visit(*at);
            ++at;
        } else {
            at = jump(at, next_in_window(*at, low, high));
        }
    }
}

inline Codes::const_iterator place_in(const Codes &codes, uint32_t code) { return std::lower_bound(codes.begin(), codes.end(), code); }
inline std::set<uint32_t>::const_iterator place_in(const std::set<uint32_t> &codes, uint32_t code) { return codes.lower_bound(code); }

// std::set, or a sorted std::vector. An image is the ascending codes, four bytes each.
template <class Container> class Sorted : public Searched<Sorted<Container>> {
    typedef typename Container::const_iterator Place;
    Container codes;

    Place place(Pixel p) const { return place_in(codes, code_of(p)); }
    bool is_at(Place at, Pixel p) const { return at != codes.end() && *at == code_of(p); }

public:
    template <class Visit> void search(Window w, Visit visit) const
    {
        walk_window(codes.begin(), codes.end(), [&](Place, uint32_t code) { return place_in(codes, code); }, w, visit);
    }
    bool ask(Pixel p) const { return is_at(place(p), p); }
    bool mark(Pixel p) { Place at = place(p); return !is_at(at, p) && (codes.insert(at, code_of(p)), true); }
    bool clear(Pixel p) { Place at = place(p); return is_at(at, p) && (codes.erase(at), true); }
    size_t save(Bytes &output) const
    {
        std::copy(codes.begin(), codes.end(), reinterpret_cast<uint32_t *>(output.data()));
        return codes.size() * 4;
    }
    void load(const Bytes &image, size_t length)
    {
        const uint32_t *first = reinterpret_cast<const uint32_t *>(image.data());
        codes = Container(first, first + length / 4);
    }
    void fill(const Codes &given) { codes = Container(given.begin(), given.end()); }
};

// An image is CRoaring's portable one.
class RoaringSet : public Searched<RoaringSet> {
    typedef Roaring::const_iterator Place;
    Roaring codes;

public:
    template <class Visit> void search(Window w, Visit visit) const
    {
        walk_window(codes.begin(), codes.end(), [](Place at, uint32_t code) { at.equalorlarger(code); return at; }, w, visit);
    }
    bool mark(Pixel p) { return codes.addChecked(code_of(p)); }
    bool clear(Pixel p) { return codes.removeChecked(code_of(p)); }
    bool ask(Pixel p) const { return codes.contains(code_of(p)); }
    size_t save(Bytes &output) const { return codes.write(reinterpret_cast<char *>(output.data())); }
    void load(const Bytes &image, size_t length) { codes = Roaring::readSafe(reinterpret_cast<const char *>(image.data()), length); }
    void fill(const Codes &given) { codes = Roaring(given.size(), given.data()); }
};

// Boost's R-tree of points. An image is the codes in the tree's order; load packs the whole tree at once.
class PointTree : public Searched<PointTree> {
    typedef boost::geometry::model::point<int32_t, 2, boost::geometry::cs::cartesian> Point;
    typedef boost::geometry::index::rtree<Point, boost::geometry::index::quadratic<16>> Tree;
    Tree tree;

    static Point point(Pixel p) { return Point(int32_t(p.x), int32_t(p.y)); }
    static uint32_t code(const Point &p) { return code_of({uint32_t(p.get<0>()), uint32_t(p.get<1>())}); }
    void pack(const uint32_t *first, const uint32_t *end)
    {
        std::vector<Point> points(end - first);
        std::transform(first, end, points.begin(), [](uint32_t code) { return point(pixel_of(code)); });
        tree = Tree(points);
    }

public:
    bool ask(Pixel p) const { return tree.count(point(p)) == 1; }
    bool mark(Pixel p) { return !ask(p) && (tree.insert(point(p)), true); }
    bool clear(Pixel p) { return tree.remove(point(p)) == 1; }
    template <class Visit> void search(Window w, Visit visit) const
    {
        boost::geometry::model::box<Point> box(point({w.x0, w.y0}), point({w.x1, w.y1}));
        tree.query(boost::geometry::index::intersects(box), boost::make_function_output_iterator([&](const Point &p) { visit(code(p)); }));
    }
    // Any of the nearest points; how many nodes were opened is not told. Not inlined, for callgrind.
    __attribute__((noinline)) Nearest nearest(Pixel p) const
    {
        Point found;
        tree.query(boost::geometry::index::nearest(point(p), 1), &found);
        int64_t dx = found.get<0>() - int64_t(p.x), dy = found.get<1>() - int64_t(p.y);
        return {uint64_t(dx * dx + dy * dy), 0};
    }
    size_t save(Bytes &output) const
    {
        std::transform(tree.begin(), tree.end(), reinterpret_cast<uint32_t *>(output.data()), code);
        return tree.size() * 4;
    }
    void load(const Bytes &image, size_t length)
    {
        const uint32_t *first = reinterpret_cast<const uint32_t *>(image.data());
        pack(first, first + length / 4);
    }
    void fill(const Codes &codes) { pack(codes.data(), codes.data() + codes.size()); }
};
