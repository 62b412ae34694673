// The seeded work that every set of pixels is given: pixels, windows, places, and the order in which they are marked, asked for and cleared.
#pragma once
#include <algorithm>
#include <cstdint>
#include <random>
#include <string>
#include <unordered_set>
#include <vector>

struct Pixel { uint32_t x, y; };
struct Window { uint32_t x0, y0, x1, y1; };

inline uint32_t spaced(uint32_t bits)
{
    bits = (bits | bits << 8) & 0x00ff00ffu;
    bits = (bits | bits << 4) & 0x0f0f0f0fu;
    bits = (bits | bits << 2) & 0x33333333u;
    return (bits | bits << 1) & 0x55555555u;
}

inline uint32_t compacted(uint32_t code)
{
    code &= 0x55555555u;
    code = (code | code >> 1) & 0x33333333u;
    code = (code | code >> 2) & 0x0f0f0f0fu;
    code = (code | code >> 4) & 0x00ff00ffu;
    return (code | code >> 8) & 0x0000ffffu;
}

inline uint32_t code_of(Pixel pixel) { return spaced(pixel.x) | spaced(pixel.y) << 1; }
inline Pixel pixel_of(uint32_t code) { return {compacted(code), compacted(code >> 1)}; }

inline bool inside(Window window, Pixel pixel)
{
    return window.x0 <= pixel.x && pixel.x <= window.x1 && window.y0 <= pixel.y && pixel.y <= window.y1;
}

// Spread: every pixel of a panel of order 16 is as likely. Crowded: a panel of order 11 with 32 spots, each about 256 pixels wide and
// denser towards its middle.
struct Workload {
    enum { SPOTS = 32, REACH = 128 };
    unsigned order;
    std::vector<Pixel> spots, pixels, asked, cleared;
    std::vector<uint32_t> ascending; // the codes of the pixels
    std::vector<Window> small, medium, over_spots, whole;
    std::vector<Pixel> places; // from which the nearest pixel is sought

    Workload(bool crowded, size_t number, uint32_t seed) : order(crowded ? 11 : 16), draws(seed)
    {
        for (int i = 0; i < SPOTS; i++)
            spots.push_back(anywhere());
        draw_pixels(crowded, number);
        asked = cleared = pixels;
        std::shuffle(cleared.begin(), cleared.end(), draws);
        for (size_t i = 0; i < number; i += 2)
            asked[i] = anywhere();
        std::shuffle(asked.begin(), asked.end(), draws);
        draw_windows();
        for (Pixel pixel : pixels)
            ascending.push_back(code_of(pixel));
        std::sort(ascending.begin(), ascending.end());
        for (int i = 0; i < 500; i++)
            places.push_back(anywhere());
    }

private:
    std::mt19937 draws;

    uint32_t side() const { return 1u << order; }
    Pixel anywhere() { return {uint32_t(draws()) % side(), uint32_t(draws()) % side()}; }
    uint32_t near_to(uint32_t middle) { return (middle + side() - REACH + draws() % REACH + draws() % REACH) % side(); }

    void draw_pixels(bool crowded, size_t number)
    {
        std::unordered_set<uint32_t> drawn;
        while (pixels.size() < number) {
            Pixel spot = spots[draws() % SPOTS];
            Pixel pixel = crowded ? Pixel{near_to(spot.x), near_to(spot.y)} : anywhere();
            if (drawn.insert(code_of(pixel)).second)
                pixels.push_back(pixel);
        }
    }

    Window about(Pixel middle, uint32_t width) const
    {
        uint32_t most = side() - width, half = width / 2;
        uint32_t x0 = std::min(middle.x < half ? 0 : middle.x - half, most), y0 = std::min(middle.y < half ? 0 : middle.y - half, most);
        return {x0, y0, x0 + width - 1, y0 + width - 1};
    }

    // Every second window lies about a marked pixel.
    void draw_windows()
    {
        for (int i = 0; i < 500; i++) {
            Pixel middle = i % 2 ? anywhere() : pixels[draws() % pixels.size()];
            small.push_back(about(middle, 16));
            medium.push_back(about(middle, 256));
        }
        for (Pixel spot : spots)
            over_spots.push_back(about(spot, 256));
        whole.assign(4, Window{0, 0, side() - 1, side() - 1});
    }
};
