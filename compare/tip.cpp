// One piezometer tip, by a sheet of four lines through the C functions and by GeographicLib's LocalCartesian: the times of both, on the same readings, in turn in one run; and how far the two tips lie apart.
#include "boresheet.h"
#include <GeographicLib/Geocentric.hpp>
#include <GeographicLib/LocalCartesian.hpp>
#include <array>
#include <chrono>
#include <cinttypes>
#include <cmath>
#include <cstdio>
#include <cstdlib>
#include <cstring>
#include <limits>
#include <string>

static const std::string line_1 = "(ellipsoid wgs84)\n";
static const std::string tip_sheet = line_1 + "(let c (lla (deg r0) (deg r1) (m r2)))\n"
                                              "(let t (tolla (at (enu c) (aenu (deg r3) (deg r4) (m r5)))))\n"
                                              "(show t)\n";

// A round is so many calls of each side in turn; so many tips of each sort are held to GeographicLib's.
static const int calls = 50;
static const int rounds = 8000;
static const int tried = 1000;

// The collar's latitude, longitude and height, then the bore's azimuth, elevation and range: degrees and metres.
using Readings = std::array<double, BORESHEET_READINGS>;

// Degrees, degrees, metres.
struct Tip {
    double latitude, longitude, height;
};

// SplitMix64: a double from low to high.
static double any(double low, double high)
{
    static uint64_t state = 20261115;
    uint64_t z = state += 0x9e3779b97f4a7c15;
    z = (z ^ z >> 30) * 0xbf58476d1ce4e5b9;
    z = (z ^ z >> 27) * 0x94d049bb133111eb;
    return low + (high - low) * std::ldexp(double((z ^ z >> 31) >> 11), -53);
}

// A bore of one site.
static Readings bore()
{
    Readings r{any(46.04, 46.05), any(7.96, 7.97), any(2190, 2210), any(110, 115), any(-84, -82), any(45, 52)};
    for (size_t i = 6; i < r.size(); i++)
        r[i] = any(-1, 1);
    return r;
}

// A bore anywhere, in any direction.
static Readings anywhere()
{
    return {any(-90, 90), any(-180, 180), any(-400, 6000), any(0, 360), any(-90, 90), any(0, 1000)};
}

// ---- the two sides

static uint8_t out[BORESHEET_OUT];
static uint8_t kinds[BORESHEET_KINDS];
static char text[100];

static const uint8_t *bytes(const std::string &sheet)
{
    return reinterpret_cast<const uint8_t *>(sheet.data());
}

static uint64_t bits(double x)
{
    uint64_t b;
    std::memcpy(&b, &x, sizeof b);
    return b;
}

static double of_bits(uint64_t b)
{
    double x;
    std::memcpy(&x, &b, sizeof x);
    return x;
}

static void must_pass(uint32_t number, uint32_t line)
{
    if (number == 0)
        return;
    std::fprintf(stderr, "tip: refusal %" PRIu32 " at line %" PRIu32 "\n", number, line);
    std::exit(2);
}

// The bytes of text; they are in out.
static uint64_t run(const std::string &sheet, const Readings &r)
{
    uint32_t line;
    uint64_t written;
    const uint32_t number = boresheet_run(bytes(sheet), sheet.size(), r.data(), r.size(), out, sizeof out, &line, &written);
    must_pass(number, line);
    return written;
}

static void check(const std::string &sheet)
{
    uint32_t line;
    const uint32_t number = boresheet_check(bytes(sheet), sheet.size(), kinds, sizeof kinds, &line);
    must_pass(number, line);
}

// Azimuth is from north, clockwise; elevation is up.
static Tip geographic(const Readings &r)
{
    const double degree = 3.14159265358979323846 / 180;
    const GeographicLib::LocalCartesian site(r[0], r[1], r[2]);
    const double azimuth = r[3] * degree, elevation = r[4] * degree, range = r[5];
    const double level = range * std::cos(elevation);
    Tip t;
    site.Reverse(level * std::sin(azimuth), level * std::cos(azimuth), range * std::sin(elevation), t.latitude, t.longitude, t.height);
    return t;
}

static int written(const Tip &t)
{
    return std::snprintf(text, sizeof text, "%.17g %.17g %.17g\n", t.latitude, t.longitude, t.height);
}

// ---- how far they lie apart

// The tip of the sheet's output line, which has the bits of an n-vector and a height.
static Tip shown(const Readings &r)
{
    const std::string line(reinterpret_cast<const char *>(out), run(tip_sheet, r));
    uint64_t b[4];
    int end = 0;
    std::sscanf(line.c_str(), "t d %16" SCNx64 " %16" SCNx64 " %16" SCNx64 " %16" SCNx64 "%n", &b[0], &b[1], &b[2], &b[3], &end);
    if (line.size() != 72 || end != 71) {
        std::fprintf(stderr, "tip: not a line for one geodetic position: %s\n", line.c_str());
        std::exit(2);
    }
    const double x = of_bits(b[0]), y = of_bits(b[1]), z = of_bits(b[2]);
    const double degrees = 180 / 3.14159265358979323846;
    return {std::atan2(z, std::hypot(x, y)) * degrees, std::atan2(y, x) * degrees, of_bits(b[3])};
}

// Metres between two tips, along a straight line.
static double apart(const Tip &a, const Tip &b)
{
    const GeographicLib::Geocentric &earth = GeographicLib::Geocentric::WGS84();
    double p[3], q[3];
    earth.Forward(a.latitude, a.longitude, a.height, p[0], p[1], p[2]);
    earth.Forward(b.latitude, b.longitude, b.height, q[0], q[1], q[2]);
    return std::hypot(p[0] - q[0], p[1] - q[1], p[2] - q[2]);
}

// The greatest distance over tips of one sort; a NaN counts as the greatest.
static double greatest(Readings (*make)())
{
    double most = 0;
    for (int i = 0; i < tried; i++) {
        const Readings r = make();
        const double d = apart(shown(r), geographic(r));
        if (std::isnan(d))
            return d;
        if (d > most)
            most = d;
    }
    return most;
}

// ---- the times

static volatile uint64_t answers;

// Microseconds a call, over all readings.
template <typename F> static double pass(const std::array<Readings, calls> &all, F f)
{
    uint64_t come = 0;
    const auto start = std::chrono::steady_clock::now();
    for (const Readings &r : all)
        come = (come << 1 | come >> 63) ^ f(r);
    const std::chrono::duration<double, std::micro> time = std::chrono::steady_clock::now() - start;
    answers = come;
    return time.count() / calls;
}

int main()
{
    const char *names[] = {"run of the tip sheet", "run of line 1 alone", "check of the tip sheet", "GeographicLib, no text", "GeographicLib, with text"};
    double best[5];
    for (double &b : best)
        b = std::numeric_limits<double>::infinity();
    for (int i = 0; i < rounds; i++) {
        std::array<Readings, calls> all;
        for (Readings &r : all)
            r = bore();
        const double times[] = {
            pass(all, [](const Readings &r) { const uint64_t n = run(tip_sheet, r); return n << 8 ^ out[n - 2]; }),
            pass(all, [](const Readings &r) { return run(line_1, r); }),
            pass(all, [](const Readings &) { check(tip_sheet); return uint64_t(kinds[3]); }),
            pass(all, [](const Readings &r) { const Tip t = geographic(r); return bits(t.latitude) ^ bits(t.longitude) ^ bits(t.height); }),
            pass(all, [](const Readings &r) { const int n = written(geographic(r)); return uint64_t(n) << 8 ^ uint64_t(text[n - 2]); }),
        };
        for (int k = 0; k < 5; k++)
            best[k] = std::fmin(best[k], times[k]);
    }
    std::printf("one tip: microseconds a call, the best of %d rounds of %d calls, and the ratio of the tip sheet's run to each\n", rounds, calls);
    for (int k = 0; k < 5; k++)
        std::printf("  %-24s %8.3f %7.2f\n", names[k], best[k], best[0] / best[k]);
    const double site = greatest(bore), earth = greatest(anywhere);
    std::printf("the sheet's tip and GeographicLib's, the greatest distance of %d: at one site %.2e m, anywhere %.2e m\n", tried, site, earth);
    if (site < 0.000001 && earth < 0.000001)
        return 0;
    std::printf("tip: that is a micrometre or more\n");
    return 1;
}
