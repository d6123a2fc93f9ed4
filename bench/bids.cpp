// The loops of a bid in plain C++, for the benchmark bids.sh: the search over a dense row, the landing, the lowest free run.
//
// usage: bids SHEET INCREMENT REPEATS
#include <algorithm>
#include <chrono>
#include <cstdint>
#include <cstdio>
#include <cstdlib>
#include <cstring>
#include <fstream>
#include <iterator>
#include <vector>

constexpr int64_t TOP = 1'000'000;
constexpr int32_t ABSENT = INT32_MIN;
constexpr size_t LIMIT = 256;

struct Sheet {
    const uint8_t *bytes;
    size_t size;

    int32_t pair(size_t run, size_t seat) const {
        int32_t word;
        std::memcpy(&word, bytes + 8 + 4 * (size * run + seat), sizeof word);
        return word;
    }
};

struct Bid {
    bool out;
    uint16_t seat;
    uint64_t price;
};

struct Market {
    size_t size;
    int64_t increment;
    uint64_t prices[LIMIT], shown[LIMIT];
    int16_t seats[LIMIT], holders[LIMIT];
    Bid bids[LIMIT];
    uint64_t composed, accepted, outbid;
};

static int64_t floor_of(size_t n, int64_t increment) {
    int64_t ceiling = (static_cast<int64_t>(n) + 1) * TOP;
    return -((2 * static_cast<int64_t>(n) - 1) * ceiling + (static_cast<int64_t>(n) - 1) * increment);
}

// The bid of a run; false where no seat nets it the floor.
static bool compose(const Sheet &sheet, Market &market, size_t run) {
    size_t n = sheet.size;
    int64_t floor = floor_of(n, market.increment);
    int64_t scale = static_cast<int64_t>(n) + 1;
    bool found = false;
    size_t seat = 0;
    int64_t worth = 0, net = 0, second = floor;
    for (size_t k = 0; k < n; k++) {
        int32_t points = sheet.pair(run, k);
        if (points == ABSENT) continue;
        int64_t scaled = scale * points;
        int64_t value = scaled - static_cast<int64_t>(market.shown[k]);
        if (!found) {
            found = true;
            seat = k, worth = scaled, net = value;
        } else if (net < value) {
            second = std::max(second, net);
            seat = k, worth = scaled, net = value;
        } else {
            second = std::max(second, value);
        }
    }
    if (!found || net < floor) return false;
    market.bids[run] = {true, static_cast<uint16_t>(seat), static_cast<uint64_t>(worth - second + market.increment)};
    market.composed++;
    return true;
}

// Lands a run's bid, or drops it.
static void deliver(Market &market, size_t run) {
    Bid bid = market.bids[run];
    market.bids[run].out = false;
    if (bid.price < market.prices[bid.seat] + static_cast<uint64_t>(market.increment)) {
        market.outbid++;
        return;
    }
    int16_t displaced = market.holders[bid.seat];
    if (displaced >= 0) market.seats[displaced] = -1;
    market.seats[run] = static_cast<int16_t>(bid.seat);
    market.holders[bid.seat] = static_cast<int16_t>(run);
    market.prices[bid.seat] = bid.price;
    market.shown[bid.seat] = bid.price;
    market.accepted++;
}

static long lowest_free(const Market &market) {
    for (size_t run = 0; run < market.size; run++) {
        if (market.seats[run] < 0) return static_cast<long>(run);
    }
    return -1;
}

__attribute__((noinline)) static bool play(const Sheet &sheet, Market &market, int64_t increment) {
    market = {};
    market.size = sheet.size;
    market.increment = increment;
    std::fill(std::begin(market.seats), std::end(market.seats), -1);
    std::fill(std::begin(market.holders), std::end(market.holders), -1);
    for (;;) {
        long run = lowest_free(market);
        if (run < 0) return true;
        if (!compose(sheet, market, static_cast<size_t>(run))) return false;
        deliver(market, static_cast<size_t>(run));
    }
}

int main(int count, char **words) {
    if (count != 4) {
        std::fprintf(stderr, "usage: bids SHEET INCREMENT REPEATS\n");
        return 1;
    }
    std::ifstream file(words[1], std::ios::binary);
    std::vector<uint8_t> bytes((std::istreambuf_iterator<char>(file)), std::istreambuf_iterator<char>());
    size_t size = bytes.size() >= 8 ? bytes[0] | static_cast<size_t>(bytes[1]) << 8 : 0;
    if (size < 1 || size > LIMIT || bytes.size() != 8 + 4 * size * size) {
        std::fprintf(stderr, "bids: no dense sheet\n");
        return 1;
    }
    int64_t increment = std::strtoll(words[2], nullptr, 10);
    long repeats = std::strtol(words[3], nullptr, 10);
    Sheet sheet{bytes.data(), size};
    static Market market;
    auto start = std::chrono::steady_clock::now();
    for (long k = 0; k < repeats; k++) {
        if (!play(sheet, market, increment)) {
            std::fprintf(stderr, "no full plan\n");
            return 1;
        }
        // nothing read so far is known in the next repeat
        __asm__ volatile("" ::: "memory");
    }
    auto nanos = std::chrono::duration_cast<std::chrono::nanoseconds>(std::chrono::steady_clock::now() - start).count();
    uint64_t prices = 0;
    for (size_t k = 0; k < size; k++) prices += market.prices[k];
    std::printf("bids %llu prices %llu\n", static_cast<unsigned long long>(market.composed), static_cast<unsigned long long>(prices));
    long long all = static_cast<long long>(market.composed) * repeats;
    std::fprintf(stderr, "%lld ns per bid (%ld phases)\n", static_cast<long long>(nanos) / (all > 0 ? all : 1), repeats);
    return 0;
}
