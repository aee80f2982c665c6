// A book of limit orders in C++, to hold the order book beside: bench-book NUMBER.. prints for each number of resting orders the nanoseconds an
// operation takes, and a sum of what was traded, cancelled and seen.
//
// A side is a `std::map` from price to level, a level a list through its orders with their sum, and an `unordered_map` has the orders by number.
#include <algorithm>
#include <chrono>
#include <cstdint>
#include <cstdio>
#include <cstdlib>
#include <limits>
#include <map>
#include <optional>
#include <unordered_map>
#include <vector>

namespace {

using u64 = std::uint64_t;
using u128 = unsigned __int128;

constexpr u64 MOST_ORDERS = 100000;
constexpr u64 KILLS = 10;

enum class Side { Buy, Sell };

Side opposite(Side side) { return side == Side::Buy ? Side::Sell : Side::Buy; }

struct Order;

struct Level {
    u128 quantity = 0;
    std::size_t count = 0;
    Order *first = nullptr;
    Order *last = nullptr;
};

// The levels of a side by rank: of two the one of the lesser rank trades first.
using Levels = std::map<u64, Level>;

struct Order {
    u64 number, price, quantity, tag;
    Side side;
    Levels::iterator level;
    Order *before, *behind;
};

struct Trade {
    u64 order, price, quantity, tag;
};

u64 ranked(Side side, u64 price) { return side == Side::Buy ? std::numeric_limits<u64>::max() - price : price; }

class Book {
  public:
    // Places an order that trades up to a price. Returns the number of what rests of it.
    std::optional<u64> limit(Side side, u64 price, u64 quantity, std::vector<Trade> &trades) {
        u64 left = take(opposite(side), price, quantity, trades);
        if (left == 0) return std::nullopt;
        u64 number = next++;
        auto level = of(side).try_emplace(ranked(side, price)).first;
        Level &there = level->second;
        Order &order = orders.try_emplace(number, Order{number, price, left, 0, side, level, there.last, nullptr}).first->second;
        (there.last ? there.last->behind : there.first) = &order;
        there.last = &order;
        there.quantity += left;
        there.count += 1;
        return number;
    }

    // Places an order that trades at any price, and of which nothing rests.
    void market(Side side, u64 quantity, std::vector<Trade> &trades) { take(opposite(side), worst(side), quantity, trades); }

    // Places an order that trades as a whole up to a price, or not at all. Returns whether it did.
    bool fill_or_kill(Side side, u64 price, u64 quantity, std::vector<Trade> &trades) {
        u128 offered = 0;
        for (auto &[rank, level] : of(opposite(side))) {
            if (offered >= quantity || rank > ranked(opposite(side), price)) break;
            offered += level.quantity;
        }
        if (offered < quantity) return false;
        take(opposite(side), price, quantity, trades);
        return true;
    }

    // Removes an order, and returns what was left of it, 0 if there is none.
    u64 cancel(u64 number) {
        auto found = orders.find(number);
        if (found == orders.end()) return 0;
        u64 quantity = found->second.quantity;
        unlink(found->second);
        orders.erase(found);
        return quantity;
    }

    const Levels &levels(Side side) const { return side == Side::Buy ? bids : asks; }

    static u64 worst(Side side) { return side == Side::Buy ? std::numeric_limits<u64>::max() : 0; }

  private:
    Levels bids, asks;
    std::unordered_map<u64, Order> orders;
    u64 next = 0;

    Levels &of(Side side) { return side == Side::Buy ? bids : asks; }

    // Trades with the orders of a side up to a price, and returns what is left.
    u64 take(Side side, u64 price, u64 quantity, std::vector<Trade> &trades) {
        Levels &levels = of(side);
        u64 last = ranked(side, price);
        while (quantity > 0 && !levels.empty() && levels.begin()->first <= last) {
            Level &level = levels.begin()->second;
            Order &order = *level.first;
            u64 traded = std::min(quantity, order.quantity);
            trades.push_back({order.number, order.price, traded, order.tag});
            quantity -= traded;
            if (traded < order.quantity) {
                order.quantity -= traded;
                level.quantity -= traded;
            } else {
                unlink(order);
                orders.erase(order.number);
            }
        }
        return quantity;
    }

    // Takes an order off its level, and a level without orders off its side.
    void unlink(Order &order) {
        Level &level = order.level->second;
        (order.before ? order.before->behind : level.first) = order.behind;
        (order.behind ? order.behind->before : level.last) = order.before;
        level.quantity -= order.quantity;
        if (--level.count == 0) of(order.side).erase(order.level);
    }
};

// The keys of crates/bench_ord/src/keys.rt.
u64 mixed(u64 i) {
    u64 z = i + 0x9e3779b97f4a7c15;
    z = (z ^ (z >> 30)) * 0xbf58476d1ce4e5b9;
    z = (z ^ (z >> 27)) * 0x94d049bb133111eb;
    return z ^ (z >> 31);
}

// The orders and steps of crates/bench_ord/src/trading.rt.
Side side_of(u64 random) { return random & 1 ? Side::Sell : Side::Buy; }

u64 quantity_of(u64 random) { return (random >> 32) % 16 + 1; }

struct Market {
    Book book;
    std::vector<Trade> trades;
    std::vector<u64> ids;

    u64 worth() const {
        u64 sum = 0;
        for (auto &trade : trades) sum += trade.price * trade.quantity;
        return sum;
    }

    u64 place(Side side, u64 price, u64 quantity) {
        trades.clear();
        auto id = book.limit(side, price, quantity, trades);
        if (id) ids.push_back(*id);
        return worth();
    }

    u64 place_at_rest(u64 random) {
        u64 offset = (random >> 8) % 1000 + 1;
        Side side = side_of(random);
        return place(side, side == Side::Buy ? 1000000 - offset : 1000000 + offset, quantity_of(random));
    }

    u64 place_to_trade(u64 random) {
        Side side = side_of(random);
        return place(side, Book::worst(side), quantity_of(random));
    }

    u64 cancel(u64 random) {
        if (ids.empty()) return 0;
        std::size_t at = (random >> 24) % ids.size();
        u64 id = ids[at];
        ids[at] = ids.back();
        ids.pop_back();
        return book.cancel(id);
    }

    u64 step(u64 random) {
        switch ((random >> 4) % 4) {
        case 0: return cancel(random);
        case 1: return place_to_trade(random);
        default: return place_at_rest(random);
        }
    }

    // What the first levels of a side come to, price by quantity.
    u64 depth(Side side, std::size_t levels) const {
        u64 sum = 0;
        for (auto &[rank, level] : book.levels(side)) {
            if (levels-- == 0) break;
            sum += ranked(side, rank) * static_cast<u64>(level.quantity);
        }
        return sum;
    }

    u64 top(Side side) const {
        auto &levels = book.levels(side);
        if (levels.empty()) return 0;
        return ranked(side, levels.begin()->first) * static_cast<u64>(levels.begin()->second.quantity);
    }

    u64 take_all(Side side) {
        trades.clear();
        book.market(side, std::numeric_limits<u64>::max(), trades);
        return worth();
    }
};

// The measures of crates/bench_ord/src/book.rt.
using Stream = std::vector<u64>;

u64 mix(Market &market, const Stream &stream) {
    u64 sum = 0;
    for (u64 random : stream) sum += market.step(random);
    return sum;
}

u64 quote(Market &market, const Stream &stream) {
    u64 sum = 0;
    for (u64 random : stream) {
        market.place_at_rest(random);
        sum += market.cancel(random);
    }
    return sum;
}

u64 mix_and_best(Market &market, const Stream &stream) {
    u64 sum = 0;
    for (u64 random : stream) {
        sum += market.step(random);
        sum += market.top(Side::Buy);
        sum += market.top(Side::Sell);
    }
    return sum;
}

template <std::size_t LEVELS> u64 mix_and_depth(Market &market, const Stream &stream) {
    u64 sum = 0;
    for (u64 random : stream) {
        sum += market.step(random);
        sum += market.depth(side_of(random), LEVELS);
    }
    return sum;
}

u64 kill(Market &market, const Stream &stream) {
    u64 refused = 0;
    for (u64 i = 0; i < KILLS; i++) {
        Side side = i % 2 == 0 ? Side::Buy : Side::Sell;
        market.trades.clear();
        if (!market.book.fill_or_kill(side, Book::worst(side), stream.size() * 16 + 1, market.trades)) refused += 1;
    }
    return refused;
}

u64 sweep(Market &market, const Stream &) {
    u64 bought = market.take_all(Side::Buy);
    return bought + market.take_all(Side::Sell);
}

struct Measure {
    const char *name;
    u64 (*work)(Market &, const Stream &);
};

constexpr Measure MEASURES[] = {
    {"place, cancel, trade", mix},
    {"place and cancel", quote},
    {"the mix, and best", mix_and_best},
    {"the mix, and depth 1", mix_and_depth<1>},
    {"the mix, and depth 5", mix_and_depth<5>},
    {"fill or kill", kill},
    {"sweep", sweep},
};

void measure(const Measure &measure, u64 n) {
    Stream resting(n), stream(n);
    for (u64 i = 0; i < n; i++) resting[i] = mixed(i), stream[i] = mixed(n + i);
    double least = std::numeric_limits<double>::infinity();
    u64 sum = 0, rounds = std::clamp<u64>(300000 / std::max<u64>(n, 1), 3, 30);
    for (u64 round = 0; round < rounds; round++) {
        Market market;
        market.ids.reserve(n);
        for (u64 random : resting) market.place_at_rest(random);
        auto begun = std::chrono::steady_clock::now();
        sum = measure.work(market, stream);
        std::chrono::duration<double, std::nano> took = std::chrono::steady_clock::now() - begun;
        least = std::min(least, took.count());
    }
    std::printf("%llu %s: %llu\n", static_cast<unsigned long long>(n), measure.name, static_cast<unsigned long long>(sum));
    u64 operations = measure.work == kill ? KILLS : std::max<u64>(n, 1);
    std::fprintf(stderr, "%llu %s: %.1f\n", static_cast<unsigned long long>(n), measure.name, least / static_cast<double>(operations));
}

} // namespace

int main(int count, char **words) {
    for (int i = 1; i < count; i++) {
        u64 n = std::strtoull(words[i], nullptr, 10);
        for (auto &one : MEASURES)
            if (n <= MOST_ORDERS || one.work == sweep) measure(one, n);
    }
}
