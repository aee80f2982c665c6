// Times of std::map beside those of bench.c.
#include <chrono>
#include <cstdint>
#include <cstdio>
#include <map>
#include <vector>

namespace {

constexpr int N = 200000;
std::uint64_t state = 88172645463325252u;

std::int64_t random_key() {
    state ^= state << 13;
    state ^= state >> 7;
    state ^= state << 17;
    return static_cast<std::int64_t>(state);
}

template <class F> void time(const char *operation, F run) {
    auto begun = std::chrono::steady_clock::now();
    run();
    std::chrono::duration<double, std::nano> took = std::chrono::steady_clock::now() - begun;
    std::printf("C++|std::map|%s|%.1f\n", operation, took.count() / N);
}

} // namespace

int main() {
    std::map<std::int64_t, std::uint64_t> map;
    using At = decltype(map)::iterator;
    std::vector<std::int64_t> keys(N);
    std::vector<At> places(N);
    volatile std::uint64_t sum = 0;
    for (auto &key : keys) key = random_key();
    time("insert", [&] { for (int i = 0; i < N; i++) places[i] = map.emplace(keys[i], i).first; });
    time("find by key", [&] { for (int i = 0; i < N; i++) sum = sum + map.find(keys[i])->second; });
    time("get by pointer", [&] { for (int i = 0; i < N; i++) sum = sum + places[i]->second; });
    time("iterate, in batches", [&] { for (auto &entry : map) sum = sum + entry.second; });
    time("rekey", [&] {
        for (int i = 0; i < N; i++) {
            auto node = map.extract(places[i]);
            node.key() = random_key();
            places[i] = map.insert(std::move(node)).position;
        }
    });
    time("pop first, single calls", [&] { for (int i = 0; i < N; i++) map.erase(map.begin()); });
    time("build in order", [&] { for (int i = 0; i < N; i++) map.emplace_hint(map.end(), i, i); });
}
