// `plain_takes put|put_fresh STEPS THREADS ROUNDS`: takes indexes of one space and stores a cell at each, until no index is left or each
// thread made STEPS takes, by the same sequentially consistent steps as `call_times`; its threads begin in the same way, and its lines
// are the same.
#include <algorithm>
#include <atomic>
#include <chrono>
#include <cstdint>
#include <cstdio>
#include <cstdlib>
#include <cstring>
#include <thread>
#include <vector>

using Words = std::vector<std::atomic<std::uint64_t>>;
using Clock = std::chrono::steady_clock;

// The freelist word is word 0, its head in the low half and its length in the high one; the entries stand from word 64 on.
static const std::uint32_t LIMIT = 65536, SEG = 256, FIRST = 64, MEETINGS = 100;
static const std::uint64_t LENGTH = 1ull << 32, FREE = 1ull << 56, NO_ACCESS = 1ull << 57, CELL = (1ull << 62) + (0x0full << 48);

// A table of whose indexes so many are committed, and all of these are free but index 0.
static void fill(Words &words, std::uint32_t committed) {
    for (std::uint32_t i = 0; i < LIMIT; i++) words[FIRST + i] = i < committed ? FREE + i + 1 : NO_ACCESS;
    words[0] = 1 + LENGTH * (committed - 1);
}

static void commit(Words &words, std::uint64_t head) {
    for (std::uint64_t i = head; i < head + SEG; i++) {
        std::uint64_t expected = NO_ACCESS;
        words[FIRST + i].compare_exchange_strong(expected, FREE + i + 1);
    }
    words[0].compare_exchange_strong(head, head + LENGTH * SEG);
}

// The index that was taken, or 0 where none is left.
static std::uint32_t take(Words &words) {
    for (;;) {
        std::uint64_t word = words[0].load();
        if (word < LENGTH) {
            if (word >= LIMIT) return 0;
            commit(words, word);
            continue;
        }
        std::uint64_t head = word % LENGTH;
        std::uint64_t next = words[FIRST + head].load() % LENGTH;
        if (words[0].compare_exchange_strong(word, next + LENGTH * (word / LENGTH - 1))) return head;
    }
}

struct Spent {
    Clock::time_point begin, end;
    std::uint64_t takes;
};

static Spent turns(Words &words, std::atomic<std::uint32_t> &come, std::uint32_t steps, std::uint32_t threads) {
    for (std::uint32_t all = threads; all <= threads * MEETINGS; all += threads)
        for (come++; come < all;) {}
    Spent spent{Clock::now(), {}, 0};
    for (; spent.takes < steps; spent.takes++) {
        std::uint32_t index = take(words);
        if (index == 0) break;
        words[FIRST + index] = CELL + spent.takes;
    }
    spent.end = Clock::now();
    return spent;
}

static void round(std::uint32_t committed, std::uint32_t steps, std::uint32_t threads) {
    Words words(FIRST + LIMIT);
    fill(words, committed);
    std::atomic<std::uint32_t> come{0};
    std::vector<Spent> spent(threads);
    std::vector<std::thread> others;
    for (std::uint32_t t = 1; t < threads; t++) others.emplace_back([&, t] { spent[t] = turns(words, come, steps, threads); });
    spent[0] = turns(words, come, steps, threads);
    for (auto &other : others) other.join();
    Clock::time_point first = spent[0].begin, last_begin = first, first_end = spent[0].end, last = first_end;
    std::uint64_t takes = 0;
    for (const Spent &one : spent) {
        first = std::min(first, one.begin);
        last_begin = std::max(last_begin, one.begin);
        first_end = std::min(first_end, one.end);
        last = std::max(last, one.end);
        takes += one.takes;
    }
    auto nanoseconds = [](Clock::duration time) { return (long long)std::chrono::nanoseconds(time).count(); };
    std::printf("%lld %llu %lld\n", nanoseconds(last - first), (unsigned long long)takes, std::max(0ll, nanoseconds(first_end - last_begin)));
}

int main(int argc, char **argv) {
    if (argc != 5) return 2;
    std::uint32_t committed = std::strcmp(argv[1], "put") ? SEG : LIMIT;
    std::uint32_t steps = std::strtoul(argv[2], nullptr, 10), threads = std::strtoul(argv[3], nullptr, 10);
    if (threads == 0) return 2;
    for (std::uint32_t rounds = std::strtoul(argv[4], nullptr, 10); rounds > 0; rounds--) round(committed, steps, threads);
    return 0;
}
