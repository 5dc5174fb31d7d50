// `plain_steps load N THREADS | swap N THREADS | exchange N THREADS`: the same steps as `step_times`, sequentially consistent, on words
// of one array.
#include <atomic>
#include <cstdint>
#include <cstdlib>
#include <cstring>
#include <thread>
#include <vector>

static std::vector<std::atomic<std::uint64_t>> *words;

static std::uint64_t steps(const char *kind, std::uint32_t n) {
    std::uint64_t sum = 0;
    auto &all = *words;
    if (!std::strcmp(kind, "load"))
        for (std::uint32_t i = 0; i < n; i++) sum ^= all[0].load();
    else if (!std::strcmp(kind, "swap"))
        for (std::uint32_t i = 0; i < n; i++) all[19].exchange(0);
    else
        for (std::uint32_t i = 0; i < n; i++) {
            std::uint64_t expected = 1ull << 57;
            all[65].compare_exchange_strong(expected, (1ull << 56) + 2);
        }
    return sum;
}

int main(int argc, char **argv) {
    if (argc != 4) return 2;
    words = new std::vector<std::atomic<std::uint64_t>>(76);
    (*words)[0] = 0x300000001;
    (*words)[65] = (1ull << 56) + 2;
    std::uint32_t n = std::strtoul(argv[2], nullptr, 10);
    if (!std::strcmp(argv[3], "1")) return steps(argv[1], n) == 1;
    std::vector<std::thread> all;
    std::atomic<std::uint64_t> sum{0};
    for (int t = 0; t < 4; t++) all.emplace_back([&] { sum ^= steps(argv[1], n); });
    for (auto &t : all) t.join();
    return sum == 1;
}
