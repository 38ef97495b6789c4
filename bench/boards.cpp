// The claim board and the flip board with plain atomics of C++, in words of 8 bytes as the boards have them.
//
//   boards TAKES WORDS THREADS STRIDE ALL
//
// TAKES is 0 for claims and 1 for takes, ALL is 1 where all threads go through all words. It writes the nanoseconds and how
// many calls were the first at their word.
#include <atomic>
#include <chrono>
#include <cstdint>
#include <cstdio>
#include <cstdlib>
#include <memory>
#include <thread>
#include <vector>

using Word = std::atomic<uint64_t>;

int main(int, char **argv) {
  bool takes = std::atoi(argv[1]) != 0;
  uint32_t words = std::strtoul(argv[2], nullptr, 10), threads = std::strtoul(argv[3], nullptr, 10);
  uint32_t stride = std::strtoul(argv[4], nullptr, 10), mask = words - 1;
  bool all = std::atoi(argv[5]) == 1;
  size_t count = takes ? 3 * size_t(words) + 1 : size_t(words) + 1;
  std::unique_ptr<Word[]> board(new Word[count]);
  for (size_t k = 0; k < count; k++) board[k].store(0, std::memory_order_relaxed);
  std::vector<uint32_t> mine(threads * 64);
  auto work = [&](uint32_t number) {
    uint32_t part = words / threads, first = all ? 0 : part * number, length = all ? words : part, won = 0;
    for (uint32_t k = 0; k < length; k++) {
      uint32_t at = (first + k) * stride & mask;
      uint64_t empty = 0;
      if (board[1 + size_t(at)].compare_exchange_strong(empty, 1 + number)) {
        if (takes) {
          board[1 + size_t(words) + at].store(1 + at);
          board[1 + 2 * size_t(words) + at].store(1 + at);
        }
        won++;
      }
    }
    mine[64 * number] = won;
  };
  auto start = std::chrono::steady_clock::now();
  std::vector<std::thread> others;
  for (uint32_t number = 1; number < threads; number++) others.emplace_back(work, number);
  work(0);
  for (auto &other : others) other.join();
  auto spent = std::chrono::steady_clock::now() - start;
  uint32_t sum = 0;
  for (uint32_t number = 0; number < threads; number++) sum += mine[64 * number];
  std::printf("%lld %u\n", (long long)std::chrono::duration_cast<std::chrono::nanoseconds>(spent).count(), sum);
}
