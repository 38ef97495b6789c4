// The fine blocks of a matrix, from the last to the first, as a solver takes them.
#include <blocktri.hpp>

#include <iostream>

int main() {
  // rows 0: columns 0, 1; 1: columns 1, 3; 2: columns 0, 2; 3: columns 1, 3
  std::vector<std::int32_t> starts{0, 2, 5, 6, 8}, ids{0, 2, 0, 1, 3, 2, 1, 3};
  auto order = blocktri::block_order(blocktri::compressed_columns(4, 4, starts, ids));
  for (auto b = order.blocks; b-- > 0;) {
    auto first = static_cast<std::size_t>(order.block_starts[static_cast<std::size_t>(b)]);
    auto last = static_cast<std::size_t>(order.block_starts[static_cast<std::size_t>(b) + 1]);
    std::cout << "block " << b << ": columns";
    for (auto k = first; k < last; k++) std::cout << ' ' << order.column_order[k];
    std::cout << '\n';
  }
}
