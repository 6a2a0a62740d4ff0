// Phases the fragment block in a file: asks how much room it takes, lends it, and prints the cost, the sides and the haplotypes.
//
//     c++ -std=c++17 phase.cpp $(pkg-config --cflags --libs velejume) -o phase && ./phase p1.block
#include <algorithm>
#include <cstdint>
#include <fstream>
#include <iostream>
#include <string>
#include <vector>
#include <velejume.h>

// one character for each byte; letter 2 is no letter
static std::string marks(const std::uint8_t *first, std::size_t count) {
  std::string line(count, ' ');
  std::transform(first, first + count, line.begin(), [](std::uint8_t mark) { return "01-"[mark]; });
  return line;
}

int main(int argc, char **argv) {
  std::ifstream file(argc == 2 ? argv[1] : "", std::ios::binary);
  std::vector<std::uint8_t> block(VELEJUME_LARGEST_BLOCK + 1);
  if (file) file.read(reinterpret_cast<char *>(block.data()), block.size());
  if (!file && !file.eof()) return std::cerr << "usage: phase BLOCK\n", 2;
  block.resize(file.gcount());

  std::vector<std::uint32_t> work;
  std::vector<std::uint8_t> out;
  std::uint32_t second;
  const auto phase = [&] { return velejume_phase(block.data(), block.size(), work.data(), work.size(), out.data(), out.size(), &second); };

  // with no room at all, 10 says how many work entries are needed; with those, 11 says how many bytes of output
  auto number = phase();
  if (number == 10) work.resize(second), number = phase();
  if (number == 11) out.resize(second), number = phase();
  if (number) return std::cout << "refused " << number << " at " << second << '\n', 1;

  const std::size_t n = out[13] * 256u + out[14], m = out[15] * 256u + out[16];
  const auto sides = out.data() + 17;
  std::cout << "cost " << second << "\nsides " << (n ? marks(sides, n) : "none") << "\nhap1 " << marks(sides + n, m) << "\nhap2 "
            << marks(sides + n + m, m) << '\n';
}
