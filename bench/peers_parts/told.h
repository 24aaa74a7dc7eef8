// A graph file as C++ reads it, and what is told of it.
#include <cstdint>
#include <cstdio>
#include <ctime>
#include <fstream>
#include <vector>

struct Arc { std::uint32_t from, to, ms; };
struct Pair { std::uint32_t from, to; };

struct Asked {
  std::uint32_t nodes;
  std::vector<Arc> arcs;
  std::vector<Pair> pairs;

  explicit Asked(const char* path) {
    std::ifstream file(path, std::ios::binary);
    std::uint32_t counts[3];
    file.read(reinterpret_cast<char*>(counts), sizeof counts);
    nodes = counts[0];
    arcs.resize(counts[1]);
    pairs.resize(counts[2]);
    file.read(reinterpret_cast<char*>(arcs.data()), arcs.size() * sizeof(Arc));
    file.read(reinterpret_cast<char*>(pairs.data()), pairs.size() * sizeof(Pair));
  }
};

// Processor seconds since the last lap.
class Clock {
  std::clock_t last = std::clock();

 public:
  double lap() {
    const std::clock_t now = std::clock();
    const double seconds = double(now - last) / CLOCKS_PER_SEC;
    last = now;
    return seconds;
  }
};

inline void tell(double ready, double pair, double every, const std::vector<long>& took) {
  std::printf("%f %f %f\n", ready, pair, every);
  for (long ms : took) std::printf("%ld\n", ms);
}
