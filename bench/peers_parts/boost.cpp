// Asks Boost's Dijkstra over compressed rows the pairs of a graph file: see others.py for what is printed.
#include <boost/graph/compressed_sparse_row_graph.hpp>
#include <boost/graph/dijkstra_shortest_paths.hpp>
#include <limits>
#include "told.h"

using Graph = boost::compressed_sparse_row_graph<boost::directedS, boost::no_property, unsigned, boost::no_property, unsigned, unsigned>;
constexpr unsigned NONE = std::numeric_limits<unsigned>::max();

struct Reached {};

// Ends the search when its target is settled.
struct UntilTarget : boost::default_dijkstra_visitor {
  unsigned target;
  explicit UntilTarget(unsigned to) : target(to) {}
  template <class G> void examine_vertex(unsigned node, const G&) const {
    if (node == target) throw Reached();
  }
};

void search(const Graph& graph, std::vector<unsigned>& from_start, unsigned from, unsigned to) {
  try {
    boost::dijkstra_shortest_paths(graph, from, boost::weight_map(boost::get(boost::edge_bundle, graph))
        .distance_map(boost::make_iterator_property_map(from_start.begin(), boost::get(boost::vertex_index, graph)))
        .distance_inf(NONE).visitor(UntilTarget(to)));
  } catch (Reached) {
  }
}

int main(int, char** words) {
  const Asked asked(words[1]);
  Clock clock;
  std::vector<std::pair<unsigned, unsigned>> ends;
  std::vector<unsigned> lengths, from_start(asked.nodes);
  for (const Arc& arc : asked.arcs) ends.emplace_back(arc.from, arc.to), lengths.push_back(arc.ms);
  const Graph graph(boost::edges_are_sorted, ends.begin(), ends.end(), lengths.begin(), asked.nodes);
  const double ready = clock.lap();

  std::vector<long> took;
  for (const Pair& pair : asked.pairs) {
    search(graph, from_start, pair.from, pair.to);
    took.push_back(from_start[pair.to] == NONE ? -1 : long(from_start[pair.to]));
  }
  const double pairs = clock.lap();
  search(graph, from_start, asked.pairs[0].from, NONE);
  tell(ready, pairs / asked.pairs.size(), clock.lap(), took);
}
