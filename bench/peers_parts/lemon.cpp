// Asks LEMON's Dijkstra the pairs of a graph file: see others.py for what is printed.
#include <lemon/dijkstra.h>
#include <lemon/static_graph.h>
#include "told.h"

int main(int, char** words) {
  const Asked asked(words[1]);
  Clock clock;
  lemon::StaticDigraph graph;
  std::vector<std::pair<int, int>> ends;
  for (const Arc& arc : asked.arcs) ends.emplace_back(arc.from, arc.to);
  graph.build(asked.nodes, ends.begin(), ends.end());
  lemon::StaticDigraph::ArcMap<unsigned> lengths(graph);
  for (std::size_t at = 0; at < asked.arcs.size(); ++at) lengths[graph.arc(at)] = asked.arcs[at].ms;
  const double ready = clock.lap();

  lemon::Dijkstra<lemon::StaticDigraph, lemon::StaticDigraph::ArcMap<unsigned>> search(graph, lengths);
  std::vector<long> took;
  for (const Pair& pair : asked.pairs)
    took.push_back(search.run(graph.node(pair.from), graph.node(pair.to)) ? long(search.dist(graph.node(pair.to))) : -1);
  const double pairs = clock.lap();
  search.run(graph.node(asked.pairs[0].from));
  tell(ready, pairs / asked.pairs.size(), clock.lap(), took);
}
