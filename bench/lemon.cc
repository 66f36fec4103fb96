// Runs LEMON's solvers for least-cost flows on the dump of a network, and prints a line for each:
//   NAME cost C read R build B run T     (R, B and T in milliseconds: parsing, making the graph, and `run()` alone)
// The dump is that of `firmament graph`, in DIMACS lines. Usage: lemon FILE
#include <lemon/cost_scaling.h>
#include <lemon/network_simplex.h>
#include <lemon/smart_graph.h>

#include <chrono>
#include <cstdio>
#include <fstream>
#include <sstream>
#include <string>
#include <vector>

using Graph = lemon::SmartDigraph;
using Number = long long;

static double now() {
  using namespace std::chrono;
  return duration<double, std::milli>(steady_clock::now().time_since_epoch()).count();
}

struct Arc {
  int from, to;
  Number capacity, cost;
};

struct Network {
  std::vector<Number> supplies;
  std::vector<Arc> arcs;
};

// Node lines say what a node sends, arc lines `a FROM TO LEAST CAPACITY COST`; nodes are numbered from 1.
static Network read(const char *name) {
  std::ifstream file(name, std::ios::binary);
  std::stringstream all;
  all << file.rdbuf();
  const std::string text = all.str();
  Network network;
  for (const char *line = text.c_str(); *line;) {
    int from, to, nodes, arcs;
    Number supply, least, capacity, cost;
    if (*line == 'p' && std::sscanf(line, "p min %d %d", &nodes, &arcs) == 2) {
      network.supplies.assign(nodes + 1, 0);
      network.arcs.reserve(arcs);
    } else if (*line == 'n') {
      char *rest;
      from = std::strtol(line + 1, &rest, 10);
      supply = std::strtoll(rest, &rest, 10);
      network.supplies[from] = supply;
    } else if (*line == 'a') {
      char *rest;
      from = std::strtol(line + 1, &rest, 10);
      to = std::strtol(rest, &rest, 10);
      least = std::strtoll(rest, &rest, 10);
      capacity = std::strtoll(rest, &rest, 10);
      cost = std::strtoll(rest, &rest, 10);
      network.arcs.push_back({from, to, capacity - least, cost});
    }
    while (*line && *line != '\n') ++line;
    if (*line) ++line;
  }
  return network;
}

struct Maps {
  explicit Maps(const Network &network)
      : supplies(graph), capacities(graph), costs(graph) {
    std::vector<Graph::Node> nodes(network.supplies.size());
    graph.reserveNode(nodes.size());
    graph.reserveArc(network.arcs.size());
    for (size_t node = 1; node < nodes.size(); ++node) {
      nodes[node] = graph.addNode();
      supplies[nodes[node]] = network.supplies[node];
    }
    for (const Arc &arc : network.arcs) {
      const Graph::Arc made = graph.addArc(nodes[arc.from], nodes[arc.to]);
      capacities[made] = arc.capacity;
      costs[made] = arc.cost;
    }
  }

  Graph graph;
  Graph::NodeMap<Number> supplies;
  Graph::ArcMap<Number> capacities, costs;
};

template <class Solver>
static void solve(const char *name, const Maps &maps, double reading, double making) {
  double begun = now();
  Solver solver(maps.graph);
  solver.upperMap(maps.capacities).costMap(maps.costs).supplyMap(maps.supplies);
  making += now() - begun;
  begun = now();
  const bool found = solver.run() == Solver::OPTIMAL;
  const double running = now() - begun;
  std::printf("%s cost %lld read %.3f build %.3f run %.3f\n", name,
              found ? solver.template totalCost<Number>() : -1LL, reading, making, running);
}

int main(int count, char **words) {
  if (count != 2) return 2;
  double begun = now();
  const Network network = read(words[1]);
  const double reading = now() - begun;
  begun = now();
  const Maps maps(network);
  const double making = now() - begun;
  solve<lemon::NetworkSimplex<Graph, Number, Number>>("network-simplex", maps, reading, making);
  solve<lemon::CostScaling<Graph, Number, Number>>("cost-scaling", maps, reading, making);
}
