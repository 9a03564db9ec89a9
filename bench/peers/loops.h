// What the programs for persistent homology share: a triangle mesh, and when its cells enter.
//
// Edges of a shortest-path tree enter at 0, every other edge at the length of its loop through the
// tree, a face with its last edge. The classes of the first homology group (mod 2) that are born then
// and never die are those of the shortest loops at the base (the leftover edges of the heaviest
// cotree), so the births add up to the total that `surf loops` says.
#pragma once
#include <algorithm>
#include <array>
#include <fstream>
#include <queue>
#include <string>
#include <utility>
#include <vector>

using Length = long long;
using Edge = std::pair<int, int>;

struct Mesh {
  int vertices = 0;
  std::vector<std::array<int, 3>> faces;
  std::vector<Edge> edges; // lesser end first, in order
  std::vector<Length> lengths;

  int edge(int u, int v) const {
    return std::lower_bound(edges.begin(), edges.end(), Edge(std::minmax(u, v))) - edges.begin();
  }
};

// Reads an OFF file of triangles and a file of lengths, or `unit`.
inline Mesh read_mesh(const std::string& off, const std::string& lengths) {
  Mesh mesh;
  std::ifstream in(off);
  std::string word;
  int faces, skipped;
  in >> word >> mesh.vertices >> faces >> skipped;
  double coordinate;
  for (int i = 0; i < 3 * mesh.vertices; ++i) in >> coordinate;
  mesh.faces.resize(faces);
  for (auto& f : mesh.faces) {
    in >> skipped >> f[0] >> f[1] >> f[2];
    for (int i = 0; i < 3; ++i) mesh.edges.push_back(std::minmax(f[i], f[(i + 1) % 3]));
  }
  std::sort(mesh.edges.begin(), mesh.edges.end());
  mesh.edges.erase(std::unique(mesh.edges.begin(), mesh.edges.end()), mesh.edges.end());
  mesh.lengths.assign(mesh.edges.size(), 1);
  if (lengths != "unit") {
    std::ifstream lines(lengths);
    int u, v;
    Length length;
    while (lines >> u >> v >> length) mesh.lengths[mesh.edge(u, v)] = length;
  }
  return mesh;
}

// For each edge the time at which it enters, by Dijkstra's algorithm from a base.
inline std::vector<Length> entry_times(const Mesh& mesh, int base) {
  std::vector<std::vector<std::pair<int, int>>> arcs(mesh.vertices);
  for (std::size_t e = 0; e < mesh.edges.size(); ++e) {
    arcs[mesh.edges[e].first].push_back({mesh.edges[e].second, int(e)});
    arcs[mesh.edges[e].second].push_back({mesh.edges[e].first, int(e)});
  }
  struct Item {
    Length distance;
    int vertex, edge;
    bool operator<(const Item& other) const { return distance > other.distance; }
  };
  std::vector<Length> distance(mesh.vertices, -1), time(mesh.edges.size(), -1);
  std::priority_queue<Item> waiting;
  waiting.push({0, base, -1});
  while (!waiting.empty()) {
    auto [d, v, e] = waiting.top();
    waiting.pop();
    if (distance[v] >= 0) continue;
    distance[v] = d;
    if (e >= 0) time[e] = 0;
    for (auto [w, f] : arcs[v]) if (distance[w] < 0) waiting.push({d + mesh.lengths[f], w, f});
  }
  for (std::size_t e = 0; e < time.size(); ++e)
    if (time[e] < 0) time[e] = distance[mesh.edges[e].first] + mesh.lengths[e] + distance[mesh.edges[e].second];
  return time;
}
