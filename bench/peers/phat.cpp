// PHAT beside `surf loops`: phat::compute_persistence_pairs<phat::twist_reduction>.
//
//   phat M L X    the lines `loops k` and `total t`; see loops.h
#include "loops.h"
#include <iostream>
#include <numeric>
#include <phat/algorithms/twist_reduction.h>
#include <phat/boundary_matrix.h>
#include <phat/compute_persistence_pairs.h>
#include <phat/representations/bit_tree_pivot_column.h>

struct Cell {
  int dimension, number;
  Length time;
};

// Vertices, then edges by time, each with the faces of which it is the last edge.
static std::vector<Cell> cells_in_order(const Mesh& mesh, const std::vector<Length>& time, std::vector<int>& place) {
  std::vector<int> order(mesh.edges.size()), rank(mesh.edges.size());
  std::iota(order.begin(), order.end(), 0);
  std::stable_sort(order.begin(), order.end(), [&](int a, int b) { return time[a] < time[b]; });
  for (std::size_t i = 0; i < order.size(); ++i) rank[order[i]] = i;
  std::vector<std::vector<int>> behind(mesh.edges.size());
  for (std::size_t f = 0; f < mesh.faces.size(); ++f) {
    int last = 0;
    for (int i = 0; i < 3; ++i) last = std::max(last, rank[mesh.edge(mesh.faces[f][i], mesh.faces[f][(i + 1) % 3])]);
    behind[last].push_back(f);
  }
  std::vector<Cell> cells;
  for (int v = 0; v < mesh.vertices; ++v) cells.push_back({0, v, 0});
  for (int e : order) {
    place[e] = cells.size();
    cells.push_back({1, e, time[e]});
    for (int f : behind[rank[e]]) cells.push_back({2, f, time[e]});
  }
  return cells;
}

static std::vector<phat::index> boundary(const Mesh& mesh, const Cell& cell, const std::vector<int>& place) {
  std::vector<phat::index> column;
  if (cell.dimension == 1) column = {mesh.edges[cell.number].first, mesh.edges[cell.number].second};
  if (cell.dimension == 2) {
    const auto& f = mesh.faces[cell.number];
    for (int i = 0; i < 3; ++i) column.push_back(place[mesh.edge(f[i], f[(i + 1) % 3])]);
    std::sort(column.begin(), column.end());
  }
  return column;
}

int main(int argc, char** argv) {
  if (argc != 4) return 2;
  Mesh mesh = read_mesh(argv[1], argv[2]);
  std::vector<int> place(mesh.edges.size());
  auto cells = cells_in_order(mesh, entry_times(mesh, std::stoi(argv[3])), place);
  phat::boundary_matrix<phat::bit_tree_pivot_column> matrix;
  matrix.set_num_cols(cells.size());
  for (std::size_t i = 0; i < cells.size(); ++i) {
    matrix.set_dim(i, cells[i].dimension);
    matrix.set_col(i, boundary(mesh, cells[i], place));
  }
  phat::persistence_pairs pairs;
  phat::compute_persistence_pairs<phat::twist_reduction>(pairs, matrix);
  std::vector<bool> is_paired(cells.size());
  for (phat::index i = 0; i < pairs.get_num_pairs(); ++i) {
    auto [born, dead] = pairs.get_pair(i);
    is_paired[born] = is_paired[dead] = true;
  }
  Length loops = 0, total = 0;
  for (std::size_t i = 0; i < cells.size(); ++i)
    if (cells[i].dimension == 1 && !is_paired[i]) ++loops, total += cells[i].time;
  std::cout << "loops " << loops << "\ntotal " << total << "\n";
}
