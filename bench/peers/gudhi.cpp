// GUDHI beside `surf loops`: Gudhi::Simplex_tree and Persistent_cohomology<.., Field_Zp> with p = 2.
//
//   gudhi M L X    the lines `loops k` and `total t`; see loops.h
#include <iostream>
#include "loops.h"
#include <gudhi/Persistent_cohomology.h>
#include <gudhi/Simplex_tree.h>
#include <tuple>

int main(int argc, char** argv) {
  if (argc != 4) return 2;
  Mesh mesh = read_mesh(argv[1], argv[2]);
  auto time = entry_times(mesh, std::stoi(argv[3]));
  Gudhi::Simplex_tree<> complex;
  for (int v = 0; v < mesh.vertices; ++v) complex.insert_simplex({v}, 0.0);
  for (std::size_t e = 0; e < mesh.edges.size(); ++e)
    complex.insert_simplex({mesh.edges[e].first, mesh.edges[e].second}, double(time[e]));
  for (const auto& f : mesh.faces) {
    Length last = 0;
    for (int i = 0; i < 3; ++i) last = std::max(last, time[mesh.edge(f[i], f[(i + 1) % 3])]);
    complex.insert_simplex({f[0], f[1], f[2]}, double(last));
  }
  using Cohomology = Gudhi::persistent_cohomology::Persistent_cohomology<Gudhi::Simplex_tree<>,
                                                                         Gudhi::persistent_cohomology::Field_Zp>;
  Cohomology cohomology(complex);
  cohomology.init_coefficients(2);
  cohomology.compute_persistent_cohomology();
  Length loops = 0, total = 0;
  for (const auto& pair : cohomology.get_persistent_pairs()) {
    auto born = std::get<0>(pair), dead = std::get<1>(pair);
    if (complex.dimension(born) == 1 && dead == complex.null_simplex()) ++loops, total += Length(complex.filtration(born));
  }
  std::cout << "loops " << loops << "\ntotal " << total << "\n";
}
