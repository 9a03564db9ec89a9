// CGAL beside `surf`: CGAL::Surface_mesh_topology::Curves_on_surface_topology.
//
//   cgal cycle M L     compute_edge_width where L is `unit`, else
//                      compute_shortest_non_contractible_cycle with the lengths as weights
//   cgal loop M L X    compute_shortest_non_contractible_cycle_with_base_point at vertex X
//   cgal same M W W2   are_freely_homotopic of two closed walks, each a file of its vertices
//
// The first two print `cycle n v0 v1 .. v0`, the last `same` or `different`.
#include <CGAL/Curves_on_surface_topology.h>
#include <CGAL/Path_on_surface.h>
#include <CGAL/Simple_cartesian.h>
#include <CGAL/Surface_mesh.h>
#include <CGAL/Surface_mesh/IO.h>
#include <fstream>
#include <iostream>
#include <string>
#include <vector>

using Mesh = CGAL::Surface_mesh<CGAL::Simple_cartesian<double>::Point_3>;
using Path = CGAL::Surface_mesh_topology::Path_on_surface<Mesh>;
using Topology = CGAL::Surface_mesh_topology::Curves_on_surface_topology<Mesh>;

struct Weights {
  using Weight_t = long long;
  const Mesh* mesh;
  std::vector<Weight_t> lengths;
  Weight_t operator()(Mesh::Halfedge_index h) const { return lengths[mesh->edge(h)]; }
};

static Weights weights_of(const Mesh& mesh, const std::string& file) {
  Weights weights{&mesh, std::vector<long long>(mesh.number_of_edges(), 1)};
  std::ifstream in(file);
  long long u, v, length;
  while (in >> u >> v >> length)
    weights.lengths[mesh.edge(mesh.halfedge(Mesh::Vertex_index(u), Mesh::Vertex_index(v)))] = length;
  return weights;
}

static void print(const Mesh& mesh, const Weights& weights, const Path& path) {
  long long total = 0;
  std::string walk;
  for (std::size_t i = 0; i < path.length(); ++i) {
    auto h = path.get_ith_flip(i) ? mesh.opposite(path[i]) : path[i];
    total += weights(h);
    if (i == 0) walk = " " + std::to_string(mesh.source(h).idx());
    walk += " " + std::to_string(mesh.target(h).idx());
  }
  std::cout << "cycle " << total << walk << "\n";
}

static Path walk_of(const Mesh& mesh, const std::string& file) {
  Path path(mesh);
  std::ifstream in(file);
  std::size_t u, v;
  in >> u;
  for (; in >> v; u = v) path.push_back(mesh.halfedge(Mesh::Vertex_index(u), Mesh::Vertex_index(v)));
  return path;
}

int main(int argc, char** argv) {
  if (argc < 4) return 2;
  const std::string job = argv[1], file = argv[3];
  Mesh mesh;
  std::ifstream in(argv[2]);
  if (!CGAL::IO::read_OFF(in, mesh)) return 3;
  Topology topology(mesh);
  if (job == "same") {
    bool is_same = topology.are_freely_homotopic(walk_of(mesh, file), walk_of(mesh, argv[4]));
    std::cout << (is_same ? "same\n" : "different\n");
    return 0;
  }
  Weights weights = weights_of(mesh, file);
  if (job == "cycle") {
    print(mesh, weights, file == "unit" ? topology.compute_edge_width()
                                        : topology.compute_shortest_non_contractible_cycle(weights));
  } else {
    auto from_base = mesh.opposite(mesh.halfedge(Mesh::Vertex_index(std::stoul(argv[4]))));
    print(mesh, weights, topology.compute_shortest_non_contractible_cycle_with_base_point(from_base, weights));
  }
}
