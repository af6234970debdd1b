// fill MODE IN.off OUT.off: closes holes with CGAL, for peers/run. The surface is read by CGAL's own repairing reader. MODE says what is
// done with each boundary cycle:
//   holes    triangulate_hole on each, as CGAL's own example does
//   refined  triangulate_and_refine_hole on each
//   inner    triangulate_hole on each but the one with the greatest run in its piece; choosing so is this program's, not CGAL's
#include <CGAL/Exact_predicates_inexact_constructions_kernel.h>
#include <CGAL/Polygon_mesh_processing/IO/polygon_mesh_io.h>
#include <CGAL/Polygon_mesh_processing/border.h>
#include <CGAL/Polygon_mesh_processing/connected_components.h>
#include <CGAL/Polygon_mesh_processing/triangulate_hole.h>
#include <CGAL/Surface_mesh.h>
#include <cmath>
#include <iostream>
#include <iterator>
#include <map>
#include <string>
#include <vector>

namespace PMP = CGAL::Polygon_mesh_processing;
using Kernel = CGAL::Exact_predicates_inexact_constructions_kernel;
using Mesh = CGAL::Surface_mesh<Kernel::Point_3>;
using Edge = Mesh::Halfedge_index;
using Face = Mesh::Face_index;
using Vertex = Mesh::Vertex_index;

// The sum, over a cycle's edges, of the three absolute differences of their ends.
static double run_of(const Mesh &mesh, Edge cycle) {
    double run = 0;
    for (Edge edge : CGAL::halfedges_around_face(cycle, mesh)) {
        const auto difference = mesh.point(mesh.target(edge)) - mesh.point(mesh.source(edge));
        run += std::abs(difference.x()) + std::abs(difference.y()) + std::abs(difference.z());
    }
    return run;
}

// The cycles without the one of each piece that has the greatest run.
static std::vector<Edge> inner_of(Mesh &mesh, const std::vector<Edge> &cycles) {
    auto piece = mesh.add_property_map<Face, std::size_t>("f:piece").first;
    PMP::connected_components(mesh, piece);
    std::map<std::size_t, Edge> rims;
    for (Edge cycle : cycles) {
        const auto [place, fresh] = rims.emplace(piece[mesh.face(mesh.opposite(cycle))], cycle);
        if (!fresh && run_of(mesh, cycle) > run_of(mesh, place->second)) place->second = cycle;
    }
    std::vector<Edge> inner;
    for (Edge cycle : cycles)
        if (rims.at(piece[mesh.face(mesh.opposite(cycle))]) != cycle) inner.push_back(cycle);
    return inner;
}

int main(int count, char **arguments) {
    const std::string mode = count == 4 ? arguments[1] : "";
    if (mode != "holes" && mode != "refined" && mode != "inner") {
        std::cerr << "use: fill holes|refined|inner IN.off OUT.off\n";
        return 2;
    }
    Mesh mesh;
    if (!PMP::IO::read_polygon_mesh(arguments[2], mesh)) {
        std::cerr << "not read as a polygon mesh\n";
        return 1;
    }
    std::vector<Edge> cycles;
    PMP::extract_boundary_cycles(mesh, std::back_inserter(cycles));
    if (mode == "inner") cycles = inner_of(mesh, cycles);
    for (Edge cycle : cycles) {
        std::vector<Face> faces;
        std::vector<Vertex> vertices;
        if (mode == "refined") PMP::triangulate_and_refine_hole(mesh, cycle, std::back_inserter(faces), std::back_inserter(vertices));
        else PMP::triangulate_hole(mesh, cycle, std::back_inserter(faces));
    }
    // 17 digits keep every number as it is
    if (!CGAL::IO::write_OFF(arguments[3], mesh, CGAL::parameters::stream_precision(17))) return 1;
}
