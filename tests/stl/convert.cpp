// convert text|binary IN.off OUT.stl: writes the triangles of an OFF file as STL with CGAL, for tests/stl/make-files.
#include <CGAL/IO/OFF.h>
#include <CGAL/IO/STL.h>
#include <CGAL/Simple_cartesian.h>
#include <string>
#include <vector>

int main(int count, char **arguments) {
    if (count != 4) return 2;
    std::vector<CGAL::Simple_cartesian<double>::Point_3> points;
    std::vector<std::vector<std::size_t>> faces;
    if (!CGAL::IO::read_OFF(arguments[2], points, faces)) return 1;
    const bool binary = arguments[1] == std::string("binary");
    // 17 digits keep every number of a text as it is
    return CGAL::IO::write_STL(arguments[3], points, faces, CGAL::parameters::use_binary_mode(binary).stream_precision(17)) ? 0 : 1;
}
