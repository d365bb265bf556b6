// The union of two layers by Clipper, over whole multiples of 2^-20: ring i is corners[starts[i]] to before corners[starts[i + 1]].
#include <cmath>
#include <cstddef>
#include <cstdint>
#include <polyclipping/clipper.hpp>

namespace cl = ClipperLib;

static const double UNIT = 1.0 / (1 << 20);

static double area_of(const cl::PolyNode &node)
{
    double area = 0;
    for (const cl::PolyNode *child : node.Childs)
        area += (child->IsHole() ? -1 : 1) * std::abs(cl::Area(child->Contour)) + area_of(*child);
    return area;
}

// From the numbers to the library's own answer, which is freed: its area, or a negative number where it gives none.
extern "C" double clipper_union(const double (*corners)[2], const uint32_t *starts, const uint8_t *subject, size_t rings)
{
    cl::Clipper clipper;
    for (size_t i = 0; i < rings; i++) {
        cl::Path path;
        path.reserve(starts[i + 1] - starts[i]);
        for (uint32_t k = starts[i]; k < starts[i + 1]; k++)
            path.push_back(cl::IntPoint(std::llround(corners[k][0] / UNIT), std::llround(corners[k][1] / UNIT)));
        clipper.AddPath(path, subject[i] ? cl::ptSubject : cl::ptClip, true);
    }
    cl::PolyTree tree;
    if (!clipper.Execute(cl::ctUnion, tree, cl::pftEvenOdd, cl::pftEvenOdd))
        return -1;
    return area_of(tree) * UNIT * UNIT;
}
