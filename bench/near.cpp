// What GEOS and Boost take for questions of distance, over the maps of bench/near.py.
//
//     near nearest POINTS PLACES COUNT      Boost: the nearest points of each place, by an R-tree
//     near within LINES PLACES D            GEOS: the lines within D of each place, by an STRtree and prepared distances
//     near distance LINES                   GEOS: the distance of the first line from each of the others
//     near pairs AREAS D                    GEOS: the pairs of areas within D, both ways, by an STRtree: one question
//
// Files have a geometry a line: numbers with blanks between them, x and y in turn. Printed are nanoseconds of the processor for
// each question, and how many answers there were, or the sum of the distances.

#include <geos_c.h>

#include <algorithm>
#include <boost/geometry.hpp>
#include <boost/geometry/index/rtree.hpp>
#include <cmath>
#include <cstdarg>
#include <cstdio>
#include <cstdlib>
#include <ctime>
#include <fstream>
#include <iostream>
#include <iterator>
#include <sstream>
#include <string>
#include <utility>
#include <vector>

namespace bg = boost::geometry;
namespace bgi = boost::geometry::index;

using Line = std::vector<double>;
using Point = bg::model::point<double, 2, bg::cs::cartesian>;
using Numbered = std::pair<Point, unsigned>;

namespace {

double seconds() {
    timespec now;
    clock_gettime(CLOCK_PROCESS_CPUTIME_ID, &now);
    return now.tv_sec + now.tv_nsec * 1e-9;
}

std::vector<Line> read(const char* name) {
    std::ifstream file(name);
    if (!file) {
        std::cerr << name << " can't be read\n";
        std::exit(2);
    }
    std::vector<Line> lines;
    for (std::string text; std::getline(file, text);) {
        std::istringstream numbers(text);
        lines.emplace_back(std::istream_iterator<double>(numbers), std::istream_iterator<double>());
    }
    return lines;
}

void told(double took, std::size_t questions, double came) {
    std::printf("%.0f %.3f\n", took / questions * 1e9, came);
}

GEOSCoordSequence* points_of(const Line& line) {
    auto count = static_cast<unsigned>(line.size() / 2);
    GEOSCoordSequence* points = GEOSCoordSeq_create(count, 2);
    for (unsigned i = 0; i < count; i++) {
        GEOSCoordSeq_setXY(points, i, line[2 * i], line[2 * i + 1]);
    }
    return points;
}

GEOSGeometry* shape(const Line& line) {
    return line.size() == 2 ? GEOSGeom_createPoint(points_of(line)) : GEOSGeom_createLineString(points_of(line));
}

GEOSGeometry* area(const Line& line) {
    return GEOSGeom_createPolygon(GEOSGeom_createLinearRing(points_of(line)), nullptr, 0);
}

// A line whose box is that of another one, and what is within a distance of it.
GEOSGeometry* window_of(const Line& line, double distance) {
    Line box = {line[0], line[1], line[0], line[1]};
    for (std::size_t i = 0; i < line.size(); i++) {
        box[i % 2] = std::min(box[i % 2], line[i] - distance);
        box[2 + i % 2] = std::max(box[2 + i % 2], line[i] + distance);
    }
    return shape(box);
}

void nearest(const char* points, const char* places, unsigned count) {
    std::vector<Numbered> numbered;
    unsigned number = 0;
    for (const Line& line : read(points)) {
        numbered.emplace_back(Point(line[0], line[1]), ++number);
    }
    const bgi::rtree<Numbered, bgi::rstar<16>> tree(numbered);
    const std::vector<Line> asked = read(places);
    std::size_t came = 0;
    const double start = seconds();
    for (const Line& place : asked) {
        std::vector<Numbered> found;
        tree.query(bgi::nearest(Point(place[0], place[1]), count), std::back_inserter(found));
        came += found.size();
    }
    told(seconds() - start, asked.size(), static_cast<double>(came));
}

struct Prepared {
    const GEOSPreparedGeometry* shape;
};

struct Asked {
    const GEOSGeometry* place;
    double distance;
    std::size_t came;
};

void look(void* item, void* data) {
    const auto* line = static_cast<Prepared*>(item);
    auto* asked = static_cast<Asked*>(data);
    asked->came += GEOSPreparedDistanceWithin(line->shape, asked->place, asked->distance) == 1;
}

void within(const char* file, const char* places, double distance) {
    std::vector<Prepared> lines;
    std::vector<GEOSGeometry*> shapes;
    for (const Line& line : read(file)) {
        shapes.push_back(shape(line));
        lines.push_back({GEOSPrepare(shapes.back())});
    }
    GEOSSTRtree* tree = GEOSSTRtree_create(10);
    for (std::size_t i = 0; i < lines.size(); i++) {
        GEOSSTRtree_insert(tree, shapes[i], &lines[i]);
    }
    const std::vector<Line> asked = read(places);
    // What is made at the first question is not measured: the tree, and those of the lines.
    std::size_t came = 0;
    double start = 0;
    for (int run = 0; run < 2; run++) {
        came = 0;
        start = seconds();
        for (const Line& place : asked) {
            GEOSGeometry* window = window_of(place, distance);
            GEOSGeometry* point = shape(place);
            Asked question = {point, distance, 0};
            GEOSSTRtree_query(tree, window, look, &question);
            came += question.came;
            GEOSGeom_destroy(point);
            GEOSGeom_destroy(window);
        }
    }
    told(seconds() - start, asked.size(), static_cast<double>(came));
}

void distances(const char* file) {
    std::vector<GEOSGeometry*> shapes;
    for (const Line& line : read(file)) {
        shapes.push_back(shape(line));
    }
    const GEOSPreparedGeometry* first = GEOSPrepare(shapes[0]);
    double sum = 0;
    double start = 0;
    // The tree of the first line is made at the first question.
    for (int run = 0; run < 2; run++) {
        sum = 0;
        start = seconds();
        for (std::size_t i = 1; i < shapes.size(); i++) {
            double distance = 0;
            GEOSPreparedDistance(first, shapes[i], &distance);
            sum += distance;
        }
    }
    told(seconds() - start, shapes.size() - 1, sum);
}

void look_at_area(void* item, void* data) {
    auto* asked = static_cast<Asked*>(data);
    const auto* other = static_cast<const GEOSGeometry*>(item);
    asked->came += other != asked->place && GEOSDistanceWithin(other, asked->place, asked->distance) == 1;
}

void pairs(const char* file, double distance) {
    const std::vector<Line> lines = read(file);
    std::vector<GEOSGeometry*> areas;
    for (const Line& line : lines) {
        areas.push_back(area(line));
    }
    // It is made at the first question, which is not measured: the program and PostGIS have their indexes too.
    GEOSSTRtree* tree = GEOSSTRtree_create(10);
    for (GEOSGeometry* each : areas) {
        GEOSSTRtree_insert(tree, each, each);
    }
    Asked question = {nullptr, distance, 0};
    double start = 0;
    for (int run = 0; run < 2; run++) {
        question.came = 0;
        start = seconds();
        for (std::size_t i = 0; i < lines.size(); i++) {
            GEOSGeometry* window = window_of(lines[i], distance);
            question.place = areas[i];
            GEOSSTRtree_query(tree, window, look_at_area, &question);
            GEOSGeom_destroy(window);
        }
    }
    told(seconds() - start, 1, static_cast<double>(question.came));
}

void notice(const char*, ...) {}

}  // namespace

int main(int count, char** words) {
    initGEOS(notice, notice);
    const std::string asked = count > 1 ? words[1] : "";
    if (asked == "nearest" && count == 5) {
        nearest(words[2], words[3], static_cast<unsigned>(std::atoi(words[4])));
    } else if (asked == "within" && count == 5) {
        within(words[2], words[3], std::atof(words[4]));
    } else if (asked == "distance" && count == 3) {
        distances(words[2]);
    } else if (asked == "pairs" && count == 4) {
        pairs(words[2], std::atof(words[3]));
    } else {
        std::cerr << "usage: near nearest POINTS PLACES COUNT | within LINES PLACES D | distance LINES | pairs AREAS D\n";
        return 2;
    }
    return 0;
}
