// A plain program that performs the scripts of workloads.py: rows of edges, kept once, and changed in place.
//
//     plain [FONT] < SCRIPT
//
// It prints the totals that mfpic prints, and writes the characters that are shipped to the file FONT. It serves to compare times
// (README.md says what it leaves out). It expects well-formed lines, and checks nothing but the weight of a contour.

#include <algorithm>
#include <charconv>
#include <cstddef>
#include <cstdint>
#include <cstdlib>
#include <fstream>
#include <iostream>
#include <iterator>
#include <map>
#include <string>
#include <string_view>
#include <utility>
#include <vector>

struct Point {
    int x, y;
};

// From this column on, the weights of the row are greater by this weight.
struct Edge {
    int x, weight;
};

// The edges of a row, of which the first `sorted` are sorted, with at most one in a column and none of weight 0.
struct Row {
    std::vector<Edge> edges;
    std::size_t sorted = 0;

    void push(Edge edge) {
        if (sorted == edges.size() && (edges.empty() || edges.back().x < edge.x)) {
            ++sorted;
        }
        edges.push_back(edge);
    }

    const std::vector<Edge> &tidy() {
        if (sorted < edges.size()) {
            const auto by_column = [](const Edge &a, const Edge &b) { return a.x < b.x; };
            const auto middle = edges.begin() + sorted;
            std::sort(middle, edges.end(), by_column);
            std::inplace_merge(edges.begin(), middle, edges.end(), by_column);
            merge_columns();
        }
        return edges;
    }

    void merge_columns() {
        std::size_t kept = 0;
        for (std::size_t i = 0; i < edges.size();) {
            Edge sum{edges[i].x, 0};
            for (; i < edges.size() && edges[i].x == sum.x; ++i) {
                sum.weight += edges[i].weight;
            }
            if (sum.weight != 0) {
                edges[kept++] = sum;
            }
        }
        edges.resize(kept);
        sorted = kept;
    }
};

// A range of weights and the weight that a cull gives.
struct Cull {
    bool keeps;
    int from, to, weight;

    int of(int old) const { return (from <= old && old <= to) == keeps ? weight : 0; }
};

// A picture: its rows from `low` upwards, whose edges are `right` columns further to the right than they say.
class Picture {
    std::vector<Row> rows;
    int low = 0, right = 0;

    // Makes room for the rows from `from` up to `to`, and for as many again as there are.
    void reach(int from, int to) {
        if (from == to) {
            return;
        }
        const int high = low + static_cast<int>(rows.size());
        if (rows.empty()) {
            low = from;
            rows.resize(to - from);
        } else if (from < low || to > high) {
            const int spare = static_cast<int>(rows.size());
            const int new_low = from < low ? from - spare : low, new_high = to > high ? to + spare : high;
            std::vector<Row> wider(new_high - new_low);
            std::move(rows.begin(), rows.end(), wider.begin() + (low - new_low));
            rows.swap(wider);
            low = new_low;
        }
    }

    Row &row(int y) { return rows[y - low]; }

public:
    void clear() { *this = Picture(); }

    // Each vertical segment changes the weights of its rows from its column on.
    void fill(const std::vector<Point> &path, int weight) {
        const auto [least, greatest] = std::minmax_element(path.begin(), path.end(), [](Point a, Point b) { return a.y < b.y; });
        reach(least->y, greatest->y);
        for (std::size_t i = 0; i < path.size(); ++i) {
            const Point from = path[i], to = path[i + 1 < path.size() ? i + 1 : 0];
            const Edge edge{from.x - right, to.y > from.y ? -weight : weight};
            for (int y = std::min(from.y, to.y); y < std::max(from.y, to.y); ++y) {
                row(y).push(edge);
            }
        }
    }

    void add(const Picture &other, int sign) {
        if (&other == this) {
            multiply(1 + sign);
            return;
        }
        const auto is_drawn = [](const Row &row) { return !row.edges.empty(); };
        const auto first = std::find_if(other.rows.begin(), other.rows.end(), is_drawn);
        const auto last = std::find_if(other.rows.rbegin(), std::make_reverse_iterator(first), is_drawn).base();
        int y = other.low + static_cast<int>(first - other.rows.begin());
        reach(y, y + static_cast<int>(last - first));
        for (auto from = first; from != last; ++from, ++y) {
            Row &to = row(y);
            for (const Edge &edge : from->edges) {
                to.push({edge.x + other.right - right, sign * edge.weight});
            }
        }
    }

    void multiply(int factor) {
        if (factor == 0) {
            clear();
        }
        for (Row &row : rows) {
            for (Edge &edge : row.edges) {
                edge.weight *= factor;
            }
        }
    }

    void cull(const Cull &cull) {
        for (Row &row : rows) {
            row.tidy();
            std::size_t kept = 0;
            int old = 0, now = 0;
            for (const Edge edge : row.edges) {
                old += edge.weight;
                const int next = cull.of(old);
                if (next != now) {
                    row.edges[kept++] = {edge.x, next - now};
                    now = next;
                }
            }
            row.edges.resize(kept);
            row.sorted = kept;
        }
    }

    void shift(int x, int y) {
        right += x;
        low += y;
    }

    void scale_columns(int factor) {
        for (Row &row : rows) {
            row.tidy();
            for (Edge &edge : row.edges) {
                edge = {(edge.x + right) * factor, factor < 0 ? -edge.weight : edge.weight};
            }
            if (factor < 0) {
                std::reverse(row.edges.begin(), row.edges.end());
            }
        }
        right = 0;
    }

    void scale_rows(int factor) {
        const int count = static_cast<int>(rows.size()), times = std::abs(factor);
        std::vector<Row> scaled;
        scaled.reserve(static_cast<std::size_t>(count) * times);
        for (int i = 0; i < count; ++i) {
            Row &row = rows[factor < 0 ? count - 1 - i : i];
            scaled.insert(scaled.end(), times - 1, row);
            scaled.push_back(std::move(row));
        }
        rows.swap(scaled);
        low = factor < 0 ? (low + count) * factor : low * factor;
    }

    // Turns by 90 degrees. Where a row and the one above differ in a column, the turned picture has an edge.
    void turn() {
        Picture turned;
        const Row blank;
        Row difference;
        for (int i = static_cast<int>(rows.size()) - 1; i >= -1; --i) {
            const Row &below = i >= 0 ? rows[i] : blank;
            const Row &above = i + 1 < static_cast<int>(rows.size()) ? rows[i + 1] : blank;
            difference = below;
            for (const Edge &edge : above.edges) {
                difference.edges.push_back({edge.x, -edge.weight});
            }
            turned.add_column(difference.tidy(), right, -(low + i + 1));
        }
        *this = std::move(turned);
    }

    // Adds an edge in this column to each row that is a column where `edges` have a weight.
    void add_column(const std::vector<Edge> &edges, int offset, int column) {
        if (edges.empty()) {
            return;
        }
        reach(edges.front().x + offset, edges.back().x + offset);
        int weight = 0;
        for (std::size_t i = 0; i + 1 < edges.size(); ++i) {
            weight += edges[i].weight;
            if (weight != 0) {
                for (int y = edges[i].x; y < edges[i + 1].x; ++y) {
                    row(y + offset).push({column, weight});
                }
            }
        }
    }

    std::int64_t total() const {
        std::int64_t sum = 0;
        for (const Row &row : rows) {
            for (const Edge &edge : row.edges) {
                sum -= static_cast<std::int64_t>(edge.x) * edge.weight;
            }
        }
        return sum;
    }

    // For each row, from the top down, the columns at which it turns black and white.
    std::vector<std::pair<int, std::vector<int>>> borders() {
        std::vector<std::pair<int, std::vector<int>>> found;
        for (int i = static_cast<int>(rows.size()) - 1; i >= 0; --i) {
            std::vector<int> columns;
            int weight = 0;
            for (const Edge &edge : rows[i].tidy()) {
                const bool was_black = weight > 0;
                weight += edge.weight;
                if ((weight > 0) != was_black) {
                    columns.push_back(edge.x + right);
                }
            }
            if (!columns.empty()) {
                found.emplace_back(low + i, std::move(columns));
            }
        }
        return found;
    }
};

// A GF file (The METAFONTbook, Appendix G), without a comment.
class Font {
    struct Box {
        int least_m, greatest_m, least_n, greatest_n;
    };
    struct Locator {
        int dx, width, place;
    };

    std::string bytes = std::string("\xF7\x83\x00", 3);
    std::map<int, Locator> locators;
    Box all{0, 0, 0, 0};

    void put(std::uint32_t number, int count) {
        while (count-- > 0) {
            bytes.push_back(static_cast<char>(number >> 8 * count));
        }
    }

    // A command with one number, whose first byte depends on how many bytes the number takes.
    void put_sized(int opcode, int number) {
        const int count = number < 256 ? 1 : 2;
        put(opcode + count - 1, 1);
        put(number, count);
    }

    void paint(int length) { length < 64 ? put(length, 1) : put_sized(64, length); }

    void begin(int code, const Box &box) {
        const int width = box.greatest_m - box.least_m, height = box.greatest_n - box.least_n;
        const auto is_byte = [](int number) { return 0 <= number && number < 256; };
        const auto found = locators.find(code);
        if (found == locators.end() && is_byte(width) && is_byte(box.greatest_m) && is_byte(height) && is_byte(box.greatest_n)) {
            for (const int number : {68, code, width, box.greatest_m, height, box.greatest_n}) {
                put(number, 1);
            }
            return;
        }
        put(67, 1);
        put(code, 4);
        put(found == locators.end() ? -1 : found->second.place, 4);
        for (const int number : {box.least_m, box.greatest_m, box.least_n, box.greatest_n}) {
            put(number, 4);
        }
    }

    static Box box_of(const std::vector<std::pair<int, std::vector<int>>> &rows) {
        if (rows.empty()) {
            return {0, 0, 0, 0};
        }
        Box box{rows[0].second.front(), rows[0].second.back(), rows.back().first, rows[0].first};
        for (const auto &[y, columns] : rows) {
            box.least_m = std::min(box.least_m, columns.front());
            box.greatest_m = std::max(box.greatest_m, columns.back());
        }
        return box;
    }

    void include(const Box &box) {
        all = locators.empty() ? box
                               : Box{std::min(all.least_m, box.least_m), std::max(all.greatest_m, box.greatest_m),
                                     std::min(all.least_n, box.least_n), std::max(all.greatest_n, box.greatest_n)};
    }

    void begin_row(int offset, int passed, bool is_first) {
        if (!is_first && passed == 0 && offset <= 164) {
            put(74 + offset, 1);
            return;
        }
        if (!is_first) {
            passed == 0 ? put(70, 1) : put_sized(71, passed);
        }
        paint(offset);
    }

public:
    void ship(int code, int dx, int width, Picture &picture) {
        const auto rows = picture.borders();
        const Box box = box_of(rows);
        const int place = static_cast<int>(bytes.size());
        include(box);
        begin(code, box);
        int above = 0;
        for (const auto &[y, columns] : rows) {
            begin_row(columns.front() - box.least_m, above - y - 1, &columns == &rows[0].second);
            for (std::size_t i = 1; i < columns.size(); ++i) {
                paint(columns[i] - columns[i - 1]);
            }
            above = y;
        }
        put(69, 1);
        locators[code] = {dx, width, place};
    }

    void write(const char *path) {
        const int post = static_cast<int>(bytes.size());
        put(248, 1);
        for (const int number : {post, 0, 0, 0, 0, all.least_m, all.greatest_m, all.least_n, all.greatest_n}) {
            put(number, 4);
        }
        for (const auto &[code, locator] : locators) {
            const bool is_short = locator.dx % 65536 == 0 && 0 <= locator.dx && locator.dx < 256 * 65536;
            put(is_short ? 246 : 245, 1);
            put(code, 1);
            is_short ? put(locator.dx / 65536, 1) : (put(locator.dx, 4), put(0, 4));
            put(locator.width, 4);
            put(locator.place, 4);
        }
        put(249, 1);
        put(post, 4);
        put(131, 1);
        bytes.append(4 + (4 - bytes.size() % 4) % 4, '\xDF');
        std::ofstream(path, std::ios::binary).write(bytes.data(), static_cast<std::streamsize>(bytes.size()));
    }
};

// Reads the tokens of a line.
class Reader {
    const char *at, *end;

    void skip_blanks() {
        while (at < end && (*at == ' ' || *at == '\t')) {
            ++at;
        }
    }

public:
    explicit Reader(const std::string &line) : at(line.data()), end(line.data() + std::min(line.size(), line.find('%'))) {}

    std::string_view word() {
        skip_blanks();
        const char *const start = at;
        while (at < end && (('a' <= *at && *at <= 'z') || ('A' <= *at && *at <= 'Z'))) {
            ++at;
        }
        return {start, static_cast<std::size_t>(at - start)};
    }

    bool accept(std::string_view mark) {
        skip_blanks();
        if (std::string_view(at, static_cast<std::size_t>(end - at)).substr(0, mark.size()) != mark) {
            return false;
        }
        at += mark.size();
        return true;
    }

    int number() {
        const int sign = accept("-") ? -1 : 1;
        skip_blanks();
        int value = 0;
        at = std::from_chars(at, end, value).ptr;
        return sign * value;
    }

    Point pair() {
        accept("(");
        const int x = number();
        accept(",");
        const int y = number();
        accept(")");
        return {x, y};
    }

    int weight() { return accept("withweight") ? number() : 1; }
};

// The number of left turns minus the number of right turns has the sign of the turning number.
int turning_sign(const std::vector<Point> &path) {
    int turns = 0;
    const std::size_t count = path.size();
    Point before = path[count - 1], here = path[0];
    for (std::size_t i = 1; i <= count; ++i) {
        const Point next = path[i < count ? i : 0];
        const int product = (here.x - before.x) * (next.y - here.y) - (here.y - before.y) * (next.x - here.x);
        turns += (product > 0) - (product < 0);
        before = here;
        here = next;
    }
    return (turns > 0) - (turns < 0);
}

// The pictures, and what the commands do to them.
class Session {
    std::map<std::string, Picture, std::less<>> pictures;
    std::vector<Point> path;
    Font font;
    bool checks_turning = true;

    Picture &picture(std::string_view name) {
        const auto found = pictures.find(name);
        return found != pictures.end() ? found->second : pictures[std::string(name)];
    }

    void contour(Picture &target, Reader &line) {
        path.clear();
        do {
            path.push_back(line.pair());
        } while (line.accept("--") && !line.accept("cycle"));
        const int weight = line.weight();
        if (weight == 0 || std::abs(weight) > 3) {
            std::cout << "refused BadWeight\n";
            return;
        }
        target.fill(path, checks_turning ? weight * turning_sign(path) : weight);
    }

    void add(Reader &line) {
        Picture &target = picture(line.word());
        if (line.word() == "contour") {
            contour(target, line);
            return;
        }
        const int sign = line.accept("-") ? -1 : 1;
        target.add(picture(line.word()), sign);
    }

    void cull(Reader &line) {
        Picture &target = picture(line.word());
        const bool keeps = line.word() == "keeping";
        const Point range = line.pair();
        target.cull({keeps, range.x, range.y, line.weight()});
    }

    void assign(Picture &target, Reader &line) {
        if (line.word() == "nullpicture") {
            target.clear();
            return;
        }
        const std::string_view change = line.word();
        if (change == "shifted") {
            const Point by = line.pair();
            target.shift(by.x, by.y);
        } else if (change == "rotated") {
            for (int quarters = line.number() / 90; quarters > 0; --quarters) {
                target.turn();
            }
        } else {
            const int factor = line.number();
            if (change != "yscaled") {
                target.scale_columns(factor);
            }
            if (change != "xscaled") {
                target.scale_rows(factor);
            }
        }
    }

    void show(Reader &line) {
        line.word();
        std::cout << "totalweight " << picture(line.word()).total() << '\n';
    }

    void ship(Reader &line) {
        Picture &shipped = picture(line.word());
        line.word();
        const int code = line.number();
        line.word();
        const int dx = line.number();
        line.word();
        font.ship(code, dx, line.number(), shipped);
        std::cout << '[' << code << "]\n";
    }

public:
    void perform(const std::string &text) {
        Reader line(text);
        const std::string_view first = line.word();
        if (first.empty()) {
            return;
        }
        if (first == "addto") {
            add(line);
        } else if (first == "cull") {
            cull(line);
        } else if (first == "show") {
            show(line);
        } else if (first == "shipout") {
            ship(line);
        } else if (first == "publish") {
            std::cout << "published\n";
        } else if (line.accept(":=") && first == "turningcheck") {
            checks_turning = line.number() > 0;
        } else {
            assign(picture(first), line);
        }
    }

    void write_font(const char *path) { font.write(path); }
};

int main(int count, char **words) {
    std::ios::sync_with_stdio(false);
    std::cin.tie(nullptr);
    Session session;
    std::string line;
    while (std::getline(std::cin, line)) {
        session.perform(line);
    }
    if (count > 1) {
        session.write_font(words[1]);
    }
}
