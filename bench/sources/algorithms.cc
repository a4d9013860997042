// Algorithms of the C++ library over ranges of several types, each with functions of its own.
#include <algorithm>
#include <array>
#include <deque>
#include <iterator>
#include <list>
#include <numeric>
#include <string>
#include <utility>
#include <vector>

template <typename T> struct Point {
    T x, y;
    bool operator<(const Point &other) const { return x < other.x || (x == other.x && y < other.y); }
    bool operator==(const Point &other) const { return x == other.x && y == other.y; }
};

template <typename Range> long ordered(Range &range)
{
    std::sort(range.begin(), range.end());
    range.erase(std::unique(range.begin(), range.end()), range.end());
    auto middle = range.begin() + range.size() / 2;
    std::rotate(range.begin(), middle, range.end());
    std::stable_sort(range.begin(), range.end(), [](const auto &a, const auto &b) { return b < a; });
    std::make_heap(range.begin(), range.end());
    std::sort_heap(range.begin(), range.end());
    return std::distance(std::lower_bound(range.begin(), range.end(), *middle), range.end());
}

template <typename T> long over(int count)
{
    std::vector<T> numbers(count);
    std::iota(numbers.begin(), numbers.end(), T(1));
    std::deque<Point<T>> points;
    std::transform(numbers.begin(), numbers.end(), std::back_inserter(points), [](T n) { return Point<T>{n, T(n * 3)}; });
    std::array<T, 16> last{};
    std::partial_sum(numbers.begin(), numbers.begin() + std::min<long>(16, numbers.size()), last.begin());
    std::list<T> kept(last.begin(), last.end());
    kept.remove_if([](T n) { return n > T(40); });
    auto most = std::max_element(points.begin(), points.end());
    return ordered(numbers) + ordered(points) + (long)kept.size() + (long)most->x + std::count_if(last.begin(), last.end(), [](T n) { return n > T(2); });
}

long everything(int count)
{
    std::vector<std::string> words(count, "word");
    return over<int>(count) + over<long>(count) + over<double>(count) + over<unsigned char>(count) + ordered(words);
}
