// Many instances of containers and of functions over them.
#include <deque>
#include <functional>
#include <list>
#include <map>
#include <memory>
#include <numeric>
#include <set>
#include <string>
#include <tuple>
#include <vector>

template <typename Key, int N> struct Store {
    std::map<Key, std::vector<Key>> by_key;
    std::set<std::pair<Key, int>> seen;
    std::deque<std::unique_ptr<Key>> queue;
    void add(Key key)
    {
        by_key[key].push_back(key);
        seen.insert({key, N});
        queue.push_back(std::make_unique<Key>(key));
    }
    long total() const
    {
        return std::accumulate(seen.begin(), seen.end(), 0L, [](long sum, const std::pair<Key, int> &p) { return sum + p.second; });
    }
};

template <int N> long fill(int count)
{
    Store<int, N> numbers;
    Store<long, N> longs;
    std::list<std::tuple<int, long, double>> all;
    for (int i = 0; i < count; i++) {
        numbers.add(i);
        longs.add(i);
        all.emplace_back(i, i, i);
    }
    return numbers.total() + longs.total() + (long)all.size();
}

template <int N> struct Sum {
    static long of(int count) { return fill<N>(count) + Sum<N - 1>::of(count); }
};
template <> struct Sum<0> {
    static long of(int) { return 0; }
};

long everything(int count)
{
    std::function<long(int)> sum = Sum<24>::of;
    return sum(count);
}
