// Variants, tuples, optional values and functions of the C++ library.
#include <any>
#include <functional>
#include <memory>
#include <optional>
#include <string>
#include <tuple>
#include <variant>
#include <vector>

struct Leaf {
    long value;
};
struct Pair;
using Tree = std::variant<std::monostate, Leaf, std::shared_ptr<Pair>, std::string, std::tuple<int, double, char>>;
struct Pair {
    Tree left, right;
};

template <typename... F> struct Cases : F... {
    using F::operator()...;
};
template <typename... F> Cases(F...) -> Cases<F...>;

std::optional<long> sum(const Tree &tree)
{
    return std::visit(Cases{
        [](std::monostate) { return std::optional<long>(); },
        [](const Leaf &leaf) { return std::optional<long>(leaf.value); },
        [](const std::shared_ptr<Pair> &pair) {
            auto a = sum(pair->left), b = sum(pair->right);
            return a && b ? std::optional<long>(*a + *b) : a ? a : b;
        },
        [](const std::string &text) { return std::optional<long>(text.size()); },
        [](const std::tuple<int, double, char> &all) {
            return std::apply([](auto... n) { return std::optional<long>((long(n) + ...)); }, all);
        },
    }, tree);
}

template <std::size_t... I> long picked(const std::vector<std::any> &from, std::index_sequence<I...>)
{
    return ((I < from.size() && from[I].type() == typeid(int) ? std::any_cast<int>(from[I]) : 0) + ... + 0);
}

long everything(int n)
{
    std::vector<std::function<Tree(int)>> makers = {
        [](int k) { return Tree(Leaf{k}); },
        [](int k) { return Tree(std::string(k, 'a')); },
        [](int k) { return Tree(std::make_tuple(k, 1.5, 'c')); },
    };
    auto pair = std::make_shared<Pair>();
    pair->left = makers[n % 3](n);
    pair->right = makers[(n + 1) % 3](n + 1);
    std::vector<std::any> held = {n, 2.5, std::string("three"), pair};
    return sum(Tree(pair)).value_or(0) + picked(held, std::make_index_sequence<8>());
}
