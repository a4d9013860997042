// Templates, lambdas, references, exceptions, namespaces.
namespace {
template <typename T, int N> struct Array {
    T items[N];
    template <typename F> T fold(T start, F &&f) const
    {
        T sum = start;
        for (const T &x : items) sum = f(sum, x);
        return sum;
    }
    static constexpr int count = N;
};

template <typename... Rest> struct Pack;
template <> struct Pack<> { static int sum() { return 0; } };
template <typename First, typename... Rest> struct Pack<First, Rest...> : Pack<Rest...> {
    static int sum() { return int(sizeof(First)) + Pack<Rest...>::sum(); }
};

template <template <typename, int> class C, typename T> T only(C<T, 1> &c) { return c.items[0]; }
}  // namespace

inline namespace version {
namespace deep { int value = 4; }
}

struct Failure { int why; };

template <typename T> T checked(T a, T b)
{
    if (b == T()) throw Failure{int(a)};
    return a / b;
}

int run(int n, const int &limit)
{
    Array<int, 4> four{{1, 2, n, limit}};
    Array<double, 1> one{{0.5}};
    int captured = n + deep::value;
    auto add = [&, by = 2](int a, int b) mutable { by += a; return a + b * by + captured; };
    int sum = four.fold(0, add);
    try {
        sum += checked(sum, n) + int(checked(one.items[0], double(limit)));
    } catch (const Failure &f) {
        int why = f.why;
        sum -= why;
    } catch (...) {
        return -1;
    }
    auto generic = [](auto a, auto &&b) { return a + b; };
    return generic(sum, 1) + Pack<char, short, double>::sum() + int(only(one)) + four.count;
}

int (*plain)(int) = [](int a) { return a * 3; };
decltype(nullptr) nothing = nullptr;
int &&moved(int &&r) { return static_cast<int &&>(r); }
thread_local int per_thread = run(1, 2);
char16_t sixteen = u'a';
