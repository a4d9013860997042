// Templates of expressions over vectors and matrices, without any header: all of it is inlined.
template <typename Left, typename Right, typename Step> struct Both {
    const Left &left;
    const Right &right;
    constexpr auto operator[](unsigned i) const { return Step::of(left[i], right[i]); }
};
struct Add {
    template <typename T> static constexpr T of(T a, T b) { return a + b; }
};
struct Times {
    template <typename T> static constexpr T of(T a, T b) { T product = a * b; return product; }
};

template <typename T, unsigned N> struct Vector {
    T held[N];
    constexpr const T &operator[](unsigned i) const { return held[i]; }
    template <typename From> Vector &operator=(const From &from)
    {
        for (unsigned i = 0; i < N; i++)
            held[i] = from[i];
        return *this;
    }
    constexpr T sum() const
    {
        T total = 0;
        for (unsigned i = 0; i < N; i++) {
            const T part = held[i];
            total += part;
        }
        return total;
    }
};

template <typename A, typename B> constexpr Both<A, B, Add> operator+(const A &a, const B &b) { return {a, b}; }
template <typename A, typename B> constexpr Both<A, B, Times> operator*(const A &a, const B &b) { return {a, b}; }

template <typename T, unsigned N> struct Matrix {
    Vector<T, N> rows[N];
    Vector<T, N> operator()(const Vector<T, N> &v) const
    {
        Vector<T, N> out;
        for (unsigned i = 0; i < N; i++) {
            Vector<T, N> products;
            products = rows[i] * v;
            out.held[i] = products.sum();
        }
        return out;
    }
};

template <typename T, unsigned N> T power(const Matrix<T, N> &matrix, Vector<T, N> start, int steps)
{
    for (int step = 0; step < steps; step++) {
        Vector<T, N> next = matrix(start), again;
        again = next + start * next;
        start = again;
    }
    return start.sum();
}

template <unsigned N> struct Sizes {
    template <typename T> static T all(const T *from, int steps)
    {
        Matrix<T, N> matrix;
        Vector<T, N> start;
        for (unsigned i = 0; i < N; i++) {
            start.held[i] = from[i];
            for (unsigned k = 0; k < N; k++)
                matrix.rows[i].held[k] = from[i + k];
        }
        return power(matrix, start, steps) + Sizes<N - 1>::all(from, steps);
    }
};
template <> struct Sizes<1> {
    template <typename T> static T all(const T *from, int) { return *from; }
};

int of_ints(const int *from, int steps) { return Sizes<6>::all(from, steps); }
double of_doubles(const double *from, int steps) { return Sizes<6>::all(from, steps); }
unsigned long of_longs(const unsigned long *from, int steps) { return Sizes<4>::all(from, steps); }
