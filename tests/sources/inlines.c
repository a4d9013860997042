/* Inlined and static functions, nested scopes, variables that are optimised out, entry values. */
extern int outside(int, int);
extern void consume(const void *, long);

static inline int twice(int x) { int y = x * 2; return y; }
static inline __attribute__((always_inline)) int four_times(int x)
{
    int a = twice(x);
    int b = twice(a);
    return b;
}

static __attribute__((noinline)) int partly(int a, int b, int unused)
{
    int r = four_times(a) + outside(a, b);
    return r ^ four_times(r + b);
}

static __attribute__((noinline, noclone)) long through(long first, long second)
{
    long kept = first + second;
    consume(&kept, second);
    long gone = first * 3;
    return kept + gone;
}

int middle(int a, int b)
{
    int total = 0;
    {
        int a = b + 1;
        total += partly(a, b, 1);
        {
            int b = total * a;
            static int count;
            count += b;
            total += partly(b, count, 2);
        }
    }
    if (a > 3) {
        int inner = a * total;
        total = outside(inner, total);
    } else {
        const int inner = 17;
        total += inner + outside(total, inner);
    }
    return total + (int)through(a, b);
}

int tail(int a, int b, int c)
{
    int d = a + b, e = d - c;
    consume((void *)0, d);
    if (e < 0)
        return outside(e, c);
    return middle(d, e);
}

int recursive(int n)
{
    return n < 2 ? n : recursive(n - 1) + recursive(n - 2);
}

void escape(int *p, int n)
{
    struct pair { int *at; int value; } pair = { p, n };
    for (int i = 0; i < n; i++) {
        pair.value += i;
        pair.at++;
        consume(pair.at, pair.value);
    }
}
