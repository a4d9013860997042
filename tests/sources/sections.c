/* Functions in several sections, cold code, switch tables, labels. */
extern void report(int) __attribute__((cold));
extern int other(int);
#define IN(name) __attribute__((section(name)))

IN(".text.one") int one(int a) { return other(a) + 1; }
IN(".text.two") int two(int a) { int b = other(a); return b ? one(b) : 2; }

int table(int key, int a)
{
    switch (key) {
    case 0: return a + 7;
    case 1: { int x = other(a); return x * x; }
    case 2: return a << 3;
    case 3: { int y = other(a + 1); return y - a; }
    case 4: return a % 19;
    case 5: return one(a);
    case 6: { int z = two(a); return z / 3; }
    case 9: return -a;
    default: report(a); return 0;
    }
}

int branches(int n, int *p)
{
    int sum = 0;
    for (int i = 0; i < n; i++) {
        if (__builtin_expect(p[i] < 0, 0)) {
            int bad = p[i];
            report(bad);
            sum -= bad;
        } else if (__builtin_expect(p[i] == 12345, 0)) {
            int worse = sum + i;
            report(worse);
            goto out;
        }
        sum += table(p[i], i);
    }
out:
    return sum;
}

static void dispatch(int n)
{
    static void *const targets[] = { &&first, &&second, &&third };
    goto *targets[n % 3];
first:
    report(1);
second:
    report(2);
third:
    report(3);
}

int main(int argc, char **argv)
{
    dispatch(argc);
    return branches(argc, (int *)argv) + one(argc);
}
