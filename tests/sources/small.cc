// A small class with an inline constructor, called in two functions.
struct Counter {
    int n;
    explicit Counter(int start) : n(start) {}
    int step() { return n++; }
};
extern int use(Counter &);
int first(int a) { Counter c(a); return use(c) + c.step(); }
int second(int a, int b) { Counter c(a * b); while (c.step() < b) use(c); return c.n; }
