// Classes with virtual methods and inheritance, members of all kinds, friends, operators.
namespace shapes {

class Base {
public:
    Base() : id(next++) {}
    virtual ~Base() {}
    virtual double area() const = 0;
    virtual int scale(int by) { return id * by; }
    static int next;
    friend int peek(const Base &);

protected:
    int id;
    mutable bool seen : 1;
};

struct Named {
    const char *name = "none";
    explicit Named(const char *n) : name(n) {}
    virtual const char *title() const { return name; }
};

class Circle final : public Base, private virtual Named {
public:
    explicit Circle(double r) : Named("circle"), radius(r) {}
    double area() const override { return radius * radius * 3.0; }
    int scale(int by) override { radius *= by; return Base::scale(by); }
    Circle(const Circle &) = delete;
    Circle &operator=(const Circle &) = delete;
    bool operator<(const Circle &o) const { return radius < o.radius; }
    operator double() const { return radius; }

private:
    double radius;
};

int Base::next = 3;
int peek(const Base &b) { return b.id; }

enum class Kind : unsigned char { round, flat };
Kind kind(const Base *b) { return b->area() > 1 ? Kind::round : Kind::flat; }

}  // namespace shapes

using shapes::Circle;
namespace alias = shapes;

double total(alias::Base *const *all, int n)
{
    double sum = 0;
    for (int i = 0; i < n; i++) {
        alias::Base &b = *all[i];
        sum += b.area() + b.scale(i);
    }
    return sum;
}

double use(double r)
{
    Circle a(r), b(2 * r);
    alias::Base *both[] = {&a, &b};
    double (alias::Base::*method)() const = &alias::Base::area;
    return total(both, 2) + (a < b ? double(a) : (b.*method)());
}
