/* Structures, unions, enumerations, bit fields, typedefs, arrays and function pointers. */
typedef unsigned char byte;
typedef int (*operation)(int, const void *);

enum colour { red, green = 5, blue = -3 };
enum large { small_one = 1, huge_one = 0x123456789aLL };

struct point { short x, y; };
union number { int i; float f; double d; byte raw[8]; };

struct flags {
    unsigned a : 3;
    signed b : 5;
    unsigned long long wide : 40;
    unsigned : 0;
    _Bool set : 1;
};

struct node {
    struct node *next, *previous;
    union number value;
    struct flags flags;
    enum colour colour;
    enum large large;
    operation act;
    struct { int inner; union { char c; long l; }; } anonymous;
    volatile const byte *restrict bytes;
    int grid[3][4];
    char tail[];
};

struct incomplete;
extern struct incomplete *somewhere;

static const struct point corners[] = { { 0, 0 }, { 1, -1 }, { 300, 4 } };
struct node *head;
_Alignas(64) byte buffer[128];
long double most;
_Complex double complex_number;

static int compare(int a, const void *b) { return a - *(const int *)b; }
static int apply(operation f, int a, const int *b) { return f(a, b); }

int walk(struct node *n, enum colour wanted)
{
    int found = 0;
    for (struct node *p = n; p; p = p->next) {
        int here = p->grid[1][2] + p->anonymous.inner;
        if (p->colour == wanted) {
            struct point q = corners[found % 3];
            found += q.x + here;
        }
        found += apply(p->act ? p->act : compare, found, &here);
    }
    return found;
}

int lengths(int n, int values[n], int square[n][n])
{
    int copy[n];
    int sum = 0;
    for (int i = 0; i < n; i++) {
        copy[i] = values[i] * square[i][i];
        sum += copy[i];
    }
    return sum + (int)sizeof copy + (somewhere != 0);
}
