/* Floating point and conversions between types. */
extern double sine(double);
extern void taken(float, double, long double);
typedef float vector __attribute__((vector_size(16)));

float mixed(float a, int b, unsigned long c)
{
    double x = a * b;
    unsigned u = (unsigned)(x + c);
    short s = (short)u;
    unsigned char small = (unsigned char)(s * 3);
    x += sine((double)small);
    long whole = (long)x;
    taken((float)whole, x, s);
    return (float)(x / whole);
}

double series(const double *values, int n)
{
    double sum = 0, square = 0;
    for (int i = 0; i < n; i++) {
        double v = values[i];
        sum += v;
        square += v * v;
        float narrow = (float)v;
        taken(narrow, v, narrow * v);
    }
    const double third = 1.0 / 3;
    return sum * third - square;
}

vector lanes(vector a, vector b) { vector c = a * b; return c + a; }

unsigned long long convert(signed char a, unsigned short b, int c)
{
    long long wide = (long long)a * b;
    unsigned long long mixed = (unsigned long long)wide + (unsigned)c;
    int narrow = (int)(mixed >> 7);
    char tiny = (char)narrow;
    taken(0, narrow, tiny);
    return mixed / (unsigned)(narrow | 1) + (unsigned char)tiny;
}

_Complex float turned(_Complex float z) { _Complex float w = z * z; return w + 1.0f; }
