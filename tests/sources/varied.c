/* Variadic functions, thread-local and weak variables, old declarations, volatile, wide characters, attributes. */
#include <stdarg.h>
#include <stddef.h>
#include <stdint.h>

_Thread_local int counter;
static _Thread_local struct { long a; char b[3]; } state = { 1, "x" };
extern _Thread_local unsigned elsewhere;
int weak_one __attribute__((weak));
volatile uint64_t clock_word;
const wchar_t wide[] = L"wide";
static int8_t table[256];
uint16_t *const fixed = (uint16_t *)0x1000;

int sum(int count, ...)
{
    va_list args;
    va_start(args, count);
    int total = 0;
    while (count-- > 0) {
        switch (count & 3) {
        case 0: total += va_arg(args, int); break;
        case 1: total += (int)va_arg(args, double); break;
        case 2: total += (int)va_arg(args, long long); break;
        default: total += *va_arg(args, int *);
        }
    }
    va_end(args);
    counter++;
    return total;
}

long next(void)
{
    state.a += counter + (long)elsewhere;
    state.b[counter % 3] ^= (char)state.a;
    return state.a;
}

int old(a, b) int a; char b; { return a + b; }

_Noreturn void stop(int why) { weak_one = why; for (;;) clock_word++; }

ptrdiff_t distance(const char *a, const char *b) { return b - a; }

int fill(uint8_t *out, size_t n)
{
    size_t i = 0;
    do {
        int8_t t = table[i & 255];
        out[i] = (uint8_t)(t >= 0 ? t : -t);
        table[i & 255] = (int8_t)i;
    } while (++i < n);
    return sum(3, (int)i, 2.5, (long long)n) + __builtin_popcountll(n);
}

