/* More than 256 names, constants of all widths, more than 127 addresses. */
#define TEN(x) E(x##0) E(x##1) E(x##2) E(x##3) E(x##4) E(x##5) E(x##6) E(x##7) E(x##8) E(x##9)
#define HUNDRED(x) TEN(x##0) TEN(x##1) TEN(x##2) TEN(x##3) TEN(x##4) TEN(x##5) TEN(x##6) TEN(x##7) TEN(x##8) TEN(x##9)

#define E(x) number_##x = 1##x * 37,
enum numbers { HUNDRED(1) HUNDRED(2) last = -1 };
#undef E
#define E(x) int variable_##x;
HUNDRED(3)
TEN(4)
TEN(5)
TEN(6)
#undef E

enum numbers chosen(int i)
{
    static int seen;
    seen += variable_300 + variable_69;
    return i > seen ? number_100 : last;
}
