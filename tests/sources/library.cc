// A unit with much of the standard library in it.
#include <vector>

int sorted(std::vector<int> &values, int wanted)
{
    int before = 0;
    for (int v : values)
        if (v < wanted) before++;
    values.push_back(wanted);
    return before;
}
