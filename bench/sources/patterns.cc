// Regular expressions, streams and maps of the C++ library.
#include <algorithm>
#include <iostream>
#include <map>
#include <regex>
#include <sstream>
#include <string>
#include <unordered_map>
#include <vector>

static std::map<std::string, std::vector<int>> places;
std::unordered_map<int, std::string> names;

int count(const std::string &text, const std::string &pattern)
{
    std::regex compiled(pattern);
    return std::distance(std::sregex_iterator(text.begin(), text.end(), compiled), std::sregex_iterator());
}

void note(const std::string &word, int place)
{
    places[word].push_back(place);
    names.emplace(place, word);
    std::sort(places[word].begin(), places[word].end());
}

int main(int argc, char **argv)
{
    std::ostringstream out;
    for (int i = 1; i < argc; i++) {
        note(argv[i], i);
        out << argv[i] << ' ' << count(argv[i], "[a-z]+") << '\n';
    }
    std::cout << out.str();
    return places.empty();
}
