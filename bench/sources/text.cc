// Strings, views and streams of the C++ library.
#include <charconv>
#include <fstream>
#include <iomanip>
#include <locale>
#include <sstream>
#include <string>
#include <string_view>

template <typename Char> std::basic_string<Char> joined(std::basic_string_view<Char> a, std::basic_string_view<Char> b)
{
    std::basic_string<Char> out(a);
    out.append(b.substr(b.find_first_not_of(Char(' ')) == b.npos ? 0 : 1));
    out.insert(out.begin(), Char('['));
    out.replace(out.size() - 1, 1, 2, Char(']'));
    return out;
}

template <typename Char, typename T> std::basic_string<Char> shown(T n)
{
    std::basic_ostringstream<Char> out;
    out << std::setw(8) << std::hex << n << std::setprecision(3) << 2.5;
    return joined<Char>(out.str(), out.str());
}

int number(std::string_view text)
{
    int n = 0;
    std::from_chars(text.data(), text.data() + text.size(), n, 16);
    return n;
}

bool copied(const char *from, const char *to)
{
    std::ifstream in(from);
    std::ofstream out(to);
    for (std::string line; std::getline(in, line);)
        out << std::quoted(line) << number(line) << '\n';
    return out.good();
}

std::size_t everything(int n)
{
    return shown<char>(n).size() + shown<wchar_t>(n).size() + shown<char>(2L * n).size() + shown<wchar_t>(0.5 * n).size();
}
