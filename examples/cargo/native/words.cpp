#include <iterator>
#include <sstream>
#include <string>
#include <vector>
extern "C" int count_words(const char *text)
{
    std::istringstream in(text);
    using It = std::istream_iterator<std::string>;
    return static_cast<int>(std::vector<std::string>(It(in), It()).size());
}
