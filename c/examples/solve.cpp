// The line on standard input, in C++: solve.cpp WORD [cert | parts].
#include <cstdio>
#include <iostream>
#include <iterator>
#include <stdexcept>
#include <string>
#include "tsumego.h"

struct Answer {
    std::string line;
    bool refused;
};

Answer answer(const std::string &word, const std::string &sgf, const tsumego_options &options) {
    std::string line(TSUMEGO_LINE, '\0');
    std::size_t length = 0;
    for (;;) {
        int status = word == "solve"   ? tsumego_solve(sgf.data(), sgf.size(), &options, &line[0], line.size(), &length)
                     : word == "check" ? tsumego_check(sgf.data(), sgf.size(), 0, &line[0], line.size(), &length)
                                       : tsumego_score(sgf.data(), sgf.size(), &line[0], line.size(), &length);
        if (status > TSUMEGO_NO_ROOM || status == TSUMEGO_NO_MEMORY) throw std::runtime_error("tsumego: status " + std::to_string(status));
        line.resize(length);
        if (status != TSUMEGO_NO_ROOM) return {line, status == TSUMEGO_REFUSED};
    }
}

int main(int count, char **words) {
    std::string sgf((std::istreambuf_iterator<char>(std::cin)), {});
    tsumego_options options = TSUMEGO_DEFAULTS;
    if (count > 2) options.cert = std::string(words[2]) == "parts" ? 2 : 1;
    Answer it = answer(count > 1 ? words[1] : "score", sgf, options);
    std::cout << it.line;
    return it.refused;
}
