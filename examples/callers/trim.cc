// Prints a trimmed trace, and on the standard error how many steps it has. usage: trim FORMULA TRACE
// For a refusal it prints the line on the standard error. The status is the program's.
#include <cstddef>
#include <cstdint>
#include <cstdlib>
#include <fstream>
#include <iostream>
#include <iterator>
#include <qrp_check.h>
#include <string>
#include <vector>

static std::string bytes_of(const char *path) {
    std::ifstream file(path, std::ios::binary);
    if (!file) {
        std::cerr << path << ": it cannot be read\n";
        std::exit(3);
    }
    return std::string(std::istreambuf_iterator<char>(file), std::istreambuf_iterator<char>());
}

// Prints the line of a verdict that is no result, and returns its status.
static int refused(const qrp_verdict &verdict) {
    char line[QRP_LINE_ROOM];
    qrp_verdict_line(&verdict, line, sizeof line);
    std::cerr << line;
    return verdict.status;
}

int main(int count, char **words) {
    if (count != 3) {
        std::cerr << "usage: trim FORMULA TRACE\n";
        return 5;
    }
    const std::string formula = bytes_of(words[1]), trace = bytes_of(words[2]);
    qrp_verdict verdict;
    std::vector<char> text(trace.size() + 32);
    std::size_t length =
        qrp_trim(formula.data(), formula.size(), trace.data(), trace.size(), false, text.data(), text.size(), &verdict);
    if (length >= text.size()) {
        text.resize(length + 1);
        length = qrp_trim(formula.data(), formula.size(), trace.data(), trace.size(), false, text.data(), text.size(), &verdict);
    }
    if (length == 0) return refused(verdict);
    std::cout.write(text.data(), static_cast<std::streamsize>(length));
    // With no room a call returns how much is needed, and takes NULL. It may be out of memory too: then there are no steps.
    std::vector<std::uint64_t> steps(
        qrp_core(formula.data(), formula.size(), trace.data(), trace.size(), false, nullptr, 0, &verdict));
    if (!steps.empty())
        qrp_core(formula.data(), formula.size(), trace.data(), trace.size(), false, steps.data(), steps.size(), &verdict);
    if (verdict.status != QRP_VERIFIED) return refused(verdict);
    std::cerr << steps.size() << " steps, the last is " << steps.back() << '\n';
    return verdict.status;
}
