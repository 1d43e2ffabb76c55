// A program in C++ over the installed header and library. It prints what a condition asks, a known
// value, and an unknown one with its fillings.
#include <cfgx.h>

#include <iostream>
#include <stdexcept>
#include <string>
#include <vector>

// Throws, unless the status is that of a result.
static void expect_done(std::uint32_t status)
{
    if (status != CFGX_STATUS_DONE) {
        throw std::runtime_error("status " + std::to_string(status));
    }
}

// Returns the keys that a condition asks, which has flags alone.
static std::vector<std::string> flags_of(const std::string &text)
{
    std::size_t count = 0;
    expect_done(cfgx_predicates(text.data(), text.size(), nullptr, 0, &count, nullptr));
    std::vector<cfgx_predicate> predicates(count);
    expect_done(cfgx_predicates(text.data(), text.size(), predicates.data(), count, &count,
                                nullptr));
    std::vector<std::string> flags;
    for (const cfgx_predicate &predicate : predicates) {
        flags.push_back(text.substr(predicate.key_start, predicate.key_end - predicate.key_start));
    }
    return flags;
}

// Prints the numbers of values, one behind another.
static void print_numbers(const std::vector<std::uint8_t> &values)
{
    for (std::uint8_t value : values) {
        std::cout << int(value);
    }
}

int main()
{
    const std::string text = "all(a, any(b), c)";
    for (const std::string &flag : flags_of(text)) {
        std::cout << flag << ' ';
    }
    const std::vector<std::uint8_t> answers = {CFGX_VALUE_TRUE, CFGX_VALUE_UNKNOWN,
                                               CFGX_VALUE_TRUE};
    std::vector<std::uint8_t> fillings(2 * answers.size());
    std::size_t needed = 0;
    std::uint8_t value = CFGX_VALUE_FALSE;
    expect_done(cfgx_value("true", 4, nullptr, 0, &value, nullptr));
    std::cout << int(value) << ' ';
    expect_done(cfgx_decide(text.data(), text.size(), answers.data(), answers.size(),
                            fillings.data(), fillings.size(), &needed, &value, nullptr));
    std::cout << int(value) << ' ';
    print_numbers(fillings);
    std::cout << (cfgx_version() == CFGX_VERSION ? "\n" : " another version\n");
}
