/* What kyoto-link rehearse writes of orders to transfer units alone, by the ordered maps of C++'s library.

   orders reads a scheme of registries with account 1 and units of their own, as bench/rehearse.py writes it, and lines with
   orders between them. Each order is checked and recorded: its units must be held in the account, with their kind, and be
   reserved by no transaction, and are reserved then. It prints an answer for each order, and the table in the end. The exit
   status is 1 where an order isn't recorded, and 2 where a line is none. */

#include <array>
#include <cstdint>
#include <cstdio>
#include <cstdlib>
#include <iostream>
#include <iterator>
#include <map>
#include <string>
#include <string_view>
#include <tuple>
#include <vector>

namespace {

constexpr std::string_view KIND = "AAU";

using Code = std::array<char, 2>;

struct Unit {
    Code origin;
    int period;
    std::uint64_t number;

    bool operator<(const Unit &other) const
    {
        return std::tie(origin, period, number) < std::tie(other.origin, other.period, other.number);
    }
};

struct Transaction {
    Code code;
    unsigned number;

    bool operator<(const Transaction &other) const
    {
        return std::tie(code, number) < std::tie(other.code, other.number);
    }
};

struct Span {
    std::uint64_t last;
    unsigned account;
    /* The number of the transaction that reserves the units, or 0. */
    unsigned reserving;
};

struct Block {
    Code origin;
    std::uint64_t first, last;
};

struct Registry {
    std::map<Unit, Span> spans;
    std::vector<std::string> records;
};

[[noreturn]] void stop(int status, const std::string &why)
{
    std::cerr << "orders: " << why << '\n';
    std::exit(status);
}

std::uint64_t number_of(std::string_view text)
{
    std::uint64_t number = 0;
    for (char digit : text) {
        if (digit < '0' || digit > '9')
            stop(2, "no number");
        number = 10 * number + static_cast<std::uint64_t>(digit - '0');
    }
    return number;
}

Code code_of(std::string_view text)
{
    if (text.size() != 2)
        stop(2, "no code");
    return {text[0], text[1]};
}

std::string text_of(const Code &code)
{
    return {code[0], code[1]};
}

/* Takes the text up to the mark, and goes on after it. */
std::string_view take(std::string_view &text, char mark)
{
    std::size_t end = text.find(mark);
    std::string_view taken = text.substr(0, end);
    text.remove_prefix(end == std::string_view::npos ? text.size() : end + 1);
    return taken;
}

Block block_of(std::string_view text)
{
    Code origin = code_of(take(text, ':'));
    if (take(text, ':') != "1")
        stop(2, "another period");
    std::uint64_t first = number_of(take(text, '-'));
    std::uint64_t last = number_of(take(text, ':'));
    if (text != KIND)
        stop(2, "another kind");
    return {origin, first, last};
}

/* The span that has the unit. */
std::map<Unit, Span>::iterator span_with(Registry &registry, const Unit &unit)
{
    auto found = registry.spans.upper_bound(unit);
    if (found == registry.spans.begin())
        return registry.spans.end();
    --found;
    bool has = found->first.origin == unit.origin && found->first.period == unit.period && unit.number <= found->second.last;
    return has ? found : registry.spans.end();
}

bool is_free(Registry &registry, const Block &block, unsigned account)
{
    for (std::uint64_t number = block.first;;) {
        auto found = span_with(registry, {block.origin, 1, number});
        if (found == registry.spans.end() || found->second.account != account || found->second.reserving != 0)
            return false;
        if (block.last <= found->second.last)
            return true;
        number = found->second.last + 1;
    }
}

/* A span begins at the unit, if one has it. */
void cut(Registry &registry, const Unit &unit)
{
    auto found = span_with(registry, unit);
    if (found == registry.spans.end() || found->first.number == unit.number)
        return;
    Span rest = found->second;
    found->second.last = unit.number - 1;
    registry.spans.emplace(unit, rest);
}

void reserve(Registry &registry, const Block &block, unsigned account, unsigned number)
{
    cut(registry, {block.origin, 1, block.first});
    cut(registry, {block.origin, 1, block.last + 1});
    auto from = registry.spans.lower_bound({block.origin, 1, block.first});
    auto end = registry.spans.upper_bound({block.origin, 1, block.last});
    registry.spans.erase(from, end);
    registry.spans.emplace(Unit{block.origin, 1, block.first}, Span{block.last, account, number});
}

struct Ledger {
    std::map<Code, Registry> registries;
    std::map<Transaction, Code> transactions;
    std::string written;

    void allot(std::string_view scheme)
    {
        constexpr std::string_view UNITS = "\"units\":[\"";
        for (std::size_t at = scheme.find(UNITS); at != std::string_view::npos; at = scheme.find(UNITS, at + 1)) {
            std::string_view text = scheme.substr(at + UNITS.size());
            Block block = block_of(take(text, '"'));
            registries[block.origin].spans.emplace(Unit{block.origin, 1, block.first}, Span{block.last, 1, 0});
        }
    }

    void order(std::string_view line, std::size_t place)
    {
        std::string_view rest = line;
        if (take(rest, ' ') != "propose")
            stop(2, "no order");
        Code code = code_of(take(rest, ' '));
        unsigned account = static_cast<unsigned>(number_of(take(rest, ' ')));
        Code acquirer = code_of(take(rest, ' '));
        take(rest, ' ');
        Block block = block_of(rest);
        auto found = registries.find(code);
        if (found == registries.end() || !is_free(found->second, block, account))
            stop(1, "an order isn't recorded");
        Registry &registry = found->second;
        registry.records.emplace_back(line);
        unsigned number = static_cast<unsigned>(registry.records.size());
        transactions.emplace(Transaction{code, number}, acquirer);
        reserve(registry, block, account, number);
        written += std::to_string(place) + " recorded " + std::to_string(number - 1) + '\n';
    }

    void report()
    {
        for (const auto &[transaction, acquirer] : transactions)
            written += "transaction " + text_of(transaction.code) + std::to_string(transaction.number) + ' '
                + text_of(transaction.code) + " Proposed ITL none " + text_of(acquirer) + " none\n";
        for (const auto &[code, registry] : registries)
            report(text_of(code), registry);
        written += "owed 0\nend\n";
    }

    void report(const std::string &code, const Registry &registry)
    {
        std::uint64_t held = 0, spendable = 0;
        for (const auto &[unit, span] : registry.spans) {
            held += span.last - unit.number + 1;
            spendable += span.reserving == 0 ? span.last - unit.number + 1 : 0;
        }
        written += "registry " + code + " held " + std::to_string(held) + " spendable " + std::to_string(spendable) + '\n';
        for (const auto &[unit, span] : registry.spans) {
            written += "holds " + code + ' ' + std::to_string(span.account) + ' ' + text_of(unit.origin) + ":1:" + std::to_string(unit.number)
                + '-' + std::to_string(span.last) + ":AAU ";
            written += span.reserving == 0 ? "free\n" : code + std::to_string(span.reserving) + '\n';
        }
    }
};

} // namespace

int main()
{
    std::ios::sync_with_stdio(false);
    std::string input{std::istreambuf_iterator<char>(std::cin), {}};
    std::string_view rest = input;
    Ledger ledger;
    ledger.allot(take(rest, '\n'));
    for (std::size_t place = 1; !rest.empty(); place++)
        ledger.order(take(rest, '\n'), place);
    ledger.report();
    return std::fwrite(ledger.written.data(), 1, ledger.written.size(), stdout) == ledger.written.size() ? 0 : 1;
}
