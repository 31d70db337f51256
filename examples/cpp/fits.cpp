// Says whether a sheet fits up to a horizon, and if not, by how much its first overrun interval is exceeded, and by what: fits FILE HORIZON.
// It ends with 0 where it has answered, 1 where the sheet or the horizon was refused, 2 where it was called wrongly.
#include <cstdint>
#include <fstream>
#include <iostream>
#include <iterator>
#include <stdexcept>
#include <string>
#include <vector>

#include <marnipode.h>

static std::vector<std::uint8_t> read_sheet(const std::string &name)
{
    std::ifstream file(name, std::ios::binary);
    if (!file)
        throw std::runtime_error("cannot open " + name);
    return {std::istreambuf_iterator<char>(file), std::istreambuf_iterator<char>()};
}

static std::uint64_t number_of(const std::string &word)
{
    if (word.empty() || word.size() > 18 || word.find_first_not_of("0123456789") != std::string::npos)
        throw std::runtime_error("'" + word + "' is no number of ticks");
    return std::stoull(word);
}

static int answer(const std::vector<std::uint8_t> &sheet, std::uint64_t horizon)
{
    static const char *const causes[] = {"nothing", "the engine alone", "the fixed tasks alone", "only both together"};
    // Room for every horizon that is not refused; a refused sheet has no rows, and no cells are needed to say so.
    const std::size_t rows = marnipode_judge(sheet.data(), sheet.size()).rows;
    std::vector<std::uint32_t> cells(rows * (MARNIPODE_LONGEST_TIME + 1));
    std::vector<std::uint8_t> witness(MARNIPODE_LONGEST_TIME);
    const auto why = marnipode_explain(sheet.data(), sheet.size(), horizon, cells.data(), cells.size(), witness.data(), witness.size());
    if (why.number != 0) {
        std::cout << "refused " << unsigned(why.number) << " at " << why.place << '\n';
        return 1;
    }
    if (why.cause == MARNIPODE_CAUSE_NONE)
        std::cout << "holds up to " << horizon << '\n';
    else
        std::cout << "fails at " << why.overrun << ", by " << why.excess << ": " << causes[why.cause] << '\n';
    return 0;
}

int main(int argc, char **argv)
try {
    if (argc != 3)
        throw std::runtime_error("called as fits FILE HORIZON");
    const int status = answer(read_sheet(argv[1]), number_of(argv[2]));
    if (!std::cout.flush())
        throw std::runtime_error("the answer could not be written");
    return status;
} catch (const std::exception &wrong) {
    std::cerr << "fits: " << wrong.what() << '\n';
    return 2;
}
