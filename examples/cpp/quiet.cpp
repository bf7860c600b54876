// Without exceptions: a refusal is read. With an argument, the value of the refused answer is asked for, which ends the
// program.
#include <cstdio>

#include "sukhlent.hpp"

int main(int count, char **)
{
    auto bell = sukhlent::Record::zeros(2);
    if (!bell)
        return 1;
    sukhlent::Record record = *bell;
    const auto done = record.cz(1, 1);
    std::printf("refused %d\n", static_cast<int>(done.refusal()));
    std::fflush(stdout);
    if (count > 1)
        done.value();
}
