/* Empty slices as C++ has them: vectors without entries. */
#include <cstdio>
#include <vector>

#include "empty.h"

int main()
{
    std::vector<uint8_t> bytes;
    std::vector<uint16_t> shorts;
    std::vector<uint32_t> longs;
    std::vector<uint64_t> numbers;
    std::vector<hdf4_field> fields;
    struct empty vectors = {bytes.data(), shorts.data(), longs.data(), numbers.data(), fields.data()};
    compare_with(&vectors);
    std::printf("empty vectors are answered as others are\n");
    return 0;
}
