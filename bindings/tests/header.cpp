// Includes the headers from C++, and uses a device for one thread, by the calls of C and by the class of LINKING.md.
#include "mintlintel_answering.h"
#include "mintlintel_image.h"
#include "mintlintel_locked.h"
#include "mintlintel_reader.h"
#include <cstdio>
#include <cstring>
#include <stdexcept>
#include <vector>

#include "device.hpp"

// Whether these numbers open, by the class of the page.
static bool opens(const mintlintel_numbers &numbers)
{
    try {
        Device device(numbers);
        return true;
    } catch (const std::runtime_error &error) {
        return std::strcmp(error.what(), "luns out of range") != 0;
    }
}

int main()
{
    mintlintel_one device{};
    std::vector<uint8_t> page(512, 7), out(512);
    if (mintlintel_one_open(&device, 1, 24, 64, 64, 1000, 1000) != MINTLINTEL_DONE)
        return 1;
    bool is_read = mintlintel_one_write(&device, 3, page.data(), page.size()) == MINTLINTEL_EMPTY &&
                   mintlintel_one_read(&device, 3, out.data(), out.size()) == MINTLINTEL_WRITTEN && out == page;
    mintlintel_one_close(&device);
    if (!is_read || std::strcmp(mintlintel_code_name(MINTLINTEL_CLOSED), "the handle is closed") != 0)
        return 1;
    if (!opens({1, 24, 64, 64, 1000, 1000, 0, 0}) || opens({}))
        return 1;
    std::puts("header: C++ writes and reads a page");
}
