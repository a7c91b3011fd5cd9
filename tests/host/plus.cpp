/* The header in C++: the calls are found by their C names. */
#include <cstring>

#include "box.h"

int main()
{
    return box_version() == BOX_VERSION && std::strcmp(box_word(BOX_FOREIGN), "foreign") == 0 ? 0 : 1;
}
