/* The header alone, as C and as C++: it needs no other, and may come twice. */
#include "batkhreli.h"
#include "batkhreli.h"

int main(void)
{
    uint32_t place = 9, detail = 9;

    return !(batkhreli_check(NULL, 0, &place, &detail) == 1 && place == 1 && detail == 0);
}
