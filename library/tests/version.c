/* Prints the version of the library. The status is 1 if the header has another. */
#include "bindingclay.h"

#include <stdio.h>

int main(void)
{
    unsigned version = bindingclay_version();
    printf("%u.%u.%u\n", version / 1000000, version / 1000 % 1000, version % 1000);
    return version != BINDINGCLAY_VERSION;
}
