#include "parts.h"

int main(void)
{
    reports();
    links();
    return 0;
}
