#include "greeting.h"

int main(void)
{
    greet(NAME);
    return 0;
}
