/* A program that is stopped in a line of its source: tests/lines.elf is built of it with -g (sdk/tests/page.py). */
#include "det.h"

static volatile int *nothing;

static int take(int x)
{
    return *nothing + x; /* <b>the load</b> */
}

int main(void)
{
    return take(1);
}
