"""A clock that shows another second at each look, put before the system's: to tillbox every journal comes slowly then, and a line is saved
after every 128 blocks. Needs a C compiler (cc, or $CC)."""

import os
import subprocess

SOURCE = """#include <time.h>
int clock_gettime(clockid_t clock, struct timespec *shown)
{
    static time_t seconds;
    (void)clock;
    shown->tv_sec = ++seconds;
    shown->tv_nsec = 0;
    return 0;
}
"""


def environment(folder):
    """What a program is to be run with, so that it has this clock; it is built in a folder that stays as long."""
    source, clock = os.path.join(folder, "slow_clock.c"), os.path.join(folder, "slow_clock.so")
    with open(source, "w", encoding="utf-8") as file:
        file.write(SOURCE)
    subprocess.run([os.environ.get("CC", "cc"), "-shared", "-fPIC", "-o", clock, source], check=True)
    return dict(os.environ, LD_PRELOAD=clock)
