/* pagestore COMMAND [OPTIONS] FILE ...: the field engineer's tool. */
#include "tool.h"

#include <signal.h>

int main(int argc, char **argv) {
    guard_descriptors();
    signal(SIGPIPE, SIG_IGN); /* a reader that went away is a failed write, and told as one */
    int status = run_command(argc - 1, argv + 1);
    int closed = close_output();
    return closed != ALL_WELL ? closed : status;
}
