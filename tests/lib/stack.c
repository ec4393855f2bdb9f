/* Runs a program with so many KiB of stack; where KIB is 0, with as much as may be. tests/stack calls it.

     stack KIB PROGRAM WORD ..

   Linux draws by lot where the stack lies, and leaves up to 8 KiB of it free. Where it can be asked to, it
   draws no lot here, and the stack has these 8 KiB less. */
#include <stdlib.h>
#include <sys/personality.h>
#include <sys/resource.h>
#include <unistd.h>

enum { LOT = 8 };

int main(int count, char **words)
{
    struct rlimit stack;
    if (count < 3 || getrlimit(RLIMIT_STACK, &stack) != 0)
        return 127;
    rlim_t kib = (rlim_t)atol(words[1]);
    stack.rlim_cur = kib ? kib * 1024 : stack.rlim_max;
    if (personality(ADDR_NO_RANDOMIZE) != -1 && kib > LOT)
        stack.rlim_cur -= LOT * 1024;
    if (setrlimit(RLIMIT_STACK, &stack) != 0)
        return 127;
    execv(words[2], words + 2);
    return 127;
}
