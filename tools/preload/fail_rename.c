/* Preloaded: no file gets another name, as where the device fails. */
#include <errno.h>

int rename(const char *from, const char *to)
{
    (void)from;
    (void)to;
    errno = EIO;
    return -1;
}
