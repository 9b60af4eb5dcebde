/* The texts of what calls return. */
#include "saxiko.h"

#include <errno.h>

const char *saxiko_strerror(int32_t status) {
    switch (status) {
    case -EPERM: return "the reader is offline, or no grace period lasts";
    case -ENOENT: return "no rule";
    case -EAGAIN: return "a grace period lasts";
    case -ENOMEM: return "out of memory";
    case -EBUSY: return "in use: an open handle, a registered reader, or a group that a reader holds";
    case -EINVAL: return "an argument that the call doesn't take";
    case -ENOSPC: return "the table is full";
    case -EDOM: return "a route with a greater depth or next hop than there is";
    case -EOVERFLOW: return "versions or tokens are exhausted";
    case -EALREADY: return "the reader is online already, or a grace period lasts";
    case -E2BIG: return "more routes than can be sorted";
    default: return status < 0 ? "unknown status" : "done";
    }
}
