"""What the system is asked before a program reads trees of others, so that the program sees where a limit ends and isn't ended by a signal."""
import resource
import signal

# The deepest source takes 3.0 MiB of the stack, and the program with its library takes 4 MiB of addresses before it holds anything.
STACK, KEPT = 8 << 20, 12 << 20
NONE = resource.RLIM_INFINITY


def least(*limits):
    """The least of some limits, of which any may be none."""
    return min((limit for limit in limits if limit != NONE), default=NONE)


def bound(data=NONE):
    """Bounds this process and the program that it becomes: a write past the largest file fails; the stack may be as deep as the deepest source needs, as far as that
    may be set; and data ends at DATA, or before addresses do, so that these are left for the stack."""
    signal.signal(signal.SIGXFSZ, signal.SIG_IGN)
    stack, most = resource.getrlimit(resource.RLIMIT_STACK)
    # a thread has as much as this limit says, and 2 MiB where it says nothing
    if stack == NONE or least(stack, STACK) != STACK:
        resource.setrlimit(resource.RLIMIT_STACK, (least(STACK, most), most))
    addresses = resource.getrlimit(resource.RLIMIT_AS)[0]
    left = addresses if addresses == NONE else max(0, addresses - KEPT)
    data = least(data, left, *resource.getrlimit(resource.RLIMIT_DATA))
    resource.setrlimit(resource.RLIMIT_DATA, (data, data))
