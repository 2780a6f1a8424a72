"""The order of stores into memory that another program reads, on each machine."""
import ctypes
import os

ORDERED = ("x86_64",)  # machines that keep the order of stores by themselves, as `uname -m` names them
MEMBARRIER = {"aarch64": 283}  # the number of the system call membarrier, which has no function in the C library
GLOBAL_EXPEDITED, REGISTER_GLOBAL_EXPEDITED = 2, 4  # its commands MEMBARRIER_CMD_..


class NoBarrier(Exception):
    """There is no known way to keep the order of stores here."""
    status = 2


def barrier_of(machine):
    """A call that keeps the stores before it in front of those after it, for whoever reads them.

    x86-64 needs none. A 64-bit ARM processor may show stores in another order, so there it is Linux's membarrier. With this command the memory
    accesses of each process that has registered itself are in the order of its program across the call (membarrier(2), Linux 4.16), and
    this process registers itself. The order of a reader's loads is the reader's own matter. For other machines nobody has looked."""
    if machine in ORDERED:
        return lambda: None
    if machine not in MEMBARRIER:
        raise NoBarrier(f"the order of stores into the shared memory is known for x86-64 and arm64, and this machine is {machine}: use --sock-pulse or "
                        "--sock-serial, and chrony's refclock SOCK")
    call, number = ctypes.CDLL(None, use_errno=True).syscall, MEMBARRIER[machine]

    def barrier(command=GLOBAL_EXPEDITED):
        if call(ctypes.c_long(number), ctypes.c_int(command), ctypes.c_uint(0), ctypes.c_int(0)) != 0:
            raise NoBarrier(f"Linux's membarrier, which orders the stores into the shared memory, fails: {os.strerror(ctypes.get_errno())}; use "
                            "--sock-pulse or --sock-serial, and chrony's refclock SOCK")

    barrier(REGISTER_GLOBAL_EXPEDITED)
    return barrier
