"""Room for the calls, which go as deep as a tree has levels.

Nothing proves that a thread has stack enough, so a call that could take more than half of its thread's is made on a
thread of its own. Ordinary trees are far from that: tens of levels for 4,097 points, where a comb has 4,096, and other
software's tables can have as many.
"""

from __future__ import annotations

import ctypes
import threading
from typing import Callable, List, TypeVar

Given = TypeVar("Given")

#: The bytes of stack that a call takes for each level, as kneukelboom.h has them; to widen has none ..
A_LEVEL = {"build": 96, "widen": 0, "check": 96, "near": 208, "inside": 208, "agree": 208, "meet": 176}
#: .. and the bytes of the call itself.
ON_TOP = 256

#: What is taken of any thread's stack without a look at its size.
LITTLE = 8 << 10
#: What Python itself may need on a thread that is started for a call.
PYTHON = 1 << 20

_of_thread = threading.local()
_sizing = threading.Lock()


def run(name: str, call: Callable[[], Given], most: int, levels: Callable[[], int]) -> Given:
    """Makes a call that goes at most so many levels deep; `levels` tells it exactly, and is asked only if need be."""
    if ON_TOP + A_LEVEL[name] * most <= LITTLE:
        return call()
    room = _room()
    if ON_TOP + A_LEVEL[name] * most <= room:
        return call()
    needed = ON_TOP + A_LEVEL[name] * levels()
    return call() if needed <= room else _on_its_own_thread(call, needed)


def _room() -> int:
    """Half the stack of this thread; of a thread whose size is not known, a little."""
    room: int = getattr(_of_thread, "room", 0)
    if not room:
        room = _of_thread.room = max(_size() // 2, LITTLE)
    return room


def _size() -> int:
    """The bytes of this thread's stack; 0 where the system does not tell."""
    system = ctypes.CDLL(None)
    attributes = (ctypes.c_uint64 * 64)()  # more than any system's pthread_attr_t
    size = ctypes.c_size_t(0)
    try:
        if system.pthread_getattr_np(ctypes.c_ulong(threading.get_ident()), attributes) != 0:
            return 0
        system.pthread_attr_getstacksize(attributes, ctypes.byref(size))
        system.pthread_attr_destroy(attributes)
    except AttributeError:
        return 0
    return size.value


def _on_its_own_thread(call: Callable[[], Given], needed: int) -> Given:
    done: List[Given] = []
    thread = threading.Thread(target=lambda: done.append(call()))
    pages = -(-needed // 4096)
    with _sizing:  # the size is for all threads that start, so it is set for one start at a time
        usual = threading.stack_size(PYTHON + 4096 * pages)
        try:
            thread.start()
        finally:
            threading.stack_size(usual)
    thread.join()
    return done[0]
