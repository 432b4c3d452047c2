"""Scripts in which many requests wait. bench/run prints what a search costs then, tests/search_costs.py bounds it."""

SEARCH = "search node=1"


def declared(count):
    """Processes P0, P1 and so on."""
    return [f"declare P{number} node=1 group=1 quota=65535 blocks=2" for number in range(count)]


def by_turns(number):
    return ("EX", "PW")[number % 2]


def waiting(count):
    """One process holds EX. Each of the others waits for EX."""
    return declared(count + 1) + [f"enq P{number} EX name=A block=1" for number in range(count + 1)]


def chain(count):
    """Each process holds EX on a resource of its own, and waits for the next one."""
    return (declared(count + 1) + [f"enq P{number} EX name=R{number} block=1" for number in range(count + 1)]
            + [f"enq P{number} EX name=R{number + 1} block=2" for number in range(count)])


def cycles(count):
    """Each two processes wait for each other."""
    return (declared(count) + [f"enq P{number} EX name=R{number} block=1" for number in range(count)]
            + [f"enq P{number} EX name=R{number ^ 1} block=2" for number in range(count)])


def beside_holders(count):
    """So many processes hold CR. So many others wait for EX and PW by turns."""
    return (declared(2 * count) + [f"enq P{number} CR name=A block=1" for number in range(count)]
            + [f"enq P{count + number} {by_turns(number)} name=A block=1" for number in range(count)])


def beside_expedited(count):
    """One process holds EX, and another many locks at NL. So many others wait for EX and PW by turns."""
    return (declared(count + 2) + ["enq P0 EX name=A block=1"] + ["enq P1 NL name=A block=1 expedite"] * count
            + [f"enq P{2 + number} {by_turns(number)} name=A block=1" for number in range(count)])


def conversions(count):
    """All processes hold CR, and all except one convert, to EX and PW by turns."""
    return (declared(count + 1) + [f"enq P{number} CR name=A block=1" for number in range(count + 1)]
            + [f"cvt P{number} @1 {by_turns(number)} block=1" for number in range(count)])


def long_cycle(count):
    """The holder waits for a process that is the last of so many to queue behind it."""
    return (declared(count + 1) + [f"enq P{count} EX name=A block=1", f"enq P{count - 1} EX name=B block=2",
                                   f"enq P{count} EX name=B block=2"]
            + [f"enq P{number} EX name=A block=1" for number in range(count)])


def one_process(count):
    """One process queues all requests on one resource, with NODLCKBLK."""
    return declared(2) + ["enq P0 EX name=A block=1"] + ["enq P1 EX name=A block=1 nodlckblk"] * count


def many_processes(count):
    """As many processes convert to EX on one resource, with NODLCKBLK."""
    return (declared(count + 1) + [f"enq P{number} CR name=A block=1" for number in range(count + 1)]
            + [f"cvt P{number} @1 EX block=1 nodlckblk" for number in range(count)])


# What each script is about. A search of the first ones costs the same for each waiting request, however many wait.
LINEAR = {
    waiting: "requests for EX wait in one queue",
    chain: "each request waits for the next resource",
    cycles: "two processes wait for each other, many times",
    beside_holders: "requests for EX and PW by turns wait behind as many that hold CR",
    beside_expedited: "the same behind one that holds EX, beside as many at NL",
    conversions: "locks at CR convert to EX and PW by turns",
    long_cycle: "the last request of a queue closes a cycle through all of it",
    one_process: "requests with NODLCKBLK of one process wait on one resource",
}
QUADRATIC = {many_processes: "locks at CR of many processes convert with NODLCKBLK"}


def scripts(case, count):
    """A script and the same with a search at its end."""
    text = "\n".join([*case(count), ""])
    return text, text + SEARCH + "\n"
