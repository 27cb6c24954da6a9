"""Runs cases of leaves on made input: crates/leaf_cases/out/leaf_cases, which
"cd crates/leaf_cases && rt run -- data/calls/names" makes. Another program is named as the one argument."""
import os
import resource
import subprocess
import sys
import tempfile

TOP = os.path.dirname(os.path.dirname(os.path.abspath(__file__)))
PROGRAM = os.path.join(TOP, "crates", "leaf_cases", "out", "leaf_cases")


def run(text, words=("-",)):
    """The lines that the program writes, and the seconds of a processor that it takes. With the
    files of cases as words, in which nothing is wanted, each differs."""
    program = sys.argv[1] if len(sys.argv) > 1 else PROGRAM
    before = resource.getrusage(resource.RUSAGE_CHILDREN)
    done = subprocess.run([program, *words], input=text.encode(), stdout=subprocess.PIPE,
                          check=words == ("-",))
    after = resource.getrusage(resource.RUSAGE_CHILDREN)
    seconds = after.ru_utime + after.ru_stime - before.ru_utime - before.ru_stime
    return done.stdout.decode().splitlines(), seconds


def more(text, added, times=1):
    """The last line that is written for the text and what is added to it so often, and the seconds
    that one more of these takes."""
    _, without = run(text)
    lines, seconds = run(text + added * times)
    return lines[-1], max(0.0, seconds - without) / times


def seconds_each(case, times):
    """The seconds that one more of a case takes, which is run from a file so often."""
    with tempfile.NamedTemporaryFile("w", suffix="-case") as file:
        file.write(case)
        file.flush()
        _, once = run("", [file.name])
        _, often = run("", [file.name] * (1 + times))
    return max(0.0, often - once) / times


def group_members(place, groups, persons):
    """The members of a group: the next but for every twentieth, and the persons dealt out to it."""
    inner = [f"g{place + 1}"] if place % 20 != 19 and place + 1 < groups else []
    return inner + [f"p{number}" for number in range(place, persons, groups)]


RIGHTS = """SeeQueue CreateTicket ShowTicket ShowTicketComments ModifyTicket ReplyToTicket
CommentOnTicket OwnTicket TakeTicket StealTicket ReassignTicket DeleteTicket Watch WatchAsAdminCc
AdminQueue SuperUser""".split()


def grant(number, groups):
    """The right, the group and the queue of a grant, where one in ten is on all queues."""
    queue = None if number % 10 == 0 else f"q{number // 10 % 50}"
    return RIGHTS[number % 16], f"g{number % groups}", queue
