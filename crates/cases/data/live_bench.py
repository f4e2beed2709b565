"""A bench in conversation with a core: it counts up to three, and keeps the files of the count.
usage: live_bench.py PROGRAM
"""

import pathlib
import sys

try:
    from tulgexar import arg, core, formats, live, words
except ModuleNotFoundError as missing:
    sys.exit(f"live_bench.py: {missing}: in a clone PYTHONPATH=python names where it is")

COUNTER = "22222222-3333-4444-5555-666666666666"
MOST_BYTES = 96  # of an argument: a head and two parameters
IMAGE = pathlib.Path(__file__).parent / "applications/counter.hex"


def call(driver, asked):
    """Makes the call of an argument that arg.py writes, and serves it: how it has ended."""
    driver.talk.write(0, formats.RAM_START, arg.argument(asked.split()))
    driver.call(0, [formats.CALL_WITH_ARG, 0, formats.RAM_START])
    return core.ended(driver.talk.read(0, formats.RAM_START, MOST_BYTES))


def count_up(talk):
    talk.ask("boot 1 1 1")
    talk.ask(f"ta {COUNTER} {IMAGE.read_text().strip()}")
    driver, count = live.Driver(talk), 0
    session = call(driver, f"open {COUNTER}").session
    while count < 3:
        count, _ = call(driver, f"invoke {session} 0 value_out").values[0]
        print("count", count)
    for name, data in driver.supplicant.files.data.items():
        print(name.decode(), data.hex())


def main(given):
    if len(given) != 1:
        raise words.BadWords("one PROGRAM of a conversation is wanted")
    try:
        with live.Conversation(*given) as talk:
            count_up(talk)
    except (live.Over, live.NoConversation, live.Refused) as wrong:
        sys.exit(f"live_bench.py: {wrong}")


words.run(main, __doc__)
