"""Writes the calls of a client's script as a trace: all that they come to in RAM and in SMCs.

SCRIPT is a script for the word `client`, or one from which lift.py makes such a script; `-` is standard input. The calls are made on a core
by a conversation, as "Script of a client" of docs/formats.md has them, and the trace is what was said. `run` plays it, chart.py draws it, and
annotate.py explains what `run` has printed for it. Comments say which call of the script the lines behind them are of, and what `client` prints
of it; each RPC return has its number, which is the K of `cancel:K`.
steps=N grants N steps to each entry in the place of 10,000, so with 1 each step of an application is an SMC. A call that is interrupted
returns once more, so a K names another return then. A cancel before a return that has not come is told on standard error.
The program is FILE, the one that TULGEXAR_LIVE names, or what `rt run` has built in crates/optee_live.
Status: 0; 1 where a line of the script isn't of its form, the core refuses an entry, or its program ends otherwise than with 0; 2 at other
words.
usage: client_trace.py [program=FILE] [steps=N] SCRIPT
"""

import collections
import pathlib
import re
import struct
import sys

from tulgexar import arg, calls, client, formats, lift, live, machine, plays, program
from tulgexar.words import BadWords, located, number, plain, refuse_options, run, text_of, uuid

ARGUMENT, CANCEL, BUFFER, COOKIE = formats.RAM_START, 0x4000_1000, 0x4001_0000, 1
MEMORY, MEMORY_BYTES = 0x4010_0000, 0x1_0000  # of parameter 0, and apart from the next
MOST_CANCEL, MOST_CALLS, MOST_PARAMETERS = 1000, 512, 4
CANCEL_ID, METAS = 1, 2  # META parameters, which an open has before its own
NAME, FUNCTION = "[a-z]{1,16}", "[0-9a-fA-F]{1,8}"

# A call of a script: `open`, `invoke` or `close`, its name, the UUID or the function, before which return it is cancelled, or None, and its
# parameters as machine.py has them.
Call = collections.namedtuple("Call", "item name operand cancel parameters")


def call_of(words):
    """The call of a line's words."""
    item, name, *operands = [*words, ""][: max(len(words), 2)]
    if not re.fullmatch(NAME, name):
        raise BadWords(f"{name or 'nothing'} is no name: 1 to 16 lower-case letters")
    if item == "close":
        return Call(item, name, *arg.last(operands, ("", None, [])))
    operand = arg.take(operands, str, "UUID" if item == "open" else "function")
    if item == "open":
        uuid(operand)
    elif not re.fullmatch(FUNCTION, operand):
        raise BadWords(f"{operand} is no function: 1 to 8 hexadecimal digits")
    cancel = cancel_of(operands.pop(0)) if item == "invoke" and operands and operands[0].startswith("cancel:") else None
    if len(operands) > MOST_PARAMETERS:
        raise BadWords(f"a call has at most {MOST_PARAMETERS} parameters")
    return Call(item, name, operand, cancel, [parameter_of(word) for word in operands])


def cancel_of(word):
    found = number(word.removeprefix("cancel:"))
    if not 1 <= found <= MOST_CANCEL:
        raise BadWords(f"{word} isn't before one of the first {MOST_CANCEL} returns")
    return found


def parameter_of(word):
    found = machine.parameter_of(word)
    if found is None:
        raise BadWords(f"{word} is no parameter: none, vi:A:B, vo, vio:A:B, mi:HEX, mo:LEN, mio:HEX")
    return found


class Client:
    """A client that makes calls on a core, one after the other."""

    def __init__(self, talk, steps):
        self.talk, self.steps = talk, steps
        self.supplicant = live.Supplicant(talk, BUFFER, COOKIE)
        self.sessions, self.smcs = {}, 0

    def call(self, made):
        """Makes a call to its end: how many RPC returns it had."""
        self.lay(made.parameters)
        argument = arg.argument(self.words(made))
        answered = self.enter(ARGUMENT, argument)
        self.supplicant.begins(0, [formats.CALL_WITH_ARG, 0, ARGUMENT])
        returns = self.serve(made, answered)
        argument = self.talk.read(0, ARGUMENT, len(argument))
        fields = calls.head_fields(argument)
        if made.item == "open":
            self.sessions[made.name] = fields["session"] if fields["ret"] == 0 else 0
        outputs = self.outputs(made, argument) if fields["ret_origin"] == client.APPLICATION else []
        self.talk.ask(" ".join([f"# {made.item} {made.name} {fields['ret']:08x} {fields['ret_origin']:08x}", *outputs]))
        return returns

    def serve(self, made, answered):
        """Answers the RPC returns of a call up to its end, and cancels it before the one that it names: how many there were."""
        returns = 0
        while answered[0] in formats.RPCS:
            returns += 1
            self.talk.ask(f"# return {returns} of {made.item} {made.name}: {formats.RPCS[answered[0]]}")
            if returns == made.cancel:
                self.talk.ask(f"# a cancel of {made.item} {made.name}")
                self.enter(CANCEL, arg.argument(["cancel", str(self.sessions[made.name]), str(CANCEL_ID)]))
            resumed, _ = self.supplicant.serves(0, answered)
            answered = self.smc(resumed)
        self.supplicant.serves(0, answered)
        return returns

    def lay(self, parameters):
        """Writes the bytes of parameters."""
        for k, parameter in enumerate(parameters):
            if parameter.family == "memref" and parameter.way != "out":
                self.talk.write(0, MEMORY + MEMORY_BYTES * k, parameter.data)

    def words(self, made):
        """The words of arg.py for a call's argument."""
        parameters = [word for k, parameter in enumerate(made.parameters) for word in words_of(k, parameter)]
        if made.item == "open":
            return ["open", made.operand, "id", str(CANCEL_ID), *parameters]
        session = str(self.sessions[made.name])
        return ["close", session] if made.item == "close" else ["invoke", session, f"0x{made.operand}", "id", str(CANCEL_ID), *parameters]

    def enter(self, address, argument):
        """Makes a new call of an argument: the registers of its first answer."""
        self.talk.write(0, address, argument)
        return self.smc([formats.CALL_WITH_ARG, 0, address])

    def smc(self, registers):
        self.smcs += 1
        if self.smcs > client.MOST_SMCS:
            raise BadWords(f"the calls need more than {client.MOST_SMCS} SMCs, at which `client` ends")
        return self.talk.smc(0, registers, self.steps)

    def outputs(self, made, argument):
        """The outputs of a call as `client` prints them, by its argument behind it."""
        first = METAS if made.item == "open" else 0
        for k, parameter in enumerate(made.parameters):
            if parameter.is_output:
                self.hear(k, parameter, argument[arg.parameter_at(first + k, "p") :])
                yield parameter.printed()

    def hear(self, k, parameter, fields):
        """Takes an output as the call has left it, from p of its parameter on."""
        p, q = struct.unpack_from("<2Q", fields)
        parameter.numbers, parameter.size = (p % 2**32, q % 2**32), q
        if parameter.family == "memref" and 0 < q <= len(parameter.data):
            parameter.data[:q] = self.talk.read(0, MEMORY + MEMORY_BYTES * k, q)


def words_of(k, parameter):
    """The words of arg.py for a parameter."""
    if parameter.family == "none":
        return ["none"]
    if parameter.family == "value":
        numbers = [] if parameter.way == "out" else [str(number) for number in parameter.numbers]
        return [f"value_{parameter.way}", *numbers]
    return [f"tmem_{parameter.way}", f"{MEMORY + MEMORY_BYTES * k:x}", str(parameter.size)]


def read(lines):
    """The lines of a script behind their numbers, each as a text, or as the Call that it makes; the lines that are wanted aren't kept."""
    item, found, names = plays.item_of_trace(lines), [], set()
    if item:
        place, line, what = item
        raise lift.Fault(f"{what}: `run` plays a trace as it is", place, line)
    for place, line in lines:
        words = line.split(" ")
        try:
            if words[0] in plays.CLIENT_CALLS:
                found.append((place, line, call_of(words)))
                refuse_name(found[-1][2], names)
            elif not line.startswith("#="):
                refuse_other(words)
                found.append((place, line, None))
        except BadWords as error:
            raise lift.Fault(str(error), place, line) from error
    if sum(call is not None for *_, call in found) > MOST_CALLS:
        raise lift.Fault(f"a script has at most {MOST_CALLS} calls")
    return found


def refuse_name(call, names):
    """Refuses a call of a name that no open has given, and a second open of a name."""
    if (call.item == "open") == (call.name in names):
        raise BadWords(f"{call.name} {'was opened before' if call.item == 'open' else 'was never opened'}")
    names.add(call.name)


def refuse_other(words):
    """Refuses a line that is none of a script."""
    if words[0] and words[0][0] != "#" and words[0] not in plays.HEADER:
        raise BadWords(f"{words[0]} is no line of a client's script")
    if words[0] == "boot" and words[2:3] == ["1"]:
        raise BadWords("a client's core has at least two threads: one is for its cancels")


def play(lines, talk, steps=client.GRANT):
    """Says the lines of a script, each behind its number, and makes its calls. What is to be said of cancels that have not come, each behind the
    number of its line."""
    played, missed = Client(talk, steps), []
    for place, line, call in read(lines):
        try:
            talk.ask(f"# {line}" if call else line)
            returns = played.call(call) if call else 0
            if call and call.cancel and returns < call.cancel:
                missed.append((place, f"cancel:{call.cancel} has not come: {call.item} {call.name} had {returns} RPC returns"))
        except BadWords as error:
            raise lift.Fault(str(error), place, line) from error
        except live.Refused as refused:
            cause = live.fault_of(refused.line, refused.ending.partition(" ")[2])
            raise lift.Fault(f"{refused.ending}: {cause}", place, line) from refused
    return missed


def shown(line, answer):
    """Prints a line that was taken, where it is one of a trace."""
    if answer.ending == "ok" and live.is_of_trace(line):
        print(line)


def main(words):
    words = list(words)
    file, steps = program.taken_from(words), number(program.taken_from(words, "steps") or str(client.GRANT))
    if not 1 <= steps <= live.MOST_STEPS:
        raise BadWords(f"steps={steps} isn't from 1 to {live.MOST_STEPS}")
    refuse_options(words, "program=FILE, steps=N")
    if len(words) != 1:
        raise BadWords("one SCRIPT is wanted; - is standard input" if not words else f"{words[1]} is one word too many")
    talker, text = program.found("optee_live", file), text_of(words[0])
    try:
        lines = lift.placed(text, pathlib.Path(words[0]).parent)
        with live.Conversation(talker, heard=shown) as talk:
            for place, missed in play(lines, talk, steps):
                print(f"client_trace.py: {plain(located(missed, place, words[0]))}", file=sys.stderr)
            talk.finish()
    except lift.Fault as fault:
        return refused(fault.told(words[0]))
    except (live.Over, live.NoConversation) as fault:
        return refused(str(fault))
    return 0


def refused(why):
    """Tells why a script comes to no trace. The status."""
    print(f"client_trace.py: {plain(why)}", file=sys.stderr)
    return 1


if __name__ == "__main__":
    run(main, __doc__)
