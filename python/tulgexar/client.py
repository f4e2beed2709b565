"""What a client's script comes to, by docs/formats.md ("What a call runs", "Script of a client"), over machine.py. It isn't run
by itself: check.py compares what it says with what the word `client` has printed, and bench_test.py asks it where a call has panicked."""

import collections
import hashlib

from tulgexar import image, machine, objects, places

SINGLE, MULTI, KEEP = 1 << 2, 1 << 3, 1 << 4
DIGEST = "3f0c7a11-52b8-4d6e-9a40-0e6b5d2c8f01"
TEE, APPLICATION = 3, 4
GRANT, MOST_SESSIONS, MOST_SMCS = 10_000, 64, 32_768


# A panic: its code, the place of the instruction, why, the places to return to, and the image.
Panicked = collections.namedtuple("Panicked", "code place why stack image")

# The line of a call, and the panic in which it has ended, or None.
Played = collections.namedtuple("Played", "line panic")


class Ended(Exception):
    """The end of a call before its usual one, with its result and origin."""

    def __init__(self, name, origin=TEE):
        super().__init__(name)
        self.result, self.origin = objects.RESULTS[name] if isinstance(name, str) else name, origin


class NoRoom(Exception):
    """One more SMC would be needed."""


class Application:
    """An application: its image, or None of the digest application, and its instance where all sessions share one."""

    def __init__(self, uuid, digits):
        self.uuid = uuid
        self.image = image.decode(bytes.fromhex(digits)) if digits else None
        self.flags = self.image.flags if digits else 0
        self.shared = None


class Session:
    """An opened session, on an instance of an application, with its context."""

    def __init__(self, application, instance, context):
        self.application, self.instance, self.context = application, instance, context


class Client:
    """A core with one client, which makes one call after the other."""

    def __init__(self, frames, applications, key):
        self.free, self.key, self.files = frames, key, {}
        self.applications = {application.uuid: application for application in applications}
        self.applications[DIGEST] = Application(DIGEST, "")
        self.world = machine.World()
        self.world.requests_made, self.world.is_cancelled = self.requests_made, self.is_cancelled
        self.sessions, self.names, self.last, self.smcs = {}, {}, 0, 0
        self.returns, self.cancel_at, self.has_buffer, self.steps = 0, None, False, 0
        self.panic = None

    def requests_made(self, requests):
        """Each request is a return of the call to its client, and the first one is behind an ALLOC."""
        if requests and not self.has_buffer:
            self.has_buffer = True
            self.returned()
        for _ in range(requests):
            self.returned()

    def returned(self):
        """The call has come back once more: it is cancelled first, where it is to be, and resumed."""
        self.returns += 1
        self.made(2 if self.returns == self.cancel_at else 1)

    def made(self, smcs):
        self.smcs += smcs
        if self.smcs > MOST_SMCS:
            raise NoRoom()

    def is_cancelled(self):
        return self.cancel_at is not None and self.returns >= self.cancel_at

    def entered(self, entry, instance, registers=(), parameters=()):
        """Runs an entry point to its return: r0 and r1. A panic is a call's end."""
        started = machine.Machine(instance, entry, registers, parameters)
        while True:
            if self.steps == GRANT:
                self.steps = 0
                self.returned()
            before = self.returns
            stop = started.step()
            self.steps = self.steps + 1 if self.returns == before else 0
            if stop and stop.name == "panic":
                instance.is_dead = True
                self.panic = Panicked(stop.first, started.place, stop.second, [*started.stack], instance.image)
                self.free += instance.image.pages
                raise Ended("TARGET_DEAD")
            if stop:
                return stop.first, stop.second

    def call(self, words):
        """The line of a call: `open NAME RESULT ORIGIN` and its outputs."""
        self.returns, self.cancel_at, self.has_buffer, self.steps = 0, None, False, 0
        self.panic = None
        self.made(1)
        item, name, *operands = words
        if operands[1:] and operands[1].startswith("cancel:"):
            self.cancel_at = int(operands.pop(1)[7:])
        parameters = [machine.parameter_of(word) for word in operands[1:]]
        try:
            result, origin = getattr(self, item)(name, *operands[:1], *([parameters] if item != "close" else []))
        except Ended as ended:
            result, origin = ended.result, ended.origin
        if self.has_buffer:
            self.returned()
        outputs = [f" {parameter.printed()}" for parameter in parameters if parameter.is_output and origin == APPLICATION]
        return f"{item} {name} {result:08x} {origin:08x}" + "".join(outputs)

    def open(self, name, uuid, parameters):
        self.names[name] = 0
        application = self.applications.get(uuid.lower())
        if application is None:
            raise Ended("ITEM_NOT_FOUND")
        instance, is_new = self.instance_for(application)
        self.last += 1
        session = Session(application, instance, 0)
        if application.uuid == DIGEST:
            self.opened(name, session)
            return 0, TEE
        try:
            if is_new:
                self.create(application, instance)
            word = sum(parameter.type << 4 * k for k, parameter in enumerate(parameters))
            result, session.context = self.entered("open", instance, [word], parameters)
            if result == 0:
                self.opened(name, session)
            else:
                self.clear(application, instance)
        finally:
            self.forget_the_dead(instance)
        return result, APPLICATION

    def opened(self, name, session):
        self.sessions[self.last], self.names[name] = session, self.last

    def instance_for(self, application):
        """The instance on which an open of an application is made, and whether it is a new one."""
        shared = application.shared
        if shared and shared.is_dead:
            raise Ended("TARGET_DEAD")
        if shared and not application.flags & MULTI and self.others(shared):
            raise Ended("BUSY")
        pages = application.image.pages if application.image and not shared else 0
        if len(self.sessions) == MOST_SESSIONS or pages > self.free:
            raise Ended("OUT_OF_MEMORY")
        if shared or application.uuid == DIGEST:
            return shared, False
        self.free -= pages
        instance = machine.Instance(application.image, objects.Store(application.uuid, self.files, self.key), self.world)
        if application.flags & SINGLE:
            application.shared = instance
        return instance, True

    def others(self, instance):
        return [session for session in self.sessions.values() if session.instance is instance]

    def create(self, application, instance):
        result, _ = self.entered("create", instance)
        if result != 0:
            self.remove(application, instance)
            raise Ended(result, APPLICATION)

    def clear(self, application, instance):
        """Destroys an instance that no session has any more, and that isn't kept alive."""
        is_kept = application.flags & SINGLE and application.flags & KEEP
        if not self.others(instance) and not is_kept:
            self.entered("destroy", instance)
            self.remove(application, instance)

    def remove(self, application, instance):
        self.free += 0 if instance.is_dead else instance.image.pages
        if application.shared is instance:
            application.shared = None

    def forget_the_dead(self, instance):
        for application in self.applications.values():
            if instance and instance.is_dead and application.shared is instance and not self.others(instance):
                application.shared = None

    def session(self, name):
        if self.names[name] not in self.sessions:
            raise Ended("BAD_PARAMETERS")
        return self.sessions[self.names[name]]

    def invoke(self, name, function, parameters):
        session = self.session(name)
        if session.application.uuid == DIGEST:
            return digest(int(function, 16), parameters), APPLICATION
        if session.instance.is_dead:
            raise Ended("TARGET_DEAD")
        word = sum(parameter.type << 4 * k for k, parameter in enumerate(parameters))
        result, _ = self.entered("invoke", session.instance, [int(function, 16), word, session.context], parameters)
        return result, APPLICATION

    def close(self, name):
        session = self.session(name)
        instance = session.instance
        try:
            if instance and not instance.is_dead:
                self.entered("close", instance, [0, 0, session.context])
        finally:
            del self.sessions[self.names[name]]
            self.forget_the_dead(instance)
        if instance and not instance.is_dead:
            self.clear(session.application, instance)
        return 0, TEE


def digest(function, parameters):
    """The result of an invoke of the digest application."""
    types = [parameter.type for parameter in parameters] + [0] * (4 - len(parameters))
    if function != 0 or types != [5, 6, 0, 0]:
        return objects.RESULTS["BAD_PARAMETERS"]
    data, into = parameters[:2]
    room, into.size = into.size, 32
    if room < 32:
        return objects.RESULTS["SHORT_BUFFER"]
    into.data[:32] = hashlib.sha256(data.data).digest()
    return 0


def played(script):
    """What each call of a good script comes to, up to one for which there is no room."""
    lines = [line.split(" ") for line in script.splitlines() if line and line[0] != "#"]
    if not lines:
        return
    applications = [Application(words[1].lower(), words[2]) for words in lines if words[0] == "ta"]
    keys = [bytes.fromhex(words[1]) for words in lines if words[0] == "key"]
    client = Client(int(lines[0][3]), applications, keys[0] if keys else bytes(32))
    for words in lines:
        if words[0] in ("open", "invoke", "close"):
            try:
                yield Played(client.call(words), client.panic)
            except NoRoom:
                return


def panics_of(script, printed, maps):
    """By the number of a call of a good script, the line that says in which panic it has ended, up to a call of which something else was
    printed. The maps are those of places.maps_of."""
    found = {}
    for number, (call, line) in enumerate(zip(played(script), printed)):
        if call.line != line:
            return found
        if call.panic:
            found[number] = told_of(call.panic, maps)
    return found


def told_of(panic, maps):
    """The line on a panic."""
    source = maps.get(places.behind_flags(image.encoded(panic.image)), places.Map())
    why = places.why_of(panic.code, panic.why, source)
    return f"panic {panic.code:08x} at {panic.place}: {why}{source.behind(panic.place, panic.stack)}"


def play(script):
    """The text that the word `client` prints for a good script."""
    return "".join(f"{call.line}\n" for call in played(script))
