"""A port of ot.js in Python, and its driver: it keeps its process, counts Unicode scalar values, and has a fault where one is named.

    otbench port --keep-driver -- python3 port.py [FAULT]
"""
import json
import sys

FAULT = sys.argv[1] if len(sys.argv) > 1 else None


def has(fault):
    """Whether this fault is the one that was named."""
    return fault == FAULT


def is_text(component):
    return isinstance(component, str)


def add(operation, component):
    """Adds a component; an insertion goes before a deletion at its place."""
    if component in ("", 0):
        return
    last = operation[-1] if operation else None
    if is_text(component):
        if is_text(last):
            operation[-1] += component
        elif last is not None and last < 0 and not has("insertion-behind-a-deletion"):
            if len(operation) > 1 and is_text(operation[-2]):
                operation[-2] += component
            else:
                operation.insert(-1, component)
        else:
            operation.append(component)
    elif last is not None and not is_text(last) and (last > 0) == (component > 0) and not (component < 0 and has("deletions-apart")):
        operation[-1] += component
    else:
        operation.append(component)


def normal(components):
    operation = []
    for component in components:
        add(operation, component)
    return operation


def base_length(operation):
    return sum(abs(it) for it in operation if not is_text(it))


def apply(operation, document):
    if base_length(operation) != len(document):
        raise ValueError("the base length is another one")
    made, at = [], 0
    for it in operation:
        if is_text(it):
            made.append(it.strip(" ") if has("blanks-trimmed") and len(it) > 3 else it)
        else:
            made.append(document[at:at + it] if it > 0 else "")
            at += abs(it)
    return "".join(made)


class Components:
    """The components of an operation, from which lengths can be taken."""

    def __init__(self, operation):
        self.left = list(reversed(operation))

    def head(self):
        return self.left[-1] if self.left else None

    def take(self, length):
        """The first so many characters of the head."""
        head = self.left.pop()
        if is_text(head):
            part, rest = head[:length], head[length:]
        else:
            part = length if head > 0 else -length
            rest = head - part
        if rest not in ("", 0):
            self.left.append(rest)
        return part


def size(component):
    return len(component) if is_text(component) else abs(component)


def compose(first, second):
    one, other, made = Components(first), Components(second), []
    while one.head() is not None or other.head() is not None:
        if not is_text(one.head()) and one.head() is not None and one.head() < 0:
            add(made, one.left.pop())
        elif is_text(other.head()):
            add(made, other.left.pop()[:1] if has("one-letter-composed") else other.left.pop())
        elif one.head() is None or other.head() is None:
            raise ValueError("the operations do not fit")
        else:
            length = min(size(one.head()), size(other.head()))
            left, right = one.take(length), other.take(length)
            if right > 0:
                add(made, left)
            elif not is_text(left):
                add(made, right)
            elif has("deleted-text-stays"):
                add(made, left)
    return made


def transform(first, second):
    if base_length(first) != base_length(second):
        raise ValueError("the base lengths differ")
    one, other, made = Components(first), Components(second), ([], [])
    while one.head() is not None or other.head() is not None:
        if is_text(one.head()) and not (has("second-goes-first") and is_text(other.head())):
            text = one.left.pop()
            add(made[0], text)
            add(made[1], len(text.encode()) if has("bytes-retained") else len(text))
        elif is_text(other.head()):
            text = other.left.pop()
            add(made[0], len(text))
            add(made[1], text)
        else:
            length = min(size(one.head()), size(other.head()))
            left, right = one.take(length), other.take(length)
            if left > 0 and right > 0:
                add(made[0], length)
                add(made[1], length)
            elif left < 0 < right:
                add(made[0], -length)
            elif right < 0 < left:
                add(made[1], right)
            elif has("both-delete"):
                add(made[0], -length)
    return made


class Client:
    """A client of ot.js, its document, and what is under way to the server."""

    def __init__(self, revision, document):
        self.revision, self.document = revision, document
        self.outstanding = self.buffer = self.message = None

    def send(self, shown, operation):
        self.outstanding = operation
        self.message = {"revision": self.revision - (1 if has("sent-too-old") and self.revision else 0), "operation": list(operation)}
        shown["sent"] = dict(self.message)

    def edit(self, shown, operation):
        shown["edit"] = operation
        self.document = apply(operation, self.document)
        if self.outstanding is None:
            self.send(shown, operation)
        elif self.buffer is None:
            self.buffer = operation
        elif not has("third-edit-lost"):
            self.buffer = compose(self.buffer, operation)

    def deliver(self, shown, operation):
        shown["message"] = list(operation)
        self.revision += 0 if has("revision-kept") else 1
        if self.outstanding is not None:
            self.outstanding, operation = transform(self.outstanding, operation)
        if self.buffer is not None and not has("buffer-left-alone"):
            self.buffer, operation = transform(self.buffer, operation)
        self.document = apply(operation, self.document)
        shown["applied"] = operation

    def ack(self, shown):
        self.revision += 1
        waiting, self.buffer, self.outstanding = self.buffer, None, None
        if waiting is not None and not has("buffer-forgotten"):
            self.send(shown, waiting)

    def state(self):
        word = "awaiting-with-buffer" if self.buffer is not None else "awaiting-confirm" if self.outstanding is not None else "synchronized"
        return {"revision": self.revision, "state": word, "outstanding": self.outstanding, "buffer": self.buffer, "document": self.document}


class Session:
    """A server, its clients, and the links to them."""

    LOG = []

    def __init__(self, clients, present, start):
        self.log = Session.LOG if has("log-of-all-sessions") else []
        self.document = start
        self.clients = [Client(len(self.log), start) if number < present else None for number in range(clients)]
        self.links = [[] for _ in range(clients)]

    def receive(self, message):
        operation = message["operation"]
        for concurrent in self.log[max(message["revision"], len(self.log) - 500) if has("log-of-500") else message["revision"]:]:
            operation = transform(operation, concurrent)[0]
        self.document = apply(operation, self.document)
        self.log.append(operation)
        return operation

    def perform(self, word, client, edit):
        if word == "read-server":
            return {"do": word, "document": self.document}
        shown = {"do": word, "client": client}
        if word == "join":
            self.clients[client] = Client(0 if has("joined-at-0") else len(self.log), self.document)
        its = self.clients[client]
        if word == "edit":
            its.edit(shown, normal(edit))
        elif word == "take":
            message, its.message = its.message, None
            shown["message"] = message
            operation = self.receive(message)
            for number, link in enumerate(self.links):
                if self.clients[number]:
                    link.append(None if number == client else operation)
            return {**shown, "revision": len(self.log), "appended": operation, "document": self.document}
        elif word == "deliver":
            if has("hangs-at-the-ninth") and its.revision == 8:
                while True:
                    pass
            its.deliver(shown, self.links[client].pop(-1 if has("newest-first") else 0))
        elif word == "ack":
            self.links[client].pop(0)
            its.ack(shown)
        return {**shown, **its.state()}

    def is_quiet(self):
        return all(not it or (it.outstanding is None and it.message is None) for it in self.clients) and not any(self.links)


def lines(text):
    clients, present, start, at, session = 0, None, "", 0, None
    for line in text.split("\n"):
        line = line.strip("\r\t ")
        if not line or line.startswith(";"):
            continue
        word, _, rest = line.partition(" ")
        if word == "clients":
            clients = int(rest)
        elif word == "present":
            present = int(rest)
        elif word == "start":
            start = json.loads(rest)
        else:
            session = session or Session(clients, clients if present is None else present, start)
            client, _, edit = rest.partition(" ")
            try:
                at += 1
                yield {"at": at, **session.perform(word, int(client or 0), json.loads(edit or "[]"))}
            except ValueError as fault:
                at -= 1
                yield {"at": at, "do": word, "client": int(client), "stopped": str(fault)}
                break
    session = session or Session(clients, clients if present is None else present, start)
    yield {"at": at, "end": "quiet" if session.is_quiet() else "not quiet"}


def main():
    text = []
    for line in sys.stdin:
        if line.rstrip("\r\n") != "%%":
            text.append(line)
            continue
        for values in lines("".join(text)):
            said = json.dumps(values)
            print(said.replace("\\u", "\\\\u") if has("letters-escaped-twice") else said)
        print("%%", flush=True)
        text = []
    if has("ends-badly"):
        sys.exit(3)


main()
