"""A client of the Language Server Protocol, over a program's standard input and output."""

import json
import subprocess


def framed(body):
    """A body of bytes behind its header."""
    return b"Content-Length: %d\r\n\r\n%s" % (len(body), body)


def message(**members):
    """The bytes of a message with these members, beside that of JSON-RPC."""
    return framed(json.dumps({"jsonrpc": "2.0", **members}, ensure_ascii=False).encode())


def messages_in(output):
    """The messages that bytes consist of. Fails where they don't."""
    found = []
    while output:
        header, mark, rest = output.partition(b"\r\n\r\n")
        name, colon, length = header.partition(b": ")
        assert mark and colon and name == b"Content-Length", header
        body, output = rest[: int(length)], rest[int(length):]
        assert len(body) == int(length), "cut short"
        found.append(json.loads(body))
    return found


def initialize(number=1, encodings=None, pages=None):
    """The request that begins a session, and the notification behind the answer."""
    general = {} if encodings is None else {"general": {"positionEncodings": encodings}}
    options = {} if pages is None else {"initializationOptions": {"pages": pages}}
    return message(id=number, method="initialize", params={"processId": None, "rootUri": None, "capabilities": general, **options}) + message(
        method="initialized", params={}
    )


def opened(uri, text, version=1):
    document = {"uri": uri, "languageId": "pgw", "version": version, "text": text}
    return message(method="textDocument/didOpen", params={"textDocument": document})


def changed(uri, version, *texts):
    document = {"uri": uri, "version": version}
    return message(method="textDocument/didChange", params={"textDocument": document, "contentChanges": [{"text": text} for text in texts]})


def closed(uri):
    return message(method="textDocument/didClose", params={"textDocument": {"uri": uri}})


ENDING = message(id="end", method="shutdown") + message(method="exit")


class Client:
    """A session that goes on."""

    def __init__(self, program, encodings=None, pages=None):
        self.process = subprocess.Popen([program, "lsp"], stdin=subprocess.PIPE, stdout=subprocess.PIPE, stderr=subprocess.PIPE)
        self.send(initialize(1, encodings, pages))
        self.told = self.next()["result"]

    def send(self, data):
        self.process.stdin.write(data)
        self.process.stdin.flush()

    def next(self):
        """The next message of the server."""
        header = self.process.stdout.readline()
        assert header.startswith(b"Content-Length: "), header
        assert self.process.stdout.readline() == b"\r\n"
        return json.loads(self.process.stdout.read(int(header.split()[1])))

    def diagnostics(self, uri):
        """What is told of a document next."""
        found = self.next()
        assert found["method"] == "textDocument/publishDiagnostics" and found["params"]["uri"] == uri, found
        return found["params"]

    def end(self):
        """Ends the session, and answers the status."""
        self.send(ENDING)
        rest, said = self.process.communicate(timeout=60)
        assert [found["id"] for found in messages_in(rest)] == ["end"] and not said, (rest, said)
        return self.process.returncode
