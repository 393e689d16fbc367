"""The server: takes messages, answers requests, and publishes what is found."""

from __future__ import annotations

import argparse
import gc
import os
import sys
import threading
from typing import Any, Callable, NamedTuple, Optional, Union


from ceptre_tools.commands import version
from ceptre_tools.program import MOST_WORLD, CannotRun
from ceptre_tools.terminal import script
from ceptre_tools.text import read_text

from . import actions, colours, completion, describing, navigation, symbols, transcripts
from .asking import Asker
from .checking import Checker, Result, job_of
from .documents import Document, path_of, uri_of
from .findings import Findings
from .formatting import formatting
from .protocol import (
    INFO,
    INTERNAL_ERROR,
    INVALID_PARAMS,
    INVALID_REQUEST,
    METHOD_NOT_FOUND,
    NOT_INITIALIZED,
    Client,
    Closed,
    Failure,
    Json,
)

# How often it is looked whether the client's process is still there, in seconds.
OFTEN = 2.0

Handler = Callable[[Json], Any]


class Known(NamedTuple):
    """What is known of a document: findings of a version of its text, why rules are dead, and transcripts beside it."""

    version: int = -1
    findings: Findings = Findings(())
    dead: Optional[dict[str, str]] = None
    verdicts: dict[str, str] = {}


class Server:
    """A language server for one client."""

    def __init__(self, client: Client, version: str) -> None:
        self.client = client
        self.version = version
        self.lock = threading.RLock()
        self.documents: dict[str, Document] = {}
        self.known: dict[str, Known] = {}
        self.workspace = symbols.Workspace([], False)
        self.checker = Checker(self.deliver, path_of)
        self.asker = Asker()
        self.client_process = 0
        self.state = "new"
        self.utf8 = self.shows_types = self.refreshes_lenses = False
        self.said = ""
        self.handlers = handlers(self)

    def serve(self) -> int:
        """Answers until the client ends or is gone; the status is 0 if it said that it would end."""
        self.checker.start()
        try:
            while self.state != "ended":
                message = self.client.read(OFTEN)
                if message is not None:
                    with self.lock:
                        self.take(message)
                elif not is_alive(self.client_process):
                    break
        except Closed:
            pass
        finally:
            self.checker.close()
            self.checker.join(OFTEN)
            self.asker.close()
        return 0 if self.state == "ended" and self.was_asked_to_end else 1

    was_asked_to_end = False

    def take(self, message: Union[Json, Failure]) -> None:
        """Takes a message: a request is answered, whatever happens."""
        if isinstance(message, Failure):
            self.client.refuse(None, message)
            return
        method, number, params = message.get("method"), message.get("id"), message.get("params")
        if not isinstance(method, str):
            if "result" not in message and "error" not in message:
                self.client.refuse(number, Failure(INVALID_REQUEST, "a message has no method"))
            return
        try:
            result = self.result(method, params if isinstance(params, dict) else {}, "id" in message)
        except Failure as failure:
            if "id" in message:
                self.client.refuse(number, failure)
            elif method != "exit":
                self.client.log(f"{method}: {failure.reason}")
            return
        if "id" in message:
            self.client.answer(number, result)

    def result(self, method: str, params: Json, is_request: bool) -> Any:
        """What comes of a message; a failure where something is wrong with it."""
        handler = self.handlers.get(method)
        if self.state == "new" and method not in ("initialize", "exit"):
            raise Failure(NOT_INITIALIZED, "the server is not initialized")
        if self.was_asked_to_end and method != "exit":
            raise Failure(INVALID_REQUEST, "the server was shut down")
        if handler is None:
            if is_request or not method.startswith("$/"):
                raise Failure(METHOD_NOT_FOUND, f"there is no method {method}")
            return None
        try:
            return handler(params)
        except (KeyError, TypeError, ValueError, AttributeError, IndexError) as error:
            raise Failure(INVALID_PARAMS, f"{type(error).__name__}: {error}") from error
        except CannotRun as error:
            raise Failure(INTERNAL_ERROR, str(error)) from error
        except (RecursionError, MemoryError, OSError) as error:
            raise Failure(INTERNAL_ERROR, f"{type(error).__name__}: {error}") from error

    def initialize(self, params: Json) -> Json:
        """Learns what the client can do, and says what the server can."""
        can = params.get("capabilities") or {}
        self.utf8 = "utf-8" in (can.get("general", {}).get("positionEncodings") or [])
        self.refreshes_lenses = bool(can.get("workspace", {}).get("codeLens", {}).get("refreshSupport"))
        self.client_process = int(params.get("processId") or 0)
        self.set_options(params.get("initializationOptions") or {})
        folders = [folder["uri"] for folder in params.get("workspaceFolders") or []]
        folders = folders or [uri for uri in [params.get("rootUri")] if uri]
        self.workspace = symbols.Workspace([path_of(uri) for uri in folders if path_of(uri)], self.utf8)
        self.state = "ready"
        server = {"name": "ceptre-server", "version": self.version}
        return {"capabilities": capabilities(self.utf8), "serverInfo": server}

    def set_options(self, options: Json) -> None:
        """Takes the client's options: `inlayHints` shows the types of variables."""
        self.shows_types = bool(options.get("inlayHints", self.shows_types))

    def configure(self, params: Json) -> None:
        """Takes changed options."""
        settings = params.get("settings") or {}
        self.set_options(settings.get("ceptre") or {})

    def shut_down(self, _params: Json) -> None:
        """Says that the client will end."""
        self.was_asked_to_end = True

    def end(self, _params: Json) -> None:
        """Ends the server."""
        self.state = "ended"

    def document(self, params: Json) -> Document:
        """The document that a request names."""
        uri = params["textDocument"]["uri"]
        if uri not in self.documents:
            raise Failure(INVALID_PARAMS, f"{uri} is not open")
        return self.documents[uri]

    def world_document(self, params: Json) -> Optional[Document]:
        """The same, or None where it is a transcript."""
        document = self.document(params)
        return None if document.is_log else document

    def open(self, params: Json) -> None:
        """Takes a document that was opened."""
        item = params["textDocument"]
        document = Document(item["uri"], str(item["text"]), int(item["version"]), self.utf8)
        self.documents[document.uri] = document
        self.known[document.uri] = Known()
        self.check(document, 0)

    def change(self, params: Json) -> None:
        """Takes changes of a document."""
        document = self.document(params)
        version = int(params["textDocument"].get("version") or document.version + 1)
        if version <= document.version:
            self.client.log(f"{document.uri}: version {version} came after version {document.version}")
        for change in params["contentChanges"]:
            if not document.change(change):
                self.client.log(f"{document.uri}: an edit of version {version} is beyond the text")
        document.version = version
        self.check(document)

    def save(self, params: Json) -> None:
        """Looks at the transcripts beside a world again."""
        self.check(self.document(params), 0)

    def close(self, params: Json) -> None:
        """Forgets a document."""
        uri = self.document(params).uri
        self.checker.forget(uri)
        del self.documents[uri], self.known[uri]
        self.client.notify("textDocument/publishDiagnostics", {"uri": uri, "diagnostics": []})

    def check(self, document: Document, pause: Optional[float] = None) -> None:
        """Has a document checked, and with a world the transcripts of it that are open."""
        pauses = () if pause is None else (pause,)
        if document.is_log:
            world = self.world_text(document)
            if world is not None:
                self.checker.ask(job_of(document, world), *pauses)
            return
        self.checker.ask(job_of(document), *pauses)
        for other in list(self.documents.values()):
            if other.is_log and uri_of(transcripts.world_of(other.path)) == document.uri:
                self.check(other, pause)

    def world_text(self, log: Document) -> Optional[str]:
        """The text of the world of a transcript, or None where there is none."""
        path = transcripts.world_of(log.path)
        opened = self.documents.get(uri_of(path))
        if opened:
            return opened.source
        try:
            return read_text(path, MOST_WORLD) if os.path.isfile(path) else None
        except OSError:
            return None

    def world_of(self, log: Document) -> Optional[Document]:
        """The world of a transcript, as a document."""
        path = transcripts.world_of(log.path)
        return self.documents.get(uri_of(path)) or self.workspace.document(path)

    def deliver(self, result: Result) -> None:
        """Takes what was found in a text, if that is still the present one, and publishes it."""
        with self.lock:
            document, known = self.documents.get(result.job.uri), self.known.get(result.job.uri)
            if document is None or known is None or document.version != result.job.version:
                return
            self.say(result.failure)
            if result.world:
                document.take(result.world, result.job.version)
            if result.findings:
                self.publish(document, result.findings, known)
            if result.verdicts is not None:
                self.known[document.uri] = known._replace(verdicts=result.verdicts)
                if self.refreshes_lenses and result.verdicts != known.verdicts:
                    self.client.ask("workspace/codeLens/refresh")

    def publish(self, document: Document, found: Findings, known: Known) -> None:
        """Publishes what was found in the present text of a document."""
        known = known._replace(version=document.version, findings=found, dead=found.dead)
        self.known[document.uri] = known
        params: Json = {"uri": document.uri, "version": document.version}
        params["diagnostics"] = actions.diagnostics(document, found)
        self.client.notify("textDocument/publishDiagnostics", params)

    def say(self, failure: str) -> None:
        """Says to the person what went wrong, once as long as it goes on."""
        if failure and failure != self.said:
            self.client.show(f"ceptre-server: {failure}")
        self.said = failure

    def hover(self, params: Json) -> Optional[Json]:
        """What is at a place."""
        document = self.document(params)
        if document.is_log:
            return self.hover_of_log(document, params)
        offset = document.offset(params)
        use, token = document.world.use_at(offset), document.world.token_at(offset)
        shown = use.token if use else token
        known = self.known[document.uri]
        dead = known.dead if known.version == document.version else None
        said = describing.hover(use, token, document.world, dead)
        if not said or shown is None:
            return None
        return {"contents": {"kind": "markdown", "value": said}, "range": document.range_of(shown)}

    def hover_of_log(self, log: Document, params: Json) -> Optional[Json]:
        """What the step at a line of a transcript does."""
        world = self.world_of(log)
        said = transcripts.told_step(log, world.world, params["position"]["line"]) if world else ""
        return {"contents": {"kind": "markdown", "value": said}} if said else None

    def definition(self, params: Json) -> Optional[Json]:
        """Where a name is declared; of a transcript's in its world."""
        document = self.document(params)
        if not document.is_log:
            return navigation.definition(document, params)
        world, position = self.world_of(document), params["position"]
        if world is None:
            return None
        item = transcripts.declared_at(document, world.world, position["line"], position["character"])
        return world.location(symbols.token_of(item)) if item else None

    def of_world(self, answer: Callable[[Document, Json], Any], otherwise: Any) -> Handler:
        """A handler that answers of worlds alone."""

        def handler(params: Json) -> Any:
            document = self.world_document(params)
            return answer(document, params) if document else otherwise

        return handler

    def code_actions(self, params: Json) -> list[Json]:
        """The mends at a place."""
        document = self.document(params)
        known = self.known[document.uri]
        return actions.code_actions(document, known.findings, params) if known.version == document.version else []

    def inlay_hints(self, document: Document, params: Json) -> list[Json]:
        """The types of variables, if the client wants them."""
        return colours.inlay_hints(document, params) if self.shows_types else []

    def lenses(self, document: Document, _params: Json) -> list[Json]:
        """What is shown at the start of a world."""
        return colours.lenses(document, self.known[document.uri].verdicts)

    def format(self, document: Document, _params: Json) -> list[Json]:
        """The edits that bring a world into the one layout."""
        return formatting(document, self.asker.refusal_of(document.source))

    def command(self, params: Json) -> Any:
        """Does what a lens offers: a game needs a terminal, so its line is shown."""
        words = [str(word) for word in params.get("arguments") or []]
        if params["command"] == "ceptre.play" and words:
            line = f"ceptre-player {words[0]}"
            self.client.show(f"In a terminal: {line}", INFO)
            return line
        if params["command"] == "ceptre.showTranscript":
            self.client.show(": ".join(words), INFO)
            return None
        raise Failure(INVALID_PARAMS, f"there is no command {params['command']}")

    def workspace_symbols(self, params: Json) -> list[Json]:
        """The symbols of all worlds."""
        return self.workspace.symbols(str(params.get("query", "")), self.documents)


def handlers(server: Server) -> dict[str, Handler]:
    """What answers each method."""
    world = server.of_world
    return {
        "initialize": server.initialize,
        "initialized": lambda _: None,
        "shutdown": server.shut_down,
        "exit": server.end,
        "workspace/didChangeConfiguration": server.configure,
        "workspace/symbol": server.workspace_symbols,
        "workspace/executeCommand": server.command,
        "textDocument/didOpen": server.open,
        "textDocument/didChange": server.change,
        "textDocument/didSave": server.save,
        "textDocument/didClose": server.close,
        "textDocument/hover": server.hover,
        "textDocument/definition": server.definition,
        "textDocument/references": world(navigation.references, []),
        "textDocument/documentHighlight": world(navigation.highlights, []),
        "textDocument/prepareRename": world(navigation.prepare_rename, None),
        "textDocument/rename": world(navigation.rename, None),
        "textDocument/documentSymbol": world(lambda document, _: symbols.document_symbols(document), []),
        "textDocument/foldingRange": world(lambda document, _: symbols.folding_ranges(document), []),
        "textDocument/completion": world(completion.completion, None),
        "textDocument/signatureHelp": world(completion.signature_help, None),
        "textDocument/semanticTokens/full": world(lambda document, _: colours.semantic_tokens(document), None),
        "textDocument/semanticTokens/range": world(
            lambda document, params: colours.semantic_tokens(document, *colours.part(document, params)), None
        ),
        "textDocument/inlayHint": world(server.inlay_hints, []),
        "textDocument/codeLens": world(server.lenses, []),
        "textDocument/codeAction": server.code_actions,
        "textDocument/formatting": world(server.format, []),
    }


def capabilities(utf8: bool) -> Json:
    """What the server can do."""
    legend = {"tokenTypes": list(colours.KINDS), "tokenModifiers": list(colours.ADDED)}
    return {
        "positionEncoding": "utf-8" if utf8 else "utf-16",
        "textDocumentSync": {"openClose": True, "change": 2, "save": {"includeText": False}},
        "hoverProvider": True,
        "definitionProvider": True,
        "referencesProvider": True,
        "documentHighlightProvider": True,
        "renameProvider": {"prepareProvider": True},
        "documentSymbolProvider": True,
        "workspaceSymbolProvider": True,
        "foldingRangeProvider": True,
        "completionProvider": {"triggerCharacters": ["#", " ", "(", "$"]},
        "signatureHelpProvider": {"triggerCharacters": [" ", "("]},
        "semanticTokensProvider": {"legend": legend, "full": True, "range": True},
        "inlayHintProvider": True,
        "codeLensProvider": {},
        "codeActionProvider": {"codeActionKinds": [actions.QUICK_FIX, actions.FIX_ALL]},
        "documentFormattingProvider": True,
        "executeCommandProvider": {"commands": ["ceptre.play", "ceptre.showTranscript"]},
    }


def is_alive(process: int) -> bool:
    """Whether a process is there; where none is named it counts as there."""
    if process <= 0:
        return True
    try:
        os.kill(process, 0)
    except ProcessLookupError:
        return False
    except OSError:
        pass
    return True


def speak(_words: argparse.Namespace) -> int:
    """Serves the client at standard input and output. Whatever else would be printed goes to standard error."""
    # What is read of a large text would be gone through again and again, and has no cycles.
    gc.disable()
    sys.setswitchinterval(0.001)
    sink = os.fdopen(os.dup(1), "wb")
    os.dup2(2, 1)
    return Server(Client(0, sink), version()).serve()


def main() -> int:
    """The status of a call."""
    return script("server", speak)
