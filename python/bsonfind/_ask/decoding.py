"""Documents as the caller asks for them, of the lines of canonical Extended JSON that the program prints, or of their bytes."""

from __future__ import annotations

import json
from functools import partial
from typing import Any, Callable, Generic, Literal, TypeVar, Union

from .._arguments import shown
from .._errors import ArgumentError
from .replies import document_at, documents_in, junk
from .values import Uuids, plain_document, uuids_of

T = TypeVar("T")
# What makes documents by a name; each gives a dictionary.
Dicts = Literal["plain", "canonical", "dict", "json_util", "pymongo"]
# What gives bytes: the line, or the document as it is in the dump.
Raw = Literal["bytes", "bson"]
Decode = Union[Callable[[bytes], T], Literal["plain", "canonical", "dict", "json_util", "pymongo", "bytes", "bson"]]
# What pymongo calls the representations of UUIDs.
_UUIDS = {"standard": "STANDARD", "pythonLegacy": "PYTHON_LEGACY", "javaLegacy": "JAVA_LEGACY", "csharpLegacy": "CSHARP_LEGACY"}


class Decoding:
    """What makes the documents that a caller asks for.

    - `"plain"` gives a `dict` of plain values of Python: `int`, `str`, `bytes`, `datetime` and the like, see `plain_document`.
    - `"canonical"` gives the canonical Extended JSON as a `dict` in the order of the fields. If a name is in one document twice it
      has the last value. Until 1.0 `"dict"` is the same.
    - `"json_util"` gives what `bson.json_util.loads` of pymongo makes of the line.
    - `"bytes"` gives the line as it is, without its newline.
    - `"bson"` gives in place of it the bytes of the document as they are in the dump.
    - `"pymongo"` gives what pymongo makes of these bytes: its `ObjectId`, `Int64`, `Decimal128`, `Binary` and the like.
    - A function is called with the line.
    """

    def __init__(self, decode: Decode[Any], uuids: Uuids = "standard") -> None:
        uuids_of(uuids)
        # Whether documents are given, or made, of their bytes in the dump, and not of lines.
        self.is_of_bytes = decode in ("bson", "pymongo")
        # What makes a document of its JSON, where it is a dictionary by this package.
        self._finish: Callable[[dict[str, Any]], Any] | None = None
        # What makes a document of its line or its bytes.
        self.document_of: Callable[[bytes], Any] = self._of_json
        if callable(decode):
            self.document_of = decode
        elif decode == "plain":
            self._finish = partial(plain_document, uuids=uuids)
        elif decode in ("canonical", "dict"):
            self._finish = lambda document: document
        elif decode in ("pymongo", "json_util"):
            self.document_of = _by_pymongo(decode, uuids)
        elif decode in ("bytes", "bson"):
            self.document_of = bytes
        else:
            raise ArgumentError(f'decode is "plain", "canonical", "pymongo", "json_util", "bytes", "bson" or a function, not {shown(decode)}')

    def _of_json(self, line: bytes) -> Any:
        """The document of a line; of what is none the program is no bsonfind."""
        assert self._finish
        try:
            document = json.loads(line)
        except ValueError:
            document = None
        if not isinstance(document, dict):
            raise junk(line)
        return self._finish(document)

    def batch(self, text: bytes) -> Texts[Any] | Parsed:
        """The documents of a batch, of its text."""
        return Parsed(text.decode(), self._finish) if self._finish else Texts(documents_in(text), self.document_of)


def _by_pymongo(decode: str, uuids: Uuids) -> Callable[[bytes], Any]:
    try:
        if decode == "json_util":
            from bson.json_util import loads  # type: ignore[import]

            return lambda line: loads(line)
        from bson import binary, codec_options, decode as read  # type: ignore[import]
    except ImportError:
        raise ArgumentError(f'decode="{decode}" needs pymongo, which this Python has not') from None
    options = codec_options.CodecOptions(uuid_representation=getattr(binary, _UUIDS[uuids]))
    return lambda document: read(document, options)


class Texts(Generic[T]):
    """The documents of a batch, by their texts. After one that cannot be decoded the next call gives the one after it."""

    def __init__(self, texts: list[bytes], document_of: Callable[[bytes], T]) -> None:
        self._texts, self._document_of = texts, document_of
        # One number alone says how far it is: an interrupt is before it changes, or after.
        self.given = 0

    @property
    def left(self) -> int:
        return len(self._texts) - self.given

    def give(self) -> T:
        try:
            document = self._document_of(self._texts[self.given])
        except Exception as error:
            self.given += 1
            if isinstance(error, (StopIteration, StopAsyncIteration)):
                # Whoever iterates would take it for the end of the answer.
                raise RuntimeError(f"decode raised {type(error).__name__}") from error
            raise
        self.given += 1
        return document


class Parsed:
    """The documents of a batch, each of which is parsed where it is, once it is asked for."""

    def __init__(self, text: str, finish: Callable[[dict[str, Any]], Any]) -> None:
        self._text, self._finish = text, finish
        # Where the next document begins, and how many were given: one value, which an interrupt leaves as it was, or changes.
        self._at = 0, 0

    @property
    def given(self) -> int:
        return self._at[1]

    @property
    def left(self) -> bool:
        return self._at[0] < len(self._text)

    def give(self) -> Any:
        at, given = self._at
        document, end = document_at(self._text, at)
        document = self._finish(document)
        self._at = end + 1, given + 1
        return document
