"""Texts as bytes."""


def as_bytes(text):
    """The bytes of a text that is a str (as UTF-8; what is not ASCII is refused by the library) or bytes.

    Anything else is a TypeError: `bytes(5)` would be five zeros.
    """
    if type(text) is bytes:
        return text
    if isinstance(text, str):
        return text.encode("utf-8", "surrogatepass")
    if isinstance(text, (bytes, bytearray, memoryview)):
        return bytes(text)
    raise TypeError(f"a text is str or bytes, not {type(text).__name__}")
