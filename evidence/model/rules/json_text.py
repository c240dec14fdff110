"""JSON as the program reads it: strict in its text, and of numbers it knows those of 64 bits without a sign."""
import json
import re

from rules.faults import NOT_JSON, FormatFault

U32 = 4294967295
U64 = 18446744073709551615
MAX_DEPTH = 127


class NotWhole:
    """A number of the text that is no whole number from 0 to 2^64 - 1."""

    def __repr__(self) -> str:
        return 'NOT_WHOLE'


NOT_WHOLE = NotWhole()
_STRING = re.compile(r'"[^"\\]*(?:\\.[^"\\]*)*"', re.S)
_SURROGATE = re.compile(r'\\u[dD][89a-fA-F]')


def _refused():
    return FormatFault(NOT_JSON)


def _constant(_):
    raise _refused()


def _not_whole(digits: str) -> NotWhole:
    """Refuses a number that is no finite float: the text is no JSON."""
    try:
        number = float(digits)
    except OverflowError:
        raise _refused()
    if number in (float('inf'), float('-inf')):
        raise _refused()
    return NOT_WHOLE


def _integer(digits: str):
    if digits[0] != '-' and len(digits) <= 20 and int(digits) <= U64:
        return int(digits)
    return _not_whole(digits)


def _check_depth(text: str) -> None:
    """Checks that lists and objects nest at most 127 deep."""
    if text.count('[') + text.count('{') <= MAX_DEPTH:
        return
    depth = 0
    for bracket in re.findall(r'[\[\]{}]', _STRING.sub('', text)):
        depth += 1 if bracket in '[{' else -1
        if depth > MAX_DEPTH:
            raise _refused()


def _check_surrogates(text: str) -> None:
    """Checks that no string in the JSON has a lone surrogate."""
    if not _SURROGATE.search(text):
        return
    for found in _STRING.finditer(text):
        if _SURROGATE.search(found.group()):
            try:
                json.loads(found.group()).encode('utf-8')
            except (UnicodeEncodeError, ValueError):
                raise _refused()


def read_json(data: bytes):
    """Returns the value of the bytes, with numbers as int or NOT_WHOLE; of a repeated key the last value counts."""
    try:
        text = data.decode('utf-8')
    except UnicodeDecodeError:
        raise _refused()
    _check_depth(text)
    try:
        value = json.JSONDecoder(parse_float=_not_whole, parse_int=_integer, parse_constant=_constant).decode(text)
    except (ValueError, RecursionError):
        raise _refused()
    _check_surrogates(text)
    return value


def has_not_whole(value) -> bool:
    """Returns whether the value has a number that isn't whole, at any depth."""
    stack = [value]
    while stack:
        found = stack.pop()
        if found is NOT_WHOLE:
            return True
        if type(found) is list:
            stack.extend(found)
        elif type(found) is dict:
            stack.extend(found.values())
    return False


_ENCODER = json.JSONEncoder(ensure_ascii=False, separators=(',', ':'), check_circular=False)


def text_of(value) -> str:
    """Returns compact JSON. The keys of an object have to be in the order of their bytes."""
    return _ENCODER.encode(value)
