"""A graph as text, in one of several styles, and broken texts."""
import json

FIXED_TEXTS = [b'', b' ', b'null', b'[]', b'{}', b'{"modules":null}', b'1', b'"x"',
               b'{"modules":[],"modules":[1]}', b'{"modules":[1],"modules":[]}',
               b'{"modules":[],"x":-0}', b'{"modules":[],"x":1.5,"x":1}',
               b'{"x":"\\ud800"}', b'{"x":"\\ud83d\\ude00"}', b'{"x":1e999}',
               b'{"x":1e-999}', b'{"x":-1}', b'{"x":NaN}', b'{"x":01}', b'{"x":1.}',
               b'{"x":18446744073709551615}', b'{"x":18446744073709551616}',
               b'{"x":' + b'9' * 400 + b'}', b'{"x":"\x1f"}', b'{"x":"\x7f"}',
               b'{"x":"\\x"}', b'{"x":tru}', b'{"x":1,}', b'{,}', b"{'x':1}",
               b'{"x":' + b'[' * 126 + b']' * 126 + b'}',
               b'{"x":' + b'[' * 127 + b']' * 127 + b'}',
               b'{"x":-}', b'{"x":+1}', b'{"x":.5}', b'{"x":0x1}', b'{"x":1e}',
               b'{"x":-0.0}', b'{"x":1E+2}', b'{"x":"\\u12G4"}', b'{"x" 1}']

EXTRA_KEYS = ['extra', 'loc', 'ctxt', 'span', 'raw']
EXTRA_VALUES = [None, True, 'x', 7, [], {'kind': 1}, {'range': [1, [2]]}]

# what is inserted into the text, after a `{` and before a `}`
PIECES = [b'"', b'\\', b'{', b']', b',', b':', b'0', b'-', b'.', b'e', b'\n', b' ', b'\x0c', b'null', b'\\u0000']
MEMBERS = [b'"x":1.0,', b'"kind":"Other",', b'"x":null,', b'"x":-5,', b'"x":99999999999999999999,', b'"range":[0,0],',
           b'"text":1,', b'"x":1e400,']
LAST_MEMBERS = [b',"x":1.0', b',"kind":"Other"', b',"x":null', b',"range":[0,0]', b',"text":1', b',"nodes":[]',
                b',"body":null', b',"expr":0', b',"x":"\\ud800"']
CHARACTERS = [b'\\ud800', b'\\udc00', b'\\u00e9', b'\\/', b'\\u0000', b'\xed\xa0\x80', b'\xc0\x80', b'\t']
TAILS = [b'x', b' \n', b',', b'}', b'{}', b'\x00', b'\xc3']


def compact(value) -> bytes:
    return json.dumps(value, ensure_ascii=False, separators=(',', ':')).encode()


def _shuffled(rng, value):
    """Returns the value with the keys of its objects in any order, and with additional unknown keys."""
    if type(value) is list:
        return [_shuffled(rng, item) for item in value]
    if type(value) is not dict:
        return value
    items = [(key, _shuffled(rng, item)) for key, item in value.items()]
    if rng.random() < 0.2:
        items.append((rng.choice(EXTRA_KEYS), rng.choice(EXTRA_VALUES)))
    rng.shuffle(items)
    return dict(items)


def graph_text(rng, value) -> bytes:
    how = rng.random()
    if how < 0.7:
        return compact(value)
    if how < 0.85:
        return json.dumps(value, ensure_ascii=True, indent=rng.choice([None, 1])).encode()
    return json.dumps(_shuffled(rng, value), ensure_ascii=False).encode()


def _insert(data: bytes, at: int, piece: bytes) -> bytes:
    return data if at < 0 else data[:at] + piece + data[at:]


def _behind(data: bytes, mark: bytes, found: int, piece: bytes) -> bytes:
    return data if found < 0 else _insert(data, found + len(mark), piece)


def broken_text(rng, data: bytes) -> bytes:
    """Returns the text, changed at one position."""
    at = rng.randint(0, len(data))
    changed = [
        lambda: data[:at],
        lambda: b'\xff' + data,
        lambda: b'\xef\xbb\xbf' + data,
        lambda: data[:at] + bytes([rng.randrange(256)]) + data[at + 1:],
        lambda: data + rng.choice(TAILS),
        lambda: rng.choice(FIXED_TEXTS),
        lambda: _insert(data, at, rng.choice(PIECES)),
        lambda: _behind(data, b'"', data.find(b'"', at), rng.choice(CHARACTERS)),
        lambda: data[:at] + data[at + rng.randint(1, 20):],
        lambda: _behind(data, b'{', data.rfind(b'{', 0, at + 1), rng.choice(MEMBERS)),
        lambda: _insert(data, data.find(b'}', at), rng.choice(LAST_MEMBERS)),
        lambda: data[:at] + data[at:].replace(rng.choice([b'1', b'0', b'[', b'"']),
                                              rng.choice([b'2', b'-1', b'1.5', b'{', b"'"]), 1),
    ]
    return rng.choice(changed)()
