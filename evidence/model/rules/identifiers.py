"""The characters of identifiers, at Unicode 18.0: what Python knows (3.11 has Unicode 14.0), and later additions as ranges of code points."""

_START_ADDED = (
    '558 58B-58C 88F C5C CDC 1C89-1C8A 208F 209D-209F A7CB-A7CF A7D2 A7D4 A7DA-A7DD A7E2 '
    'A7F1 AB6C-AB6D 105C0-105F3 107BB-107BF 10940-10959 10D4A-10D65 10D6F-10D85 '
    '10EC2-10EC7 10ED9-10EEE 1123F-11240 11380-11389 1138B 1138E 11390-113B5 113B7 113D1 '
    '113D3 11B0A 11BC0-11BE0 11DB0-11DDB 11DF1 11F02 11F04-11F10 11F12-11F33 1246F '
    '12475-1247F 12550-12686 1342F 13441-13446 13460-143FA 16100-1611D 16D40-16D6C '
    '16EA0-16EB8 16EBB-16ED3 16FF2-16FF6 187F8-187FF 18CD6-18CDA 18CFF 18D09-18D20 '
    '18D80-18DF2 18E00-19191 191A0-191D2 1B123-1B128 1B132 1B155 1B168 1D6A6 1DF1F-1DF81 '
    '1DF90-1DF96 1DFCD-1DFFF 1E030-1E06D 1E4D0-1E4EB 1E5D0-1E5ED 1E5F0 1E6C0-1E6DE '
    '1E6E0-1E6E2 1E6E4-1E6E5 1E6E7-1E6ED 1E6F0-1E6F4 1E6FE-1E6FF 2B739-2B73F 2B81E '
    '2CEA2-2CEAD 2EBF0-2EE5D 31350-33479 3D000-3FC3F ')
_CONTINUE_ADDED = (
    '558 58B-58C 5C8-5C9 88F 897 B53-B54 C5C CDC CF3 ECE 1ACF-1AF0 1C89-1C8A 200C-200D '
    '208F 209D-209F 30FB A7CB-A7CF A7D2 A7D4 A7DA-A7DD A7E2 A7F1 AB6C-AB6D FF65 '
    '105C0-105F3 107BB-107BF 10940-10959 10D40-10D65 10D69-10D6D 10D6F-10D85 10EC2-10EC7 '
    '10ECB-10ECF 10ED9-10EEE 10EF0-10EFF 1123F-11241 11380-11389 1138B 1138E 11390-113B5 '
    '113B7-113C0 113C2 113C5 113C7-113CA 113CC-113D3 113E1-113E2 116D0-116E3 11B0A '
    '11B60-11B67 11BC0-11BE0 11BF0-11BF9 11DB0-11DDB 11DE0-11DE9 11DF0-11DF1 11F00-11F10 '
    '11F12-11F3A 11F3E-11F42 11F50-11F5A 1246F 12475-1247F 12550-12686 1342F 13440-13455 '
    '13460-143FA 16100-16139 16D40-16D6C 16D70-16D79 16EA0-16EB8 16EBB-16ED3 16FF2-16FF6 '
    '187F8-187FF 18CD6-18CDA 18CFF 18D09-18D20 18D80-18DF2 18E00-19191 191A0-191D2 '
    '1B123-1B128 1B132 1B155 1B168 1CCF0-1CCF9 1D127-1D128 1D250-1D252 1D25B-1D25C 1D25F '
    '1D280-1D281 1D6A6 1DF1F-1DF81 1DF90-1DF96 1DFCD-1DFFF 1E030-1E06D 1E08F 1E4D0-1E4F9 '
    '1E5D0-1E5FA 1E6C0-1E6DE 1E6E0-1E6F5 1E6FE-1E6FF 2B739-2B73F 2B81E 2CEA2-2CEAD '
    '2EBF0-2EE5D 31350-33479 3D000-3FC3F ')


def _code_points(ranges: str) -> frozenset:
    found = set()
    for part in ranges.split():
        first, _, last = part.partition('-')
        found.update(range(int(first, 16), int(last or first, 16) + 1))
    return frozenset(found)


_START = _code_points(_START_ADDED)
_CONTINUE = _code_points(_CONTINUE_ADDED)


def may_start(character: str) -> bool:
    """Returns whether the character is one of Unicode's XID_Start."""
    return (character != '_' and character.isidentifier()) or ord(character) in _START


def may_continue(character: str) -> bool:
    """Returns whether the character is one of Unicode's XID_Continue."""
    return ('a' + character).isidentifier() or ord(character) in _CONTINUE


def is_identifier(text: str) -> bool:
    """Returns whether a text is an identifier: first `$`, `_` or an XID_Start, then those, the two joiners or an XID_Continue. Reserved words are
    allowed."""
    if not text or not (text[0] in '$_' or may_start(text[0])):
        return False
    return all(it in '$_\u200c\u200d' or may_continue(it) for it in text[1:])
