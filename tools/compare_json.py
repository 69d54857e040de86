"""Compares the JSON reader with Python's, over generated and damaged texts.

    python3 tools/compare_json.py      (after `rt run` in crates/json_run, or `rt ci`)

Python's reader with its leniencies closed: UTF-8 decoded strictly first, no byte-order mark, no NaN or Infinity, no control bytes in
strings, no surrogate outside a pair, at most 16 arrays and objects open together. Compared is whether a text is readable and, where
it is one string, its decoded bytes. It fails on a difference, and where a class of texts occurs fewer than 1,000 times.
"""
import collections, json, os, random, struct, subprocess, sys
COUNT, LEAST, MOST = 120000, 1000, 4096
KINDS = ('readable', 'unreadable', 'string decoded', 'string too long', 'bad UTF-8', 'bad grammar', 'too deep', 'lone surrogate')
RUN = os.path.join(os.path.dirname(os.path.dirname(os.path.abspath(__file__))), 'crates', 'json_run', 'out', 'json_run')
rng = random.Random(8259)

# ---- the other reader

def refuse(word): raise ValueError(word)

DECODER = json.JSONDecoder(parse_constant=refuse, parse_int=str, parse_float=str, object_pairs_hook=tuple, strict=True)

def depth(text):
    """The most arrays and objects open together."""
    most = now = i = 0
    inside = False
    while i < len(text):
        c = text[i]
        if inside:
            if c == '\\': i += 1
            elif c == '"': inside = False
        elif c == '"': inside = True
        elif c in '[{':
            now += 1
            most = max(most, now)
        elif c in ']}': now -= 1
        i += 1
    return most

def surrogates(value):
    if isinstance(value, str): return any('\ud800' <= c <= '\udfff' for c in value)
    if isinstance(value, (list, tuple)): return any(surrogates(v) for v in value)
    return False

def expected(data):
    """The line that json_run is to write, and the classes of the text."""
    try: text = data.decode('utf-8')
    except UnicodeDecodeError: return 'unreadable', ['unreadable', 'bad UTF-8']
    try: value = DECODER.decode(text)
    except ValueError: return 'unreadable', ['unreadable', 'bad grammar']
    if depth(text) > 16: return 'unreadable', ['unreadable', 'too deep']
    if surrogates(value): return 'unreadable', ['unreadable', 'lone surrogate']
    if not text.lstrip(' \t\n\r').startswith('"'): return 'readable', ['readable']
    content = value.encode('utf-8')
    if len(content) > 512: return 'string long', ['readable', 'string too long']
    return 'string ' + content.hex(), ['readable', 'string decoded']

# ---- texts

def blanks(): return ''.join(rng.choice(' \t\n\r') for _ in range(rng.choice((0, 0, 0, 1, 2))))

def code_point():
    top = rng.choice((0x7F, 0x7F, 0x7FF, 0xFFFF, 0x10FFFF))
    c = rng.randrange(top + 1)
    return c if not 0xD800 <= c <= 0xDFFF else 0xE000

def unit(n): return '\\u' + format(n, rng.choice(('04x', '04X')))

def char(lone):
    if lone and rng.random() < 0.3: return unit(rng.randrange(0xD800, 0xE000))
    r, c = rng.random(), code_point()
    if r < 0.12: return '\\' + rng.choice('"\\/bfnrt')
    if r < 0.3: return unit(c) if c < 0x10000 else unit(0xD800 + (c - 0x10000) // 1024) + unit(0xDC00 + c % 1024)
    return chr(c) if c >= 0x20 and c not in (0x22, 0x5C) else 'x'

def string(longest, lone=False): return '"' + ''.join(char(lone) for _ in range(rng.randrange(longest + 1))) + '"'

def number():
    return (rng.choice(('', '-')) + rng.choice(('0', str(rng.randrange(1, 10 ** rng.randrange(1, 12))))) + rng.choice(('', '', '.' + str(rng.randrange(10 ** 4))))
        + rng.choice(('', '', rng.choice('eE') + rng.choice(('', '+', '-')) + str(rng.randrange(400)))))

def value(left, lone=False):
    r = rng.random()
    if left == 0 or r < 0.5: return rng.choice((lambda: string(8, lone), number, lambda: rng.choice(('true', 'false', 'null'))))()
    n = rng.randrange(4)
    if r < 0.75: return '[' + blanks() + (blanks() + ',' + blanks()).join(value(left - 1, lone) for _ in range(n)) + blanks() + ']'
    return '{' + blanks() + (blanks() + ',' + blanks()).join(string(4, lone) + blanks() + ':' + blanks() + value(left - 1, lone) for _ in range(n)) + '}'

def deep():
    n = rng.randrange(13, 22)
    kinds = [rng.choice('[{') for _ in range(n)]
    return ''.join(('[' if k == '[' else '{' + string(2) + ':') + blanks() for k in kinds) + value(0) + ''.join(blanks() + (']' if k == '[' else '}') for k in reversed(kinds))

def valid():
    r = rng.random()
    if r < 0.35: return blanks() + string(40) + blanks()
    if r < 0.4: return '"' + 'a' * rng.randrange(480, 512) + string(12)[1:]
    if r < 0.5: return deep()
    return blanks() + value(5) + blanks()

BYTES = b'"\\[]{},:ue0123456789-+.tfn \x00\x1f\x7f\x80\xbf\xc0\xc2\xe0\xed\xf0\xf4\xff'

def damaged(data):
    data = bytearray(data)
    for _ in range(rng.choice((1, 1, 1, 2, 5))):
        i, b = rng.randrange(len(data) + 1), rng.choice(BYTES) if rng.random() < 0.7 else rng.randrange(256)
        r = rng.random()
        if r < 0.3 and i < len(data): data[i] = b
        elif r < 0.5: data.insert(i, b)
        elif r < 0.7 and i < len(data): del data[i]
        elif r < 0.8 and i < len(data): data[i] ^= 1 << rng.randrange(8)
        elif r < 0.9: del data[i:]
        else: data[i:i] = data[rng.randrange(len(data) + 1):][:6]
    return bytes(data)

def text():
    r = rng.random()
    if r < 0.45: data = valid().encode()
    elif r < 0.55: data = (blanks() + value(4, True)).encode()
    elif r < 0.6: data = string(10, True).encode()
    else: data = damaged(valid().encode())
    return data[:MOST]

# ---- the comparison

texts = [text() for _ in range(COUNT)]
told = subprocess.run([RUN], input=b''.join(struct.pack('>H', len(t)) + t for t in texts), stdout=subprocess.PIPE, check=True).stdout.decode().split('\n')[:-1]
failed, classes = 0, collections.Counter()
for i, t in enumerate(texts):
    line, kinds = expected(t)
    classes.update(kinds)
    got = told[i] if i < len(told) else 'nothing'
    if got != line:
        failed += 1
        if failed <= 10: print('differs:', t, 'expected', line, 'got', got)
for kind in KINDS:
    print(f'{kind}: {classes[kind]}')
few = [kind for kind in KINDS if classes[kind] < LEAST]
if few: print('too few:', ', '.join(few))
if len(told) != COUNT: print('lines:', len(told), 'of', COUNT)
print(f'{COUNT - failed} passed, {failed} failed')
sys.exit(1 if failed or few or len(told) != COUNT else 0)
