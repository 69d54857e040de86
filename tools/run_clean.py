"""Runs the program `clean` on refusals and on both sides of its bounds, and bin/clean over it. What they must print is worked out from
document 01's words below.

    python3 tools/run_clean.py      (after `rt run` in crates/clean, or `rt ci`)
"""
import os, subprocess, sys, tempfile

TOP = os.path.dirname(os.path.dirname(os.path.abspath(__file__)))
APPID = b'https://www.example.com/appID'
TABLE = b'com\n'
KEPT = [b'https://fido.example.com', b'ios:bundle-id:com.acme.app', b'https://www.example.com:444']
REFUSED = 'refused'


def body(ids, major=b'1', minor=b'0'):
    return b'{"trustedFacets":[{"version":{"major":' + major + b',"minor":' + minor + b'},"ids":[' + b','.join(b'"' + i + b'"' for i in ids) + b']}]}'


def filled(start, length, fill):
    assert len(start) <= length
    return start + fill * (length - len(start))


BODY = body([b'https://Fido.example.com/', b'http://www.example.com', KEPT[1], KEPT[2]])
LIST = body(KEPT)
EMPTY = body([])
IOS = b'ios:bundle-id:'
MANY = [b'https://w%04d.example.com' % n for n in range(2000)]
FULL = filled(body(MANY), 65536, b' ')

# stands for a file of that name that opens and can't be read
FOLDER = object()

# name, appid, table, body (None: there is no such file), what is printed before the LF
RUNS = [
    ('the example of document 01', APPID, TABLE, BODY, LIST),
    # a file that can't be opened counts as empty
    ('no file', None, None, None, (REFUSED, 3)),
    ('empty files', b'', b'', b'', (REFUSED, 3)),
    ('no AppID', None, TABLE, BODY, (REFUSED, 3)),
    ('no table: every last label is a public suffix', APPID, None, BODY, LIST),
    ('an empty table', APPID, b'', BODY, LIST),
    ('no body', APPID, TABLE, None, (REFUSED, 10)),
    ('an empty body', APPID, TABLE, b'', (REFUSED, 10)),
    # nor one that can't be read
    ('a folder for the AppID', FOLDER, TABLE, BODY, (REFUSED, 3)),
    ('a folder for the table', APPID, FOLDER, BODY, LIST),
    ('a folder for the body', APPID, TABLE, FOLDER, (REFUSED, 10)),
    # refusals 2 and 3
    ('an AppID of 2,048 bytes', filled(APPID, 2048, b'a'), TABLE, BODY, LIST),
    ('an AppID of 2,049 bytes', filled(APPID, 2049, b'a'), TABLE, BODY, (REFUSED, 2)),
    ('an AppID of 5,000 bytes', filled(APPID, 5000, b'a'), TABLE, BODY, (REFUSED, 2)),
    ('an AppID that ends in LF', APPID + b'\n', TABLE, BODY, (REFUSED, 2)),
    ('an AppID without a host', b'https:///appID', TABLE, BODY, (REFUSED, 2)),
    ('an AppID that is a native identity', b'ios:bundle-id:com.acme.app', TABLE, BODY, (REFUSED, 3)),
    ('an AppID over HTTP', b'http://www.example.com/appID', TABLE, BODY, (REFUSED, 3)),
    # refusals 9 to 12
    ('a body of 65,536 bytes', APPID, TABLE, filled(BODY, 65536, b' '), LIST),
    ('a body of 65,537 bytes', APPID, TABLE, filled(BODY, 65537, b' '), (REFUSED, 9)),
    ('a body of 200,000 bytes', APPID, TABLE, filled(BODY, 200000, b' '), (REFUSED, 9)),
    ('2,000 entries in 65,536 bytes', APPID, TABLE, FULL, body(MANY)),
    ('text behind the list', APPID, TABLE, BODY + b'x', (REFUSED, 10)),
    ('a comment', APPID, TABLE, b'// list\n' + BODY, (REFUSED, 10)),
    ('an array', APPID, TABLE, b'[]', (REFUSED, 11)),
    ('an id that is a number', APPID, TABLE, b'{"trustedFacets":[{"version":{"major":1,"minor":0},"ids":[1]}]}', (REFUSED, 11)),
    ('the list twice', APPID, TABLE, b'{"trustedFacets":[],"trustedFacets":[]}', (REFUSED, 11)),
    ('no version', APPID, TABLE, b'{"trustedFacets":[]}', (REFUSED, 12)),
    ('version 1.1', APPID, TABLE, body(KEPT, minor=b'1'), (REFUSED, 12)),
    ('version 2.0', APPID, TABLE, body(KEPT, major=b'2'), (REFUSED, 12)),
    # refusal 13: a line that is no rule, or a table of more than 65,536 bytes
    ('a bad table', APPID, b'com\n-\n', BODY, (REFUSED, 13)),
    ('a table of 65,536 bytes', APPID, filled(TABLE + b'//', 65536, b'x'), BODY, LIST),
    ('a table of 65,537 bytes', APPID, filled(TABLE + b'//', 65537, b'x'), BODY, (REFUSED, 13)),
    ('a table of 200,000 bytes', APPID, filled(TABLE + b'//', 200000, b'x'), BODY, (REFUSED, 13)),
    # their order
    ('2 before 10 and 13', b'https://', b'-', b'', (REFUSED, 2)),
    ('3 before 10 and 13', b'', b'-', b'', (REFUSED, 3)),
    ('9 before 10', APPID, TABLE, b' ' * 65537, (REFUSED, 9)),
    ('10 before 13', APPID, b'-', b'{', (REFUSED, 10)),
    ('12 before 13', APPID, b'-', b'{"trustedFacets":[]}', (REFUSED, 12)),
    # what is kept
    ('nothing kept', APPID, TABLE, body([b'http://www.example.com', b'https://example.org', b'https://com', b'']), EMPTY),
    ('no entry', APPID, TABLE, body([]), EMPTY),
    ('an AppID without a private label', b'https://com/', TABLE, body([b'https://com', KEPT[1]]), body([KEPT[1]])),
    ('a label under a hosting domain', b'https://a.hosting.example.com/', b'com\nhosting.example.com\n',
     body([b'https://b.hosting.example.com', b'https://A.Hosting.example.com', b'https://x.a.hosting.example.com', b'https://www.example.com']),
     body([b'https://a.hosting.example.com', b'https://x.a.hosting.example.com'])),
    ('normal forms', APPID, TABLE, body([b'HTTPS://WWW.EXAMPLE.COM:443/', b'https://www.example.com:8443/', b'https://www.example.com:443']),
     body([b'https://www.example.com', b'https://www.example.com:8443', b'https://www.example.com'])),
    ('bundle ids of 255 and 256 bytes', APPID, TABLE, body([IOS + b'a' * 255, IOS + b'b' * 256]), body([IOS + b'a' * 255])),
    ('an entry of 600 bytes', APPID, TABLE, body([IOS + b'a' * 586, KEPT[0]]), body([KEPT[0]])),
    ('an escaped entry', APPID, TABLE, body([b'https:\\/\\/fido.exampl\\u0065.com']), body([b'https://fido.example.com'])),
    ('the first of two objects with the version', APPID, TABLE,
     b'{"trustedFacets":[{"version":{"major":1,"minor":0},"ids":["https://a.example.com"]},{"version":{"major":1,"minor":0},"ids":["https://b.example.com"]}]}',
     body([b'https://a.example.com'])),
]


# bin/clean: arguments, files, exit status, standard output, what standard error names
WRAPPED = [
    ('the example where no folder is named', [], None, 0, LIST + b'\n', b''),
    ('a folder', ['.'], (APPID, TABLE, BODY), 0, LIST + b'\n', b''),
    ('a refusal', ['.'], (b'', TABLE, BODY), 1, b'refused 3\n', b'foreign AppID'),
    ('another refusal', ['.'], (APPID, b'-', BODY), 1, b'refused 13\n', b'bad table'),
    ('no such folder', ['none'], (APPID, TABLE, BODY), 2, b'', b'is no folder'),
    ('two folders', ['.', '.'], (APPID, TABLE, BODY), 2, b'', b'Usage: bin/clean'),
]


def in_folder(files, command):
    with tempfile.TemporaryDirectory() as folder:
        for name, content in zip(('appid', 'table', 'body'), files or ()):
            if content is FOLDER:
                os.mkdir(os.path.join(folder, name))
            elif content is not None:
                with open(os.path.join(folder, name), 'wb') as file:
                    file.write(content)
        return subprocess.run(command, cwd=folder, stdout=subprocess.PIPE, stderr=subprocess.PIPE)


passed, failed = 0, 0


def compare(name, got, wanted):
    global passed, failed
    if got == wanted:
        passed += 1
    else:
        failed += 1
        print(f'{name}: {str(got)[:300]}, and not {str(wanted)[:300]}')


for name, appid, table, text, wanted in RUNS:
    wanted = b'refused %d\n' % wanted[1] if isinstance(wanted, tuple) else wanted + b'\n'
    done = in_folder((appid, table, text), [os.path.join(TOP, 'crates', 'clean', 'out', 'clean')])
    compare(name, (done.returncode, done.stdout), (0, wanted))
for name, words, files, status, printed, named in WRAPPED:
    done = in_folder(files, [os.path.join(TOP, 'bin', 'clean'), *words])
    compare('bin/clean: ' + name, (done.returncode, done.stdout, named in done.stderr, bool(done.stderr)), (status, printed, True, bool(named)))
done = in_folder(None, [os.path.join(TOP, 'bin', 'clean'), '--help'])
compare('bin/clean --help', (done.returncode, done.stdout[:17]), (0, b'Usage: bin/clean '))
print(f'{passed} passed, {failed} failed')
sys.exit(failed != 0)
