//! How much stack the library's calls take: each runs on a stack filled with a pattern before, and the
//! deepest byte that no longer holds it shows how far the call went.

use crate::{
    case::Case,
    hand::{body, body_of, case, APP},
    make::record::{answer, redirect},
};
use facets_hub::{
    clean, decision_code, decision_code_with_place, fetch_location, private_label, read_head, tally, Head,
    Refusal,
};
use std::{
    ffi::{c_int, c_ulong, c_void},
    hint::black_box,
    ptr::null_mut,
};

/// The most that a call may take, as README states it: 6 KiB. The hub's own functions, on the same stack, take
/// more where they are not optimized.
const MOST: usize = if cfg!(debug_assertions) { 7 * 1024 } else { 6 * 1024 };

const STACK: usize = 1024 * 1024;
const PATTERN: u128 = 0xA55A_C33C_9669_F00F_1EE1_D22D_B44B_8778;

/// Threads with a stack of the caller's own, which std does not offer. `Attributes` is larger than any
/// platform's `pthread_attr_t`.
type Attributes = [u128; 16];

extern "C" {
    fn pthread_attr_init(attributes: *mut Attributes) -> c_int;
    fn pthread_attr_setstack(attributes: *mut Attributes, stack: *mut c_void, size: usize) -> c_int;
    fn pthread_attr_destroy(attributes: *mut Attributes) -> c_int;
    fn pthread_create(
        thread: *mut c_ulong,
        attributes: *const Attributes,
        start: extern "C" fn(*mut c_void) -> *mut c_void,
        argument: *mut c_void,
    ) -> c_int;
    fn pthread_join(thread: c_ulong, result: *mut *mut c_void) -> c_int;
}

/// A call to run, and where on the stack it began.
struct Run<'a> {
    call: &'a mut dyn FnMut(),
    top: usize,
}

extern "C" fn start(run: *mut c_void) -> *mut c_void {
    // SAFETY: `used` hands over its `Run` and does not touch it before the thread has ended.
    let run = unsafe { &mut *run.cast::<Run>() };
    let here = 0u8;
    run.top = black_box(&raw const here) as usize;
    (run.call)();
    null_mut()
}

/// The bytes of stack that a call takes.
fn used<T>(mut call: impl FnMut() -> T) -> usize {
    let mut stack = vec![PATTERN; STACK / size_of::<u128>()];
    let call = &mut || drop(black_box(call()));
    let mut run = Run { call, top: 0 };
    let (mut attributes, mut thread): (Attributes, c_ulong) = ([0; 16], 0);
    // SAFETY: the stack outlives the thread, which is joined here, and nothing else touches it meanwhile; so
    // does `run`.
    unsafe {
        assert_eq!(pthread_attr_init(&mut attributes), 0);
        assert_eq!(pthread_attr_setstack(&mut attributes, stack.as_mut_ptr().cast(), STACK), 0);
        assert_eq!(pthread_create(&mut thread, &attributes, start, (&raw mut run).cast()), 0);
        assert_eq!(pthread_join(thread, null_mut()), 0);
        assert_eq!(pthread_attr_destroy(&mut attributes), 0);
    }
    let lowest = black_box(&stack).iter().position(|&word| word != PATTERN).expect("the stack was used");
    assert!(lowest > 0, "the stack is large enough");
    run.top.saturating_sub(stack.as_ptr() as usize + lowest * size_of::<u128>())
}

/// Inputs that go deepest or are longest, each in another way, and the decision they come to.
fn worst() -> Vec<(String, u16, Case)> {
    let base = || {
        // A host of 253 bytes, an AppID of 2,048, and the same as the Location of 8 redirects.
        let mut appid = format!("https://{}example.com/", "l.".repeat(121)).into_bytes();
        appid.resize(2048, b't');
        let record = [redirect(302, 1, 0, 2048).repeat(8), answer(200, 1)].concat();
        Case { text: appid.clone(), appid, record, ..case(&[APP]) }
    };
    let arrays = |depth: usize| "[".repeat(depth) + &"]".repeat(depth);
    let objects = |depth: usize| "{\"\":".repeat(depth) + "\"\\uD83D\\uDD11\"" + &"}".repeat(depth);
    let member = |value: &str| {
        let list = String::from_utf8(body(&[APP])).expect("UTF-8");
        format!("{{\"x\":{value},{}", &list[1..]).into_bytes()
    };
    let in_version = |value: &str| {
        format!(
            r#"{{"trustedFacets":[{{"version":{{"major":1,"minor":0,"x":{value}}},"ids":["{APP}","https://a.example.com"]}}]}}"#
        )
        .into_bytes()
    };
    let in_ids = |value: &str| body_of(&format!("[\"{APP}\",{value}]"));
    let native = format!("ios:bundle-id:{}", "n".repeat(255));
    let long = "https://a.example.com/".to_owned() + &"\\u0061".repeat(490);
    let longest = "\\uD83D\\uDD11".repeat(5400);
    let escaped = |text: &str| text.bytes().map(|byte| format!("\\u{byte:04X}")).collect::<String>();
    let host = format!("https://{}example.com", "l.".repeat(120));
    // 65,536 bytes: so many entries all of escapes, then blanks.
    let escapes = |count: usize| {
        let entries = vec![format!("\"{}\"", escaped(&host)); count].join(",");
        let mut body = body_of(&format!("[{entries},\"{}\"]", escaped(APP)));
        assert!(body.len() <= 65_536);
        body.resize(65_536, b' ');
        body
    };
    let table_of = |rule: &str| {
        let mut table = rule.repeat(1_048_576 / rule.len()).into_bytes();
        table.resize(1_048_576, b'\n');
        table
    };
    // One byte longer than its cleaned list.
    let loose = |ids: &[&str]| [body(ids), b" ".to_vec()].concat();
    let on_port = || Case { caller: format!("{host}:65535").into(), ..base() };
    let web = || Case { caller: host.clone().into(), body: loose(&[&host, APP]), ..base() };
    // The longest rules there are, deeper than the AppID's label.
    let deepest = format!("{}l.l.example.com\n", "x.".repeat(119));
    let worst = [
        ("arrays 16 deep", 4, Case { body: member(&arrays(15)), ..base() }),
        ("arrays 17 deep", 110, Case { body: member(&arrays(16)), ..base() }),
        ("arrays 30,000 deep", 110, Case { body: arrays(30_000).into(), ..base() }),
        ("objects 16 deep", 4, Case { body: in_version(&objects(12)), ..base() }),
        ("objects 17 deep", 110, Case { body: in_version(&objects(13)), ..base() }),
        ("objects 16 deep for an entry", 111, Case { body: in_ids(&objects(12)), ..base() }),
        ("objects 17 deep for an entry", 110, Case { body: in_ids(&objects(13)), ..base() }),
        (
            "longest native entry",
            4,
            Case { caller: native.clone().into(), body: loose(&[&native]), ..base() },
        ),
        ("an entry of 512 bytes", 114, Case { body: body_of(&format!("[\"{long}\"]")), ..base() }),
        ("longest string", 114, Case { body: body_of(&format!("[\"{longest}\"]")), ..base() }),
        ("longest skipped string", 4, Case { body: member(&format!("\"{longest}\"")), ..base() }),
        ("65,536 bytes of escapes", 4, Case { body: escapes(41), ..base() }),
        (
            "the caller's host on another port",
            114,
            Case { body: loose(&[&format!("{host}:65534")]), ..on_port() },
        ),
        ("largest table", 4, Case { table: table_of("example.com\n"), ..web() }),
        ("shortest lines", 4, Case { table: table_of("*\n"), ..web() }),
        ("longest deeper rules", 4, Case { table: table_of(&deepest), ..web() }),
        (
            "deeper rules, escapes",
            4,
            Case { table: table_of("x.l.example.com\n"), body: escapes(2), ..base() },
        ),
    ];
    let nested = nested().into_iter().map(|(name, code, body)| (name, code, Case { body, ..base() }));
    worst.map(|(name, code, case)| (name.to_owned(), code, case)).into_iter().chain(nested).collect()
}

/// Bodies with 16 and 17 arrays or objects open together, in every place of a list, with any value inside.
fn nested() -> Vec<(String, u16, Vec<u8>)> {
    // What stands before and after, and how many are open there.
    let places = [
        ("the body", "", "", 0),
        ("a member", r#"{"x":"#, r#","trustedFacets":[]}"#, 1),
        ("trustedFacets", r#"{"trustedFacets":"#, "}", 1),
        ("an object", r#"{"trustedFacets":["#, "]}", 2),
        ("version", r#"{"trustedFacets":[{"version":"#, r#","ids":[]}]}"#, 3),
        ("major", r#"{"trustedFacets":[{"version":{"major":"#, r#","minor":0},"ids":[]}]}"#, 4),
        ("ids", r#"{"trustedFacets":[{"version":{"major":1,"minor":0},"ids":"#, "}]}", 3),
        ("an entry", r#"{"trustedFacets":[{"version":{"major":1,"minor":0},"ids":["#, "]}]}", 4),
    ];
    let values = [r#""\uD83D\uDD11""#, "-1.5e-10", "false", "[]"];
    let mut bodies = Vec::new();
    for (place, before, after, open) in places {
        for (start, end) in [("[", "]"), (r#"{"\uD83D\uDD11":"#, "}")] {
            for (inner, depth) in values.into_iter().flat_map(|inner| [(inner, 16), (inner, 17)]) {
                let levels = depth - open - usize::from(inner == "[]");
                let value = start.repeat(levels) + inner + &end.repeat(levels);
                let code = if depth == 17 { 110 } else { 111 + u16::from(place == "a member") };
                let name = format!("{depth} deep by {start}..{end} for {place}, {inner} inside");
                bodies.push((name, code, format!("{before}{value}{after}").into_bytes()));
            }
        }
    }
    bodies
}

/// The stack that cleaning takes into an output of `room` bytes. `whole` is what it gives into one that is long
/// enough; here a list that has no room is refusal 15.
fn cleaning(case: &Case, whole: Result<usize, Refusal>, room: usize) -> usize {
    let Case { appid, major, minor, body, table, .. } = case;
    let (mut out, mut given) = (vec![0; room], None);
    let taken = used(|| given = Some(clean(appid, *major, *minor, body, table, &mut out)));
    let fitting = whole.and_then(|length| if length <= room { Ok(length) } else { Err(Refusal::Full) });
    assert_eq!(given, Some(fitting), "into {room} bytes");
    taken
}

/// Heads that are longest, each in another way, good and bad, and what they come to.
fn heads() -> [(&'static str, Result<Head, Refusal>, String); 19] {
    // 8,192 bytes: these lines, as many of the piece as fit, and the end.
    let filled = |start: &str, piece: &str, end: &str| {
        let count = (8192 - start.len() - end.len()) / piece.len();
        let mut head = start.to_owned() + &piece.repeat(count);
        let blanks = 8192 - head.len() - end.len();
        head.insert_str("HTTP/1.1 302 ".len(), &" ".repeat(blanks));
        head + end
    };
    let (found, ok) = ("HTTP/1.1 302 \r\nLocation: a\r\n", "HTTP/1.1 200 \r\n");
    let redirect = |location: usize| Ok(Head::Redirect { location });
    let (answer, bad) = (Ok(Head::Answer), Err(Refusal::BadHead));
    [
        ("typical redirect", redirect(1), format!("{found}FIDO-AppID-Redirect-Authorized: true\r\n\r\n")),
        (
            "typical answer",
            answer,
            format!("{ok}Content-Type: application/fido.trusted-apps+json; a\r\n\r\n"),
        ),
        ("long reason", answer, filled("HTTP/1.1 200 ", "r", "\r\n\r\n")),
        ("long value", redirect(1), filled(&format!("{found}X: "), "v", "\r\n\r\n")),
        ("long name", redirect(1), filled(found, "n", ":\r\n\r\n")),
        ("longest Location", redirect(8164), filled("HTTP/1.1 302 \r\nLocation:", "l", "\r\n\r\n")),
        ("blanks around a value", redirect(1), filled(&format!("{found}X:"), " \t", "v\r\n\r\n")),
        ("shortest lines", answer, filled(ok, "a:\r\n", "\r\n")),
        ("shortest lines of a redirect", redirect(1), filled(found, "a:\r\n", "\r\n")),
        ("authorized lines", redirect(1), filled(found, "FIDO-AppID-Redirect-Authorized:\r\n", "\r\n")),
        (
            "content type lines",
            answer,
            filled(ok, "Content-Type: application/fido.trusted-apps+json;\r\n", "\r\n"),
        ),
        ("Location lines", bad, filled(found, "Location:\r\n", "\r\n")),
        ("Location lines of an answer", answer, filled(ok, "Location:\r\n", "\r\n")),
        ("no Location", bad, filled("HTTP/1.1 302 \r\n", "a:\r\n", "\r\n")),
        ("no empty line", bad, filled(ok, "a:\r\n", "b:\r\n")),
        ("no colon at the end", bad, filled(ok, "a:\r\n", "b\r\n\r\n")),
        ("a byte too long", bad, filled(ok, "a:\r\n", "\r\n").replacen(" \r", "  \r", 1)),
        ("a mebibyte", bad, format!("{ok}{}\r\n", "a:\r\n".repeat(262_144))),
        ("nothing", bad, String::new()),
    ]
}

/// The stack that reading a head takes at most, into outputs that are long enough, and into empty ones.
fn reading_heads() -> [usize; 2] {
    let mut most = [0; 2];
    for (name, expected, head) in heads() {
        let full = expected.and(Err(Refusal::Full));
        for (at, rooms, expected) in [(0, [8, 8192], expected), (1, [0, 0], full)] {
            let ([mut item, mut text], mut given) = (rooms.map(|room| vec![0; room]), None);
            let taken = used(|| given = Some(read_head(head.as_bytes(), 65_535, &mut item, &mut text)));
            assert_eq!(given, Some(expected), "{name}");
            if taken > most[at] {
                println!("    {name}, into {rooms:?} bytes: {taken}");
                most[at] = taken;
            }
        }
    }
    most
}

#[test]
fn every_call_takes_at_most_6_kib_of_stack() {
    let mut most = [
        ("facets_private_label", 0),
        ("facets_decide", 0),
        ("facets_decide_place", 0),
        ("facets_fetch_location", 0),
        ("facets_clean", 0),
        ("facets_clean, output a byte shorter than the body", 0),
        ("facets_clean, output as long as the list", 0),
        ("facets_clean, empty output", 0),
        ("facets_tally", 0),
    ];
    let nothing = used(|| ());
    let worst = worst();
    let mut lists = 0;
    println!("stack with {} inputs; those that took more of it than any before, in bytes,", worst.len());
    println!("by {:?}:", most.map(|call| call.0));
    for (name, code, case) in worst {
        let Case { caller, appid, major, minor, record, text, body, table } = &case;
        let (inputs, mut place) = (case.decision(), 0);
        assert_eq!(decision_code(&inputs), code, "{name}");
        let whole = clean(appid, *major, *minor, body, table, &mut vec![0; 65_536]);
        let list = whole.unwrap_or(0);
        // Where the output is shorter than the body, cleaning adds up the list's length first.
        let rooms = [65_536, body.len() - 1, list, 0];
        assert!(list < body.len(), "{name}");
        lists += usize::from(whole.is_ok());
        let [clean_whole, clean_shorter, clean_list, clean_empty] =
            rooms.map(|room| cleaning(&case, whole, room));
        let unanswered = &record[..64];
        let host = &appid[8..253 + 8];
        let taken = [
            used(|| private_label(host, table).len()),
            used(|| decision_code(&inputs)),
            used(|| decision_code_with_place(&inputs, &mut place)),
            used(|| fetch_location(caller, appid, unanswered, text).len()),
            clean_whole,
            clean_shorter,
            clean_list,
            clean_empty,
            used(|| tally(appid, *major, *minor, body, table)),
        ];
        if taken.iter().zip(&most).any(|(taken, most)| *taken > most.1) {
            println!("    {name}: {taken:?}");
        }
        for (most, taken) in most.iter_mut().zip(taken) {
            most.1 = most.1.max(taken);
        }
    }
    println!("{lists} of the inputs have a cleaned list");
    assert!(lists >= 10, "lists whose length is added up");
    println!("stack with {} heads; those that took more of it than any before:", heads().len());
    let [whole, empty] = reading_heads();
    let reading = [("facets_read_head", whole), ("facets_read_head, empty outputs", empty)];
    for (call, taken) in most.into_iter().chain(reading) {
        println!("{call}: at most {taken} bytes of stack, {:.1} KiB", taken as f64 / 1024.0);
        assert!(taken > nothing && taken <= MOST, "{call} takes {taken} bytes of stack");
    }
}

#[test]
fn the_measure_sees_what_a_call_takes() {
    fn take<const BYTES: usize>() -> usize {
        used(|| {
            let mut bytes = [0u8; BYTES];
            black_box(&mut bytes).fill(1);
            black_box(&bytes);
        })
    }
    for (taken, bytes) in
        [(take::<10_000>(), 10_000), (take::<70_000>(), 70_000), (take::<500_000>(), 500_000)]
    {
        assert!((bytes..bytes + 4096).contains(&taken), "{taken} of {bytes}");
    }
}
