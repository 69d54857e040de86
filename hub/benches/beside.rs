//! Microseconds of every call by two builds of the library, in turn in one process, and their ratio: what a change costs
//! beside the commit before. Each build is a shared object, made of the library that `rt lib` builds in crates/facets:
//!
//! `cc -shared -o after.so -Wl,--whole-archive crates/facets/out/libfacets.a -Wl,--no-whole-archive`
//!
//! `cargo bench --bench beside -- /PATH/before.so /PATH/after.so`; without two paths nothing is measured.

// Of these other benchmarks use more.
#[allow(dead_code)]
mod inputs;
#[allow(dead_code)]
#[path = "../tests/hub/published.rs"]
mod published;
#[allow(dead_code)]
mod rows;

use inputs::{Body, VERSION};
use rows::microseconds;
use std::{
    env,
    ffi::{c_char, c_int, c_void, CString},
    hint::black_box,
    mem::transmute_copy,
    time::{Duration, Instant},
};

extern "C" {
    fn dlopen(path: *const c_char, how: c_int) -> *mut c_void;
    fn dlsym(library: *mut c_void, name: *const c_char) -> *mut c_void;
}

/// Symbols are bound at once.
const RTLD_NOW: c_int = 2;

type Byte = *const u8;

/// The 32-bit fields of a struct that a call returns.
#[repr(C)]
struct Fields<const N: usize>([u32; N]);

type Label = unsafe extern "C" fn(Byte, usize, Byte, usize) -> u32;
type Decide = unsafe extern "C" fn(
    Byte,
    usize,
    Byte,
    usize,
    u16,
    u16,
    Byte,
    usize,
    Byte,
    usize,
    Byte,
    usize,
    Byte,
    usize,
    *mut u32,
) -> u16;
type Locate = unsafe extern "C" fn(Byte, usize, Byte, usize, Byte, usize, Byte, usize) -> Fields<3>;
type Clean =
    unsafe extern "C" fn(Byte, usize, u16, u16, Byte, usize, Byte, usize, *mut u8, usize) -> Fields<2>;
type Tally = unsafe extern "C" fn(Byte, usize, u16, u16, Byte, usize, Byte, usize) -> Fields<6>;

/// One build's calls.
struct Library {
    label: Label,
    decide: Decide,
    locate: Locate,
    clean: Clean,
    tally: Tally,
}

impl Library {
    fn open(path: &str) -> Library {
        let path = CString::new(path).expect("a path");
        // SAFETY: the path is a C string; loading runs no code of the library's own.
        let library = unsafe { dlopen(path.as_ptr(), RTLD_NOW) };
        assert!(!library.is_null(), "{path:?} is no shared object");
        let find = |name: &str| {
            let name = CString::new(name).expect("a name");
            // SAFETY: the library stays open, and the name is a C string.
            let call = unsafe { dlsym(library, name.as_ptr()) };
            assert!(!call.is_null(), "no {name:?}");
            call
        };
        // SAFETY: the calls have the types that src/ffi.rs declares, and a pointer has the size of a function's.
        unsafe {
            Library {
                label: transmute_copy(&find("facets_private_label")),
                decide: transmute_copy(&find("facets_decide_place")),
                locate: transmute_copy(&find("facets_fetch_location")),
                clean: transmute_copy(&find("facets_clean")),
                tally: transmute_copy(&find("facets_tally")),
            }
        }
    }
}

/// Calls with slices, each of which passes as its pointer and its length, and with `= numbers`.
macro_rules! call {
    ($call:expr; [$($given:expr),*]) => {
        // SAFETY: each pointer has its length, and what is lent outlives the call.
        unsafe { $call($($given),*) }
    };
    ($call:expr; [$($given:expr),*] = $number:expr $(, $($more:tt)*)?) => {
        call!($call; [$($given,)* $number] $($($more)*)?)
    };
    ($call:expr; [$($given:expr),*] $slice:ident $(, $($more:tt)*)?) => {
        call!($call; [$($given,)* $slice.as_ptr(), $slice.len()] $($($more)*)?)
    };
}

/// What a call answers: its numbers.
type Answer = Vec<u32>;

/// What is lent to the calls.
#[derive(Clone, Copy)]
struct Lent<'a> {
    caller: &'a str,
    appid: &'a str,
    record: &'a [u8],
    text: &'a str,
    body: &'a str,
    table: &'a str,
}

impl Lent<'_> {
    fn label(self, library: &Library) -> Answer {
        let Lent { caller: host, table, .. } = self;
        vec![call!(library.label; [] host, table)]
    }

    fn decide(self, library: &Library) -> Answer {
        let Lent { caller, appid, record, text, body, table } = self;
        let ((major, minor), mut place) = (VERSION, u32::MAX);
        let code = call!(
            library.decide;
            [] caller, appid, = major, = minor, record, text, body, table, = &mut place
        );
        vec![code.into(), place]
    }

    fn locate(self, library: &Library) -> Answer {
        let Lent { caller, appid, record, text, .. } = self;
        let Fields(location) = call!(library.locate; [] caller, appid, record, text);
        location.into()
    }

    fn clean(self, library: &Library, out: &mut [u8]) -> Answer {
        let Lent { appid, body, table, .. } = self;
        let (major, minor) = VERSION;
        let (to, room) = (out.as_mut_ptr(), out.len());
        let Fields(cleaned) = call!(library.clean; [] appid, = major, = minor, body, table, = to, = room);
        cleaned.into()
    }

    fn tally(self, library: &Library) -> Answer {
        let Lent { appid, body, table, .. } = self;
        let (major, minor) = VERSION;
        let Fields(counts) = call!(library.tally; [] appid, = major, = minor, body, table);
        counts.into()
    }
}

/// So many turns, in each of them a round of one millisecond by each build.
const TURNS: usize = 101;
const ROUND: Duration = Duration::from_millis(1);

struct Rows {
    libraries: [Library; 2],
    /// Of the rows with the same answer by both.
    ratios: Vec<(f64, String)>,
}

impl Rows {
    fn row(&mut self, name: &str, mut call: impl FnMut(&Library) -> Answer) {
        let [before, after] = [0, 1].map(|which| call(&self.libraries[which]));
        let start = Instant::now();
        black_box(call(&self.libraries[0]));
        let calls = (ROUND.as_nanos() / start.elapsed().as_nanos().max(20)).max(1);
        let mut fastest = [f64::MAX; 2];
        let mut turn = || {
            let mut times = [0.0; 2];
            for ((library, time), fastest) in self.libraries.iter().zip(&mut times).zip(&mut fastest) {
                let round = Instant::now();
                for _ in 0..calls {
                    black_box(call(library));
                }
                *time = round.elapsed().as_nanos() as f64 / calls as f64;
                *fastest = fastest.min(*time);
            }
            times[1] / times[0]
        };
        let mut turns: Vec<f64> = (0..TURNS).map(|_| turn()).collect();
        turns.sort_by(f64::total_cmp);
        let ratio = turns[TURNS / 2];
        let [before_time, after_time] = fastest.map(microseconds);
        let other = if before == after { "" } else { ", other answers" };
        println!("| {name}{other} | {before_time} | {after_time} | {ratio:.2} |");
        if before == after {
            self.ratios.push((ratio, name.to_owned()));
        }
    }

    /// What is decided without a list, and labels.
    fn short(&mut self, table: &str) {
        let answered = Lent { caller: "", appid: "", record: &[2, 0, 200, 1], text: "", body: "", table };
        let app = "ios:bundle-id:com.acme.app";
        let url = "https://www.example.com:8443/appID";
        for (name, caller, appid) in [
            ("refusal 1", "stranger", url),
            ("rule 1", app, app),
            ("rule 2", app, ""),
            ("rule 3", "https://www.example.com", url),
            ("refusal 9 to 12", "https://a.example.com", url),
        ] {
            let lent = Lent { caller, appid, ..answered };
            self.row(&format!("decide, {name}"), |library| lent.decide(library));
        }
        let fetch = Lent { caller: "https://a.example.com:8443", appid: url, record: &[], ..answered };
        self.row("decide, fetch", |library| fetch.decide(library));
        self.row("location", |library| fetch.locate(library));
        for host in ["www.example.com", "a.b.c.d.e.f.g.h.i.j.k.example.co.uk"] {
            let lent = Lent { caller: host, ..answered };
            self.row(&format!("label of {host}"), |library| lent.label(library));
        }
    }

    fn list(&mut self, (table, text): (&str, &str), owner: &str, body: &Body) {
        let appid = format!("https://www.{owner}/appID");
        let answered = Lent {
            caller: "",
            appid: &appid,
            record: &[2, 0, 200, 1],
            text: "",
            body: &body.text,
            table: text,
        };
        let name = |call: &str| format!("{table}, {}, {call}", body.name);
        let web = |start: &str| format!("https://{start}.{owner}");
        for (call, caller) in [
            ("decide, native, no entry", "ios:bundle-id:com.acme.none".to_owned()),
            ("decide, web, second entry", web("first")),
            ("decide, web, last entry but one", web("last")),
            ("decide, web, no entry", web("none")),
        ] {
            let lent = Lent { caller: &caller, ..answered };
            self.row(&name(call), |library| lent.decide(library));
        }
        let mut out = vec![0; 65_536];
        let length = answered.clean(&self.libraries[0], &mut out)[1] as usize;
        self.row(&name("clean"), |library| answered.clean(library, &mut out));
        let out = &mut out[..length];
        self.row(&name("clean, output just long enough"), |library| answered.clean(library, out));
        self.row(&name("tally"), |library| answered.tally(library));
    }
}

fn main() {
    // Cargo itself passes `--bench`.
    let paths: Vec<String> = env::args().skip(1).filter(|argument| !argument.starts_with('-')).collect();
    let [before, after] = &paths[..] else {
        println!("two shared objects are wanted, see benches/beside.rs");
        return;
    };
    let mut rows = Rows { libraries: [before, after].map(|path| Library::open(path)), ratios: Vec::new() };
    println!("Microseconds a call, the fastest of {TURNS} rounds of 1 ms; the ratio is the median of {TURNS} turns.\n");
    println!("| table, list, call | before | after | ratio |\n|---|---:|---:|---:|");
    let published = published::table();
    rows.short("com\n");
    for table in [("com", "com\n"), ("published", &published)] {
        for body in inputs::common("example.com").iter().chain(&inputs::worst()) {
            rows.list(table, "example.com", body);
        }
    }
    for body in &inputs::common("amazonaws.com") {
        rows.list(("amazonaws", &published), "amazonaws.com", body);
    }
    let mut ratios = rows.ratios;
    ratios.sort_by(|one, other| one.0.total_cmp(&other.0));
    let [(least, _), (middle, _), (most, row)] =
        [0, ratios.len() / 2, ratios.len() - 1].map(|at| &ratios[at]);
    println!(
        "\n{} rows with the same answers: {least:.2} to {most:.2} ({row}), median {middle:.2}",
        ratios.len()
    );
}
