//! Nanoseconds for one private label on the published table: the proved library, which reads the table on
//! every call and keeps nothing, beside the crate `publicsuffix` and libpsl, which read it once before.

#[path = "../tests/hub/published.rs"]
mod published;
mod timing;

use facets_hub::private_label;
use publicsuffix::{List, Psl};
use std::{ffi::CString, hint::black_box};
use timing::{timed, ALL, HOW};

/// libpsl by its C calls; needs Debian's package libpsl-dev.
mod libpsl {
    use std::ffi::{c_char, CStr, CString};

    #[repr(C)]
    pub struct Context([u8; 0]);

    #[link(name = "psl")]
    extern "C" {
        fn psl_load_file(name: *const c_char) -> *mut Context;
        fn psl_free(context: *mut Context);
        fn psl_registrable_domain(context: *const Context, domain: *const c_char) -> *const c_char;
    }

    pub struct List(*mut Context);

    impl List {
        pub fn load(file: &str) -> List {
            let name = CString::new(file).expect("no NUL");
            // SAFETY: the name is a C string; the result is owned by the new List.
            let context = unsafe { psl_load_file(name.as_ptr()) };
            assert!(!context.is_null(), "libpsl reads {file}");
            List(context)
        }

        /// The length of the host's registrable domain; 0 where there is none.
        pub fn domain(&self, host: &CStr) -> usize {
            // SAFETY: the context lives as long as self; the result is null or a C string within `host`.
            unsafe {
                let domain = psl_registrable_domain(self.0, host.as_ptr());
                if domain.is_null() {
                    0
                } else {
                    CStr::from_ptr(domain).count_bytes()
                }
            }
        }
    }

    impl Drop for List {
        fn drop(&mut self) {
            // SAFETY: the context is owned and freed once.
            unsafe { psl_free(self.0) }
        }
    }
}

fn nanoseconds<T>(call: impl FnMut() -> T) -> f64 {
    timed(ALL, call).1
}

fn main() {
    let text = published::list();
    let table = published::table();
    let rules = published::rules(&table).join("\n");
    let list: List = text.parse().expect("the published list");
    let psl = libpsl::List::load(published::LIST);

    println!("Nanoseconds a lookup: {HOW}.");
    println!("facets:       the published table, {} bytes, read on every call", table.len());
    println!("facets rules: the same without comments and blank lines, {} bytes", rules.len());
    println!("publicsuffix, libpsl: the published table, read before\n");
    println!(
        "{:<34}{:>8}{:>12}{:>14}{:>14}{:>10}",
        "host", "label", "facets", "facets rules", "publicsuffix", "libpsl"
    );
    let deep = "a.b.c.d.e.f.g.h.i.j.example.co.uk";
    let longest = format!("{}{}.com", "a.".repeat(93), "l".repeat(63));
    let names = ["com", "www.example.com", "www.example.co.uk", deep, &longest, "x.y.zz"];
    let starred = ["b.ck", "a.b.ck", "www.ck", "a.b.c.kobe.jp", "www.city.kobe.jp"];
    // The others take these for names and look them up; document 01 gives them no label.
    let other = ["192.0.2.1", "www..example.com"];
    for (hosts, names) in [(&names[..], true), (&starred[..], true), (&other[..], false)] {
        for host in hosts {
            let bytes = host.as_bytes();
            let c_host = CString::new(*host).expect("no NUL");
            let ours = || private_label(black_box(bytes), black_box(table.as_bytes())).len();
            let ours_rules = || private_label(black_box(bytes), black_box(rules.as_bytes())).len();
            let crates = || list.domain(black_box(bytes)).map_or(0, |domain| domain.as_bytes().len());
            let libpsls = || psl.domain(black_box(&c_host));
            if names {
                assert_eq!([ours(), ours_rules(), crates(), libpsls()], [ours(); 4], "{host}");
            }
            println!(
                "{:<34}{:>8}{:>12.0}{:>14.0}{:>14.0}{:>10.0}",
                if host.len() > 33 { format!("a.a...com, {} bytes", host.len()) } else { host.to_string() },
                ours(),
                nanoseconds(ours),
                nanoseconds(ours_rules),
                nanoseconds(crates),
                nanoseconds(libpsls)
            );
        }
    }
    println!("\nReading the table once, nanoseconds:");
    println!("publicsuffix (from memory) {:>12.0}", nanoseconds(|| text.parse::<List>()));
    println!("libpsl (from its file)     {:>12.0}", nanoseconds(|| libpsl::List::load(published::LIST)));
}
