//! Private labels of hosts under a table of public suffix rules.

use crate::ffi;

/// The part of `host` that is its private label, letters as given; empty where there is none.
///
/// `table` holds one public suffix rule a line: a host, `*`, `*.` and a host (a wildcard), or `!` and a host
/// of two labels or more (an exception). A line counts up to its first space, tab or CR; blank lines and
/// those that begin with `//` are skipped. Names stand in `xn--` form.
///
/// The private label is the host's public suffix and one label more. The part is empty where the host is
/// malformed, where the table is bad or longer than 1,048,576 bytes, where the host equals its public suffix,
/// and where the host's last label is all digits (an address).
///
/// ```
/// let table = b"com\n*.ck\n!www.ck\n";
/// assert_eq!(facets_hub::private_label(b"www.Example.com", table), b"Example.com");
/// assert_eq!(facets_hub::private_label(b"www.ck", table), b"www.ck");
/// assert_eq!(facets_hub::private_label(b"b.ck", table), b"");
/// ```
pub fn private_label<'a>(host: &'a [u8], table: &[u8]) -> &'a [u8] {
    let length = ffi::private_label(host, table) as usize;
    &host[host.len() - length..]
}
