//! Both sides of every bound, expected values by hand from document 01.

use super::check;

const NONE: &str = "";
const TABLE_MAX: usize = 1_048_576;

/// A label of `length` letters.
fn label(length: usize) -> String {
    "l".repeat(length)
}

/// A name of `length` bytes: labels of 63, 63, 63 and as many as are left, then `end`.
fn name(length: usize, end: &str) -> String {
    let long = label(63);
    let rest = length - 3 * 64 - 1 - end.len();
    let name = format!("{}.{long}.{long}.{long}.{end}", label(rest));
    assert_eq!(name.len(), length);
    name
}

#[test]
fn a_hosts_label_has_at_most_63_bytes() {
    for (length, fits) in [(1, true), (62, true), (63, true), (64, false), (65, false)] {
        let long = label(length);
        for host in [format!("{long}.c"), format!("b.{long}"), format!("b.{long}.c")] {
            let expected = match host.split('.').count() {
                2 => host.clone(),
                _ => format!("{long}.c"),
            };
            check(&host, "c", if fits { &expected } else { NONE });
            // Also a label that is no part of the private label.
            check(format!("{long}.x.c"), "c", if fits { "x.c" } else { NONE });
        }
    }
}

#[test]
fn a_host_has_at_most_253_bytes() {
    for (length, fits) in [(252, true), (253, true), (254, false), (255, false)] {
        check(name(length, "b.c"), "c", if fits { "b.c" } else { NONE });
        // 1 or 2 bytes a label.
        let short = "a.".repeat(length / 2 - 1) + if length % 2 == 0 { "bc" } else { "b.c" };
        assert_eq!(short.len(), length);
        let expected = if length % 2 == 0 { "a.bc" } else { "b.c" };
        check(short, "c", if fits { expected } else { NONE });
    }
    check("c", "", NONE);
    check("", "", NONE);
}

#[test]
fn a_rules_label_has_at_most_63_bytes() {
    for (length, good) in [(63, true), (64, false)] {
        let long = label(length);
        for rule in [format!("{long}.z"), format!("*.{long}"), format!("!{long}.z"), format!("!z.{long}")] {
            check("a.b.c", rule, if good { "b.c" } else { NONE });
        }
    }
}

/// Lines that cannot match are passed over several bytes at a time, so each length stands at each offset.
#[test]
fn a_rules_label_has_at_most_63_bytes_where_its_line_is_passed_over() {
    for length in 56..=68 {
        let long = label(length);
        for offset in 0..8 {
            let before = format!("{}\n", "z".repeat(offset + 1));
            for line in [long.clone(), format!("{long}.z"), format!("z.{long}")] {
                let table = format!("{before}{line}\nz.z\nz.z\n");
                check("a.b.c", table, if length <= 63 { "b.c" } else { NONE });
            }
        }
    }
}

#[test]
fn a_rules_name_has_at_most_253_bytes_without_its_exception_mark() {
    for (length, good) in [(252, true), (253, true), (254, false), (255, false)] {
        let name = name(length, "z");
        let wildcard = format!("*.{}", &name[2..]);
        assert_eq!(wildcard.len(), length);
        for rule in [name.clone(), wildcard, format!("!{name}")] {
            check("a.b.c", format!("b.c\n{rule}\n"), if good { "a.b.c" } else { NONE });
            check("a.b.c", format!("{rule} \nb.c"), if good { "a.b.c" } else { NONE });
        }
    }
    // Comments and what stands behind a blank have no bound but the table's.
    check("a.b.c", format!("b.c {}\n//{}\n", label(254), label(300)), "a.b.c");
}

#[test]
fn the_longest_host_meets_the_longest_rules() {
    let host = name(253, "z");
    let parent = host.split_once('.').unwrap().1;
    let wildcard = format!("*.{parent}");
    check(&host, &host, NONE);
    check(&host, parent, &host);
    check(&host, wildcard, NONE);
    check(&host, format!("!{host}"), &host);
    check(&host, format!("z\n{}", host.to_uppercase()), NONE);
}

/// `rules` and as much of `filler` as makes the table `length` bytes long.
fn table(rules: &str, filler: &str, length: usize) -> String {
    let room = length - rules.len();
    let mut fill = filler.repeat(room / filler.len());
    fill.push_str(&"\n".repeat(room - fill.len()));
    fill + rules
}

#[test]
fn a_table_has_at_most_1048576_bytes() {
    let comment = format!("//{}\n", "ü*!".repeat(100));
    for filler in ["\n", " \t\r\n", "x.y\n", "*.y\n", "!x.y\n", &comment] {
        for (length, good) in [(TABLE_MAX, true), (TABLE_MAX + 1, false)] {
            // The rule that decides stands at the very end.
            let table = table("\nb.c", filler, length);
            assert_eq!(table.len(), length);
            check("a.b.c", &table, if good { "a.b.c" } else { NONE });
        }
    }
}

#[test]
fn a_long_table_is_bad_by_a_line_at_its_very_end() {
    check("a.b.c", table("\n-", "b.c\n", TABLE_MAX), NONE);
    check("a.b.c", table("\n*", "b.c\n", TABLE_MAX), "a.b.c");
    // One line as long as the table: a comment, and the same bytes without the comment's mark.
    let line = label(TABLE_MAX - 2);
    check("a.b.c", format!("//{line}"), "b.c");
    check("a.b.c", format!("{line}//"), NONE);
    check("a.b.c", format!(" {line}-"), "b.c");
}
