//! Cases written by hand from document 01 and its agreed readings; `NONE` is no label.

use super::check;

const NONE: &str = "";

#[test]
fn the_eleven_label_cases() {
    let table = "com\nhosting.example.com\n*.ck\n!www.ck\n";
    for (host, label) in [
        ("www.example.com", "example.com"),
        ("com", NONE),
        ("hosting.example.com", NONE),
        ("companyA.hosting.example.com", "companyA.hosting.example.com"),
        ("a.companyA.hosting.example.com", "companyA.hosting.example.com"),
        ("b.ck", NONE),
        ("a.b.ck", "a.b.ck"),
        ("www.ck", "www.ck"),
        ("ck", NONE),
        ("x.y.zz", "y.zz"),
        ("192.0.2.1", NONE),
    ] {
        check(host, table, label);
    }
}

#[test]
fn malformed_hosts_have_no_label() {
    for host in [
        "", ".", "..", ".b.c", "a..c", "b.c.", "a b.c", " b.c", "b.c ", "b_d.c", "-b.c", "b-.c", "b.-c",
        "b.c-", "-", "*.c", "!b.c", "b.c:443", "https://b.c", "b.c/", "b.c\n", "b.c\0", "b\0.c", "ü.c",
        "b.ü", "b@c", "b[c", "b`c", "b{c", "b.c\u{7f}",
    ] {
        check(host, "c\n", NONE);
    }
    check(b"\xff.c", "c\n", NONE);
    check("b--d.c", "c\n", "b--d.c");
    check("0.c", "c\n", "0.c");
}

#[test]
fn tables_without_rules_leave_the_rule_star() {
    for table in ["", "\n", "\n\n", "//", "// c.b", "//c\n", " ", "\t", "\r\n", " \t\r\n//\n \n"] {
        check("a.b.c", table, "b.c");
        check("b.c", table, "b.c");
        check("c", table, NONE);
    }
}

#[test]
fn a_line_is_read_up_to_its_first_blank() {
    for table in ["b.c d", "b.c\td", "b.c\rd", "b.c\r\n", "b.c !", "b.c //", "b.c \u{fc}\0", "b.c\t\n"] {
        check("a.b.c", table, "a.b.c");
        check("b.c", table, NONE);
    }
    // Not trimmed: with a blank first nothing is left.
    for table in [" b.c", "\tb.c", "\rb.c", " -", "\t*x\n"] {
        check("a.b.c", table, "b.c");
    }
}

#[test]
fn the_last_line_counts_with_or_without_its_lf() {
    check("a.b.c", "c\nb.c", "a.b.c");
    check("a.b.c", "c\nb.c\n", "a.b.c");
    check("a.b.c", "c\n-", NONE);
    check("a.b.c", "c\n-\n", NONE);
}

#[test]
fn another_line_makes_the_table_bad() {
    for line in [
        "*com", "a.*", "a.*.c", "*.", "**", "*.*", "*.*.c", "*!", "*.!b.c", "*c.b", "!", "!c", "!*", "!*.ck",
        "!!b.c", "!.b.c", "!b..c", "!b.c.", "!-b.c", ".", ".c", "c.", "b..c", "-c", "c-", "b_c", "/", "/ /",
        "/c", "c//", "com//x", "\u{b}", "\u{c}c", "c\u{b}", "c\0", "\0", "\u{feff}", "\u{feff}c",
        "\u{feff}//", "公司.cn", "*.ü", "!b.ü", "c\u{a0}", "c;", "#c",
    ] {
        for table in
            [line.to_owned(), format!("{line}\n"), format!("c\n{line}\nb.c\n"), format!("// \n\n{line} ")]
        {
            check("a.b.c", table, NONE);
        }
    }
    check("a.b.c", b"c\n\x80\n", NONE);
    // A line that is another only behind its first blank, or in a comment, is none of these.
    check("a.b.c", "c !\n//!\n// \u{feff}\0\n", "b.c");
}

#[test]
fn a_rule_matches_whole_labels_from_the_end() {
    check("a.xb.c", "b.c", "xb.c");
    check("a.b.cx", "b.c", "b.cx");
    check("a.b.c.d", "b.c", "c.d");
    check("c", "b.c", NONE);
    check("b-c", "c", NONE);
    check("a.b-c", "c", "a.b-c");
}

#[test]
fn hosts_and_rules_compare_without_case_and_keep_their_letters() {
    check("A.b.C", "B.c", "A.b.C");
    check("x.WwW.Ck", "*.CK\n!wWw.cK", "WwW.Ck");
    check("Q.A.B.c", "*.b.C", "Q.A.B.c");
    check("AZ.az.09-9Z", "AZ.09-9z", "AZ.az.09-9Z");
    // Bytes 32 apart that are no letters: 0x10 and '0', '-' and 0x0D.
    check("x.a0", "b\n", "x.a0");
    check("x.a\u{10}", "a0\n", NONE);
}

#[test]
fn of_matching_rules_the_one_with_most_labels_prevails() {
    for table in ["c\nb.c\na.b.c", "a.b.c\nb.c\nc", "b.c\na.b.c\nc\nb.c\nc"] {
        check("x.a.b.c", table, "x.a.b.c");
        check("a.b.c", table, NONE);
        check("x.b.c", table, "x.b.c");
        check("x.c", table, "x.c");
    }
    check("y.x.b.c", "*.b.c\nb.c", "y.x.b.c");
    check("y.x.b.c", "b.c\n*.c", "x.b.c");
    check("x.b.c", "*.b.c\nb.c", NONE);
    check("b.c", "*.b.c\nb.c", NONE);
    check("b.c", "*.b.c", "b.c");
    check("a.b", "*", "a.b");
    check("b", "*", NONE);
    check("x.a.b", "*\na.b", "x.a.b");
}

#[test]
fn an_exception_prevails_over_every_other_rule() {
    // Also where no other rule matches, and over rules with more labels.
    check("b.c", "!b.c", "b.c");
    check("a.b.c", "!b.c", "b.c");
    check("c", "!b.c", NONE);
    check("x.a.b.c", "x.a.b.c\n*.a.b.c\n!b.c\na.b.c", "b.c");
    check("x.a.b.c", "!b.c\nx.a.b.c", "b.c");
    // Among exceptions most labels, in either order.
    check("x.a.b.c", "!b.c\n!a.b.c", "a.b.c");
    check("x.a.b.c", "!a.b.c\n!b.c", "a.b.c");
    // The same name with and without `!`.
    check("b.c", "b.c\n!b.c", "b.c");
    check("b.c", "!b.c\nb.c", "b.c");
}

#[test]
fn repeated_rules_are_harmless() {
    check("a.b.c", "b.c\nB.C\nb.c\n", "a.b.c");
    check("a.b.c", "!b.c\n!b.c\n*.c\n*.c\n", "b.c");
}

#[test]
fn an_all_digit_last_label_is_an_address() {
    for table in ["", "1\n", "2.1\n", "*\n", "*.1\n", "!2.1\n", "!3.2.1\n*.1\n", "c\n"] {
        for host in ["1", "2.1", "3.2.1", "a.1", "a.b.00", "127.0.0.1", "a.b.1234567890"] {
            check(host, table, NONE);
        }
    }
    check("2.1a", "", "2.1a");
    check("2.a1", "", "2.a1");
    check("2.1-1", "", "2.1-1");
    check("1.2.c", "c", "2.c");
}
