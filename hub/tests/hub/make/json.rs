//! JSON texts: a tree, written with or without blanks and escapes.

use crate::random::Random;

#[derive(Clone, Debug)]
pub enum Json {
    /// Written as it stands, be it JSON or not.
    Raw(String),
    Text(String),
    Array(Vec<Json>),
    Object(Vec<(String, Json)>),
}

impl Json {
    pub fn text(text: &str) -> Json {
        Json::Text(text.to_owned())
    }

    pub fn raw(text: &str) -> Json {
        Json::Raw(text.to_owned())
    }

    /// The first member of this name.
    pub fn member(&mut self, name: &str) -> &mut Json {
        let members = self.members();
        let at = members.iter().position(|member| member.0 == name).expect("a member");
        &mut members[at].1
    }

    pub fn members(&mut self) -> &mut Vec<(String, Json)> {
        match self {
            Json::Object(members) => members,
            other => panic!("{other:?} is no object"),
        }
    }

    pub fn elements(&mut self) -> &mut Vec<Json> {
        match self {
            Json::Array(elements) => elements,
            other => panic!("{other:?} is no array"),
        }
    }

    /// The text without blanks or needless escapes.
    pub fn plain(&self) -> String {
        // No choice is left.
        self.write(&mut Random::new(0), Style { blanks: 0, escapes: 0 })
    }

    pub fn write(&self, random: &mut Random, style: Style) -> String {
        let mut out = style.blank(random);
        match self {
            Json::Raw(raw) => out += raw,
            Json::Text(text) => out += &style.string(random, text),
            Json::Array(elements) => {
                let elements: Vec<String> = elements.iter().map(|e| e.write(random, style)).collect();
                let empty = if elements.is_empty() { style.blank(random) } else { String::new() };
                out += &format!("[{}{empty}]", elements.join(","));
            }
            Json::Object(members) => {
                let member = |(name, value): &(String, Json)| {
                    let name = style.blank(random) + &style.string(random, name) + &style.blank(random);
                    format!("{name}:{}", value.write(random, style))
                };
                let members: Vec<String> = members.iter().map(member).collect();
                out += &format!("{{{}}}", members.join(","));
            }
        }
        out + &style.blank(random)
    }
}

/// How often, of 100, a blank stands where one may, and a character is escaped that need not be.
#[derive(Clone, Copy, Debug)]
pub struct Style {
    pub blanks: usize,
    pub escapes: usize,
}

impl Style {
    pub fn any(random: &mut Random) -> Style {
        let blanks = [0, 10, 40][random.below(3)];
        Style { blanks, escapes: [0, 0, 5, 60][random.below(4)] }
    }

    fn blank(self, random: &mut Random) -> String {
        if !random.chance(self.blanks) {
            return String::new();
        }
        random.pick(&[" ", "\n", "\t", "\r\n", "  "]).to_owned()
    }

    fn string(self, random: &mut Random, text: &str) -> String {
        let mut out = String::from("\"");
        for c in text.chars() {
            let must = c < ' ' || c == '"' || c == '\\';
            if must || random.chance(self.escapes) {
                out += &escape(random, c);
            } else {
                out.push(c);
            }
        }
        out + "\""
    }
}

/// A character as an escape: a short one where there is one, or `\u` in either case, paired where needed.
fn escape(random: &mut Random, c: char) -> String {
    const SHORT: [(char, &str); 8] = [
        ('"', "\\\""),
        ('\\', "\\\\"),
        ('/', "\\/"),
        ('\u{8}', "\\b"),
        ('\u{c}', "\\f"),
        ('\n', "\\n"),
        ('\r', "\\r"),
        ('\t', "\\t"),
    ];
    let short = SHORT.iter().find(|short| short.0 == c);
    if let (Some(short), true) = (short, random.chance(50)) {
        return short.1.to_owned();
    }
    let mut units = [0; 2];
    let units = c.encode_utf16(&mut units).iter();
    let hex =
        |unit: &u16| if random.chance(50) { format!("\\u{unit:04x}") } else { format!("\\u{unit:04X}") };
    units.map(hex).collect()
}

/// Arrays and objects in each other, so many open together.
pub fn nest(random: &mut Random, depth: usize) -> Json {
    let innermost: &[&str] = if depth == 0 { &["1", "\"\""] } else { &["", "1", "\"\""] };
    let mut raw = random.pick(innermost).to_owned();
    for level in 0..depth {
        raw = match (random.below(2), level) {
            (0, 0) => "{}".to_owned(),
            (0, _) if !raw.is_empty() => format!("{{\"n\":{raw}}}"),
            _ => format!("[{raw}]"),
        };
    }
    Json::Raw(raw)
}

/// Any readable value, of at most so many levels.
pub fn any(random: &mut Random, levels: usize) -> Json {
    match random.below(if levels == 0 { 4 } else { 7 }) {
        0 => Json::raw(random.pick(&["true", "false", "null"])),
        1 => Json::raw(random.pick(&[
            "0", "-0", "1", "-12", "1.50", "-0.0E-2", "1e999", "1E+0", "1e-9", "65536", "9e00",
            "123456789012345678901234567890",
        ])),
        2 | 3 => Json::text(random.pick(&[
            "",
            "a",
            "https://a.b.c",
            "\0\u{1}\u{1f}\"\\/\u{8}\u{c}\n\r\t\u{7f}",
            "\u{80}\u{7ff}\u{800}\u{d7ff}\u{e000}\u{ffff}",
            "\u{10000}\u{1f511}\u{10ffff}",
            "trustedFacets",
            "]}],:{[",
        ])),
        4 => Json::Array((0..random.below(3)).map(|_| any(random, levels - 1)).collect()),
        5 => {
            let member = |random: &mut Random| (other_name(random), any(random, levels - 1));
            Json::Object((0..random.below(3)).map(|_| member(random)).collect())
        }
        _ => {
            let depth = random.below(levels + 1);
            nest(random, depth)
        }
    }
}

/// A member's name that document 01 does not ask for.
pub fn other_name(random: &mut Random) -> String {
    random
        .pick(&[
            "", "x", "x", "Ids", "id", "idss", "ids\0", "versio", "versions", "Major", "mino",
            "trustedfacets", "trustedFacet", "trustedFacetsx", "\u{1f511}", "//", "\u{e9}",
        ])
        .to_owned()
}

/// What no JSON text holds as a value.
pub const UNREADABLE: [&str; 50] = [
    r#""\ud800""#, r#""\udc00""#, r#""\uDC00\uD800""#, r#""\ud800x""#, r#""\ud800\u0041""#,
    r#""\ud800\ud800\udc00""#, r#""\udbff\\udfff""#, r#""\ud83d\n""#, r#""\x41""#, r#""\u12g4""#,
    r#""\u123""#, r#""\u 123""#, r#""\u+123""#, r#""\U0041""#, r#""\'""#, r#""\0""#, r#""\a""#, r#""\v""#,
    "\"\\\n\"", "\"\t\"", "\"\n\"", "\"\0\"", "\"\u{1f}\"", "'a'", "\"", "01", "-01", "00", "1.", ".5", "+1",
    "1e", "1e+", "1.e1", "-", "- 1", "0x10", "1_000", "NaN", "tru", "nulll", "True", "[1,]", "[,1]", "[1 2]",
    "{\"a\":1,}", "{\"a\" 1}", "{a:1}", "// c\n1", "/**/1",
];

/// Byte sequences that are not UTF-8: overlong, surrogates, past the last code point, cut short.
pub const NO_UTF8: [&[u8]; 11] = [
    b"\xff", b"\x80", b"\xc0\xaf", b"\xc1\xbf", b"\xe0\x9f\xbf", b"\xed\xa0\x80", b"\xed\xbf\xbf",
    b"\xf0\x8f\xbf\xbf", b"\xf4\x90\x80\x80", b"\xf5\x80\x80\x80", b"\xe2\x82",
];
