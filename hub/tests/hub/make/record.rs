//! Fetch records and the text of their Locations.

use crate::random::Random;

pub struct Redirect {
    pub status: u16,
    pub header: u8,
    pub location: Vec<u8>,
}

pub struct Answer {
    pub status: u16,
    pub kind: u8,
}

/// The record of these hops and this answer, and the text that holds their Locations, other bytes between.
pub fn record(random: &mut Random, hops: &[Redirect], answer: Option<Answer>) -> (Vec<u8>, Vec<u8>) {
    let (mut record, mut text) = (Vec::new(), Vec::new());
    for hop in hops {
        if random.chance(30) {
            text.extend(random.pick(&[&b" "[..], b"https://", b"\xff\0", b"\r\n"]));
        }
        let start = text.len() as u16;
        text.extend(&hop.location);
        record.extend(redirect(hop.status, hop.header, start, hop.location.len() as u16));
    }
    if random.chance(30) {
        text.extend(b"/more");
    }
    record.extend(answer.map_or(Vec::new(), |answer| self::answer(answer.status, answer.kind)));
    (record, text)
}

pub fn redirect(status: u16, header: u8, start: u16, length: u16) -> Vec<u8> {
    let [start, length, status] = [start, length, status].map(u16::to_be_bytes);
    [&[1], &status[..], &[header], &start, &length].concat()
}

pub fn answer(status: u16, kind: u8) -> Vec<u8> {
    [&[2], &status.to_be_bytes()[..], &[kind]].concat()
}

/// Makes a record bad in its layout or by a Location past the text's end.
pub fn spoil(random: &mut Random, record: &mut Vec<u8>, text: &mut Vec<u8>) {
    let redirects = record.len() / 8;
    let answered = record.len() % 8 == 4;
    match random.below(8) {
        // A byte too many or too few.
        0 => record.push(random.pick(&[&0, &1, &2, &3, &255]).to_owned()),
        1 if !record.is_empty() => {
            record.pop();
        }
        // An item after the answer, or two answers.
        2 if answered => record.extend(redirect(302, 1, 0, 0)),
        3 if answered => record.extend(answer(200, 1)),
        // A kind that is none.
        4 if !record.is_empty() => {
            let item = 8 * random.below(redirects + usize::from(answered));
            record[item] = [0, 3, 4, 255][random.below(4)];
        }
        5 if redirects > 0 => {
            // A status or a header that a redirect cannot have.
            let item = 8 * random.below(redirects);
            match random.below(2) {
                0 => {
                    let status: u16 = [0, 200, 299, 400, 401, 302 + 512, 65535][random.below(7)];
                    record[item + 1..item + 3].copy_from_slice(&status.to_be_bytes());
                }
                _ => record[item + 3] = [2, 255][random.below(2)],
            }
        }
        6 if answered => {
            let last = record.len() - 1;
            record[last] = [2, 255][random.below(2)];
        }
        7 if redirects > 0 => {
            // A Location that passes the text's end.
            let item = 8 * random.below(redirects);
            let number = |at: usize| usize::from(record[at]) * 256 + usize::from(record[at + 1]);
            let end = number(item + 4) + number(item + 6);
            if end > 0 && random.chance(50) {
                text.truncate(end - 1);
            } else {
                let at = item + [4, 6][random.below(2)];
                record[at] = 255;
            }
        }
        _ => {
            // Nine redirects.
            let more: Vec<u8> = (redirects..9).flat_map(|_| redirect(301, 1, 0, 0)).collect();
            record.splice(0..0, more);
        }
    }
}
