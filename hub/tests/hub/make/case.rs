//! Whole inputs, each made for one outcome.

use super::{
    identifier::{
        bad_url, facet, foreign, host, long, native, no_facet, origin, other_scheme, relative, sibling, url,
    },
    json::Style,
    list,
    record::{self, Answer, Redirect},
    table::{bad_table, damage, table, table_near},
};
use crate::{case::Case, model::identifier as model, random::Random};

/// The decision's answers, as codes, in the order in which document 01 comes to them.
pub const DECISIONS: [u16; 19] =
    [101, 102, 2, 1, 103, 3, 104, 105, 106, 5, 107, 108, 109, 110, 111, 112, 113, 4, 114];

/// What cleaning and tally come to, as codes; 115 and 0, success, depend on the output.
pub const CLEANINGS: [u16; 8] = [102, 103, 109, 110, 111, 112, 113, 0];

/// Which outcomes an input gives reason for: none before the wanted one, some after it.
struct Plan<'a> {
    order: &'a [u16],
    wanted: usize,
}

impl Plan<'_> {
    fn has(&self, random: &mut Random, code: u16) -> bool {
        match self.order.iter().position(|&c| c == code) {
            None => false,
            Some(at) => at == self.wanted || at > self.wanted && random.chance(10),
        }
    }
}

/// Inputs for the decision of this place in `DECISIONS`.
pub fn decision(random: &mut Random, wanted: usize) -> Case {
    let plan = Plan { order: &DECISIONS, wanted };
    let host = host(random);
    let mut case = Case::default();
    let appid = appid(random, &plan, &host);
    let entries = list(random, &plan, &host, &mut case);
    let caller = caller(random, &plan, &host, &appid, &entries);
    case.appid = if plan.has(random, 2) {
        Vec::new()
    } else if plan.has(random, 1) {
        caller.clone()
    } else {
        appid
    };
    case.caller = caller;
    fetched(random, &plan, &host, &mut case);
    let Case { caller, appid, record, text, body, table, .. } = &mut case;
    seldom_damage(random, &mut [caller, appid, record, text, body, table]);
    case
}

/// Inputs for cleaning and tally, for the outcome of this place in `CLEANINGS`.
pub fn cleaning(random: &mut Random, wanted: usize) -> Case {
    let plan = Plan { order: &CLEANINGS, wanted };
    let host = host(random);
    let mut case = Case { appid: appid(random, &plan, &host), ..Case::default() };
    list(random, &plan, &host, &mut case);
    let Case { appid, body, table, .. } = &mut case;
    seldom_damage(random, &mut [appid, body, table]);
    case
}

/// Changes one byte of one of these parts, in 4 of 100 inputs.
fn seldom_damage(random: &mut Random, parts: &mut [&mut Vec<u8>]) {
    if random.chance(4) {
        let at = random.below(parts.len());
        damage(random, parts[at]);
    }
}

fn appid(random: &mut Random, plan: &Plan, host: &str) -> Vec<u8> {
    let appid = if plan.has(random, 102) {
        bad_url(random, host)
    } else if plan.has(random, 103) {
        // In the decision the empty AppID comes to rule 2 before.
        let empty = plan.order == CLEANINGS && random.chance(10);
        if empty {
            String::new()
        } else {
            foreign(random, host)
        }
    } else {
        url(random, host)
    };
    appid.into_bytes()
}

/// Fills in version, body and table; returns the entries of the selected list.
fn list(random: &mut Random, plan: &Plan, host: &str, case: &mut Case) -> Vec<String> {
    let wanted = list::version(random);
    (case.major, case.minor) = wanted;
    let mut entries = list::entries(random, host);
    if plan.has(random, 4) {
        let listed = if random.chance(40) { native(random) } else { origin(random, &format!("www.{host}")) };
        if let (Some(model::Facet::Web(web)), true) = (model::facet(listed.as_bytes()), random.chance(60)) {
            let sibling = sibling(random, &web);
            entries.insert(random.below(entries.len() + 1), sibling);
        }
        entries.insert(random.below(entries.len() + 1), listed);
    }
    let selected = !plan.has(random, 112);
    let mut list = list::list(random, wanted, selected.then_some(&entries));
    case.body = if plan.has(random, 110) {
        list::unreadable(random, list)
    } else {
        if plan.has(random, 111) {
            list::misshape(random, &mut list);
        }
        let style = Style::any(random);
        list.write(random, style).into_bytes()
    };
    if plan.has(random, 109) {
        case.body = list::lengthen(random, std::mem::take(&mut case.body));
    }
    case.table = match plan.has(random, 113) {
        true => bad_table(random),
        false if random.chance(50) => table_near(random, host),
        false => table(random),
    };
    entries
}

/// A caller for the plan: the AppID's own, one of the list's, or another.
fn caller(random: &mut Random, plan: &Plan, host: &str, appid: &[u8], entries: &[String]) -> Vec<u8> {
    let caller = if plan.has(random, 101) {
        let relative = relative(random, host);
        match random.below(4) {
            0 => long(random, &relative),
            1 => other_scheme(random, &relative),
            _ => no_facet(random, &relative),
        }
    } else if plan.has(random, 1) {
        native(random)
    } else if plan.has(random, 3) {
        match model::url(appid) {
            Some(web) if random.chance(80) => sibling(random, &web),
            _ => origin(random, host),
        }
    } else if let (true, Some(entry)) = (plan.has(random, 4), listed(random, host, entries)) {
        match model::facet(entry.as_bytes()) {
            Some(model::Facet::Web(web)) => sibling(random, &web),
            _ => entry,
        }
    } else {
        let relative = relative(random, host);
        let other = if relative.eq_ignore_ascii_case(host) { format!("b.{host}") } else { relative };
        facet(random, &other)
    };
    caller.into_bytes()
}

/// An entry that is a facet, kept or not, and not of the AppID's own host, by which rule 3 would allow.
fn listed(random: &mut Random, host: &str, entries: &[String]) -> Option<String> {
    let other = |entry: &&String| match model::facet(entry.as_bytes()) {
        Some(model::Facet::Web(web)) => !web.host.eq_ignore_ascii_case(host.as_bytes()),
        native => native.is_some(),
    };
    let listed: Vec<&String> = entries.iter().filter(other).collect();
    (!listed.is_empty()).then(|| listed[random.below(listed.len())].clone())
}

/// Fills in record and text.
fn fetched(random: &mut Random, plan: &Plan, host: &str, case: &mut Case) {
    let (open, bad) = (plan.has(random, 105), plan.has(random, 106));
    let least = usize::from(open || bad);
    let most = if random.chance(30) { 8 } else { least + 1 };
    let count = least + random.below(most + 1 - least);
    let mut hops: Vec<Redirect> = (0..count)
        .map(|_| {
            let host = relative(random, host);
            let status = [300, 301, 302, 303, 307, 308, 399][random.below(7)];
            Redirect { status, header: 1, location: url(random, &host).into_bytes() }
        })
        .collect();
    if open {
        hops[random.below(count)].header = 0;
    }
    if bad {
        let location = if random.chance(30) { foreign(random, host) } else { bad_url(random, host) };
        hops[random.below(count)].location = location.into_bytes();
    }
    let status = if plan.has(random, 107) {
        [0, 100, 199, 201, 204, 302, 404, 500, 200 + 256, 65535][random.below(10)]
    } else {
        200
    };
    let answer = Answer { status, kind: u8::from(!plan.has(random, 108)) };
    let answered = !plan.has(random, 5);
    (case.record, case.text) = record::record(random, &hops, answered.then_some(answer));
    if plan.has(random, 104) {
        record::spoil(random, &mut case.record, &mut case.text);
    }
}
