//! What ENQ and DEQ come to with names of the system, and with names that are nearly such.

use super::made::{Made, Test};
use super::sights::Sight;
use crate::names::{stands_twice, Asked, Name, SYSTEM};
use crate::numbers::{LIST, MINOR};
use crate::request::{Request, Ret};

/// Of ENQ, in each RET kind.
const EACH_RET: [(&str, Test); 5] = [
    ("refused a system name alone", |made| made.is_refused_at(0, 1)),
    ("refused a system name before others", |made| made.is_refused_among(|i, _| i == 0)),
    ("refused a system name between others", |made| made.is_refused_among(|i, n| 0 < i && i < n)),
    ("refused a system name after others", |made| made.is_refused_among(|i, n| i == n)),
    ("took a name nearly the system's", |made| made.is_taken(is_near)),
];

/// Of ENQ with codes: 110 goes before 104.
const WITH_CODES: [(&str, Test); 1] = [("refused a system name, with a short area", |made| {
    made.answer.number == 110 && made.area_is_short()
})];

/// Of ENQ, whatever the RET kind: what goes before 110, what 110 goes before, what is free.
const ANY_RET: [(&str, Test); 18] = [
    ("answered 100 to a system name", |made| made.answers_a_system_name(100)),
    ("answered 100 to a system name in the tables", |made| made.answers_one_in_the_tables(100)),
    ("answered 108 to a system name", |made| made.answers_a_system_name(108)),
    ("answered 102 to a system name", |made| made.answers_a_system_name(102)),
    ("answered 103 to a system name", |made| made.answers_a_system_name(103)),
    ("answered 101 to a system name without a minor part", |made| {
        made.finds_wrong(made.has_system_name(|name| name.length == 0))
    }),
    ("answered 101 to a system name with too long a minor part", |made| {
        made.finds_wrong(made.has_system_name(|name| name.length > MINOR as u32))
    }),
    ("answered 101 to a system name twice", |made| made.finds_wrong(made.has_one_twice())),
    ("answered 101 to a system name in too long a list", |made| {
        made.finds_wrong(made.names.len() > LIST)
    }),
    ("answered 101 to a system name, with a short area", |made| {
        made.finds_wrong(made.area_is_short())
    }),
    ("refused several system names", |made| made.answer.number == 110 && made.system_names() > 1),
    ("refused a system name with too few entries free", |made| {
        made.answer.number == 110 && made.entries_are_too_few()
    }),
    ("took a name with another first byte", |made| made.is_taken(|name| differs_at(name, 0))),
    ("took a name with another second byte", |made| made.is_taken(|name| differs_at(name, 1))),
    ("took a name with another third byte", |made| made.is_taken(|name| differs_at(name, 2))),
    ("took a name with the three bytes at 2 to 4", |made| {
        made.is_taken(|name| name.major[1..].starts_with(&SYSTEM))
    }),
    ("took a name with the three bytes in its minor part", |made| {
        made.is_taken(|name| name.minor.starts_with(&SYSTEM))
    }),
    ("took a name with SYS in ASCII", |made| made.is_taken(|name| name.major.starts_with(b"SYS"))),
];

/// Of one RET kind.
const ENQ_NONE: [(&str, Test); 1] = [("refused a system name beside a duplicate", |made| {
    made.answer.number == 110 && made.caller_has_some()
})];
const ENQ_CHNG: [(&str, Test); 2] = [
    ("refused a system name beside one that the caller has", |made| {
        made.answer.number == 110 && made.caller_has_some()
    }),
    ("answered 101 to a shared system name", |made| {
        let shared = |asked: &Asked| asked.name.is_the_systems() && !asked.exclusive;
        made.finds_wrong(made.names.iter().any(shared))
    }),
];

/// "DEQ isn't changed."
const DEQ_NONE: [(&str, Test); 4] = [
    ("answered 202 to a system name alone", |made| {
        made.answers_a_system_name(202) && made.names.len() == 1
    }),
    ("answered 202 to a system name beside one that the caller has", |made| {
        made.answers_a_system_name(202) && made.caller_has_some()
    }),
    ("answered 100 to a system name in the tables", |made| made.answers_one_in_the_tables(100)),
    ("answered 101 to a system name", |made| made.answers_a_system_name(101)),
];
const DEQ_HAVE: [(&str, Test); 5] = [
    ("gave code 8 to a system name alone", |made| made.gives_8() && made.names.len() == 1),
    ("gave code 8 to a system name and released another", |made| {
        made.gives_8() && made.codes[..made.names.len()].contains(&0)
    }),
    ("answered 100 to a system name in the tables", |made| made.answers_one_in_the_tables(100)),
    ("answered 101 to a system name", |made| made.answers_a_system_name(101)),
    ("answered 104 to a system name, with a short area", |made| made.answers_a_system_name(104)),
];

/// All that is looked for, with the word of the request that shows it; `enq` is any RET kind.
pub fn looked_for() -> Vec<(Sight, Test)> {
    let mut all = Vec::new();
    let mut add = |word: &'static str, tests: &[(&'static str, Test)]| {
        all.extend(tests.iter().map(|(what, test)| ((word, *what), *test)));
    };
    for word in ["enq-none", "enq-test", "enq-use", "enq-have", "enq-chng"].iter() {
        add(word, &EACH_RET);
        if *word != "enq-none" {
            add(word, &WITH_CODES);
        }
    }
    add("enq", &ANY_RET);
    add("enq-none", &ENQ_NONE);
    add("enq-chng", &ENQ_CHNG);
    add("deq-none", &DEQ_NONE);
    add("deq-have", &DEQ_HAVE);
    all
}

/// Does the major part differ from the system's in this one of the three bytes?
fn differs_at(name: &Name, place: usize) -> bool {
    (0..SYSTEM.len()).all(|i| (name.major[i] == SYSTEM[i]) == (i != place))
}

fn is_near(name: &Name) -> bool {
    (0..SYSTEM.len()).any(|place| differs_at(name, place))
        || name.major[1..].starts_with(&SYSTEM)
        || name.minor.starts_with(&SYSTEM)
}

impl<'a> Made<'a> {
    fn has_system_name<F: Fn(&Name) -> bool>(&self, test: F) -> bool {
        self.names.iter().any(|asked| asked.name.is_the_systems() && test(&asked.name))
    }

    fn system_names(&self) -> usize {
        self.names.iter().filter(|asked| asked.name.is_the_systems()).count()
    }

    fn has_one_twice(&self) -> bool {
        let such = self.names.iter().filter(|asked| asked.name.is_the_systems());
        stands_twice(&such.cloned().collect::<Vec<Asked>>())
    }

    fn answers_a_system_name(&self, number: u32) -> bool {
        self.answer.number == number && self.system_names() > 0
    }

    /// Such a name is asked for, or given back, that an entry of the caller's was poked to.
    fn answers_one_in_the_tables(&self, number: u32) -> bool {
        self.answer.number == number
            && self.names.iter().any(|asked| asked.name.is_the_systems() && self.has(asked))
    }

    /// 101 with a system name in the list, for this or another reason.
    fn finds_wrong(&self, reason: bool) -> bool {
        self.answers_a_system_name(101) && reason
    }

    /// 110 for one system name, at this place of a list as long as this.
    fn is_refused_at(&self, place: usize, length: usize) -> bool {
        self.answer.number == 110
            && self.system_names() == 1
            && self.names.len() == length
            && self.names[place].name.is_the_systems()
    }

    /// 110 for one system name among others, at a place that passes beside the last place.
    fn is_refused_among<F: Fn(usize, usize) -> bool>(&self, test: F) -> bool {
        let length = self.names.len();
        length > 1 && (0..length).any(|i| test(i, length - 1) && self.is_refused_at(i, length))
    }

    /// No refusal or error, with such a name in the list.
    fn is_taken<F: Fn(&Name) -> bool>(&self, test: F) -> bool {
        self.answer.number < 100 && self.names.iter().any(|asked| test(&asked.name))
    }

    /// It might queue, and there is no room: under HAVE for the names that it would not skip,
    /// else for all.
    fn entries_are_too_few(&self) -> bool {
        let queued = match self.request {
            Request::Enq { ret: Ret::Have, .. } => self.fresh(),
            Request::Enq { ret: Ret::None, .. } | Request::Enq { ret: Ret::Use, .. } => {
                self.names.len()
            }
            _ => 0,
        };
        queued > self.free()
    }

    /// DEQ HAVE: code 8 for a system name.
    fn gives_8(&self) -> bool {
        self.answer.number == 4
            && self
                .names
                .iter()
                .zip(self.codes)
                .any(|(a, code)| a.name.is_the_systems() && *code == 8)
    }
}
