//! What a run has met.

use std::collections::{BTreeMap, BTreeSet};

use crate::ask::Answer;
use crate::calls::{ALL, Hands, PACKAGES, Spec};

macro_rules! events {
    ($($name:ident: $text:literal,)*) => {
        #[derive(Clone, Copy, Debug, Eq, Ord, PartialEq, PartialOrd)]
        pub enum Event {
            $($name,)*
        }

        impl Event {
            pub const ALL: &'static [(Self, &'static str)] = &[$((Self::$name, $text),)*];
        }
    };
}

events! {
    Added: "kept, with room",
    EvictedAtHash: "kept, evicting at a hash of eight",
    EvictedAnywhere: "kept, evicting anywhere at a full L",
    Lowered: "a candidate at the key, lowered",
    LoweredOtherKind: "a candidate at the other kind, lowered",
    NoKey: "0: an item without a key",
    Again: "0: a candidate already",
    OfConnection: "0: 5,000 of the connection",
    EightThere: "0: unpreferred, eight at the hash",
    Full: "0: unpreferred, L held",
    NoneAtHash: "0: none to evict at the hash",
    NoneAnywhere: "0: none to evict anywhere",
    TieOfKind: "evicted of equal priorities, by the kind",
    TieOfHash: "evicted of equal priorities, by the hash",
    TieOfLowWord: "evicted of equal priorities, by the hash's lowest word",
    TieOfConnection: "evicted of equal priorities, by the connection",
    OwnerSpared: "evicted, a greater one spared as it owns its request",
    MarkGone: "evicted, the announced request with its mark, made anew",
    SweptNone: "swept: no key",
    SweptStart: "swept: no cursor, all keys",
    SweptRound: "swept: all keys, round to the cursor",
    SweptPart: "swept: 1,024 keys of more",
    Due: "a poll, due",
    NotDue: "a poll, not due",
}

impl Event {
    /// Whether the candidate is one afterwards: a reply of 1.
    pub fn kept(self) -> bool {
        matches!(
            self,
            Self::Added
                | Self::EvictedAtHash
                | Self::EvictedAnywhere
                | Self::Lowered
                | Self::LoweredOtherKind
        )
    }
}

/// Numbers of refusals.
const REFUSALS: [u64; 9] = [1, 2, 3, 4, 5, 6, 7, 8, 13];

/// What the calls of one name came to.
#[derive(Clone, Default)]
struct Row {
    /// By the number that is handed out (of a plan the entries): 0, 1, more. Of a call that hands none out all are in the last.
    replied: [u64; 3],
    refused: BTreeMap<u64, u64>,
}

impl Row {
    fn carried_out(&self) -> u64 {
        self.replied.iter().sum()
    }

    fn refused(&self, number: u64) -> u64 {
        self.refused.get(&number).copied().unwrap_or_default()
    }

    fn calls(&self) -> u64 {
        self.carried_out() + self.refused.values().sum::<u64>()
    }
}

#[derive(Default)]
pub struct Tally {
    pub calls: u64,
    pub runs: u64,
    /// Comparisons of the reference with the whole image of the Rust's state.
    pub wholes: u64,
    pub on_damaged: u64,
    /// Refused calls to which a later refusal applies as well.
    pub several: u64,
    pub limits: BTreeSet<u64>,
    pub places: BTreeSet<u64>,
    rows: BTreeMap<&'static str, Row>,
    events: BTreeMap<Event, u64>,
    cases: BTreeMap<(&'static str, &'static str), u64>,
}

impl Tally {
    pub fn event(&mut self, event: Event) {
        *self.events.entry(event).or_default() += 1;
    }

    /// A call and its right answer.
    pub fn call(&mut self, spec: &Spec, answer: &Answer) {
        self.calls += 1;
        let row = self.rows.entry(spec.name).or_default();
        match (answer.status, spec.hands) {
            (0, Hands::Nothing | Hands::Figures) => row.replied[2] += 1,
            (0, Hands::Plan) => row.replied[answer.out[1].min(2) as usize] += 1,
            (0, _) => row.replied[answer.out[0].min(2) as usize] += 1,
            (number, _) => *row.refused.entry(number).or_default() += 1,
        }
    }

    /// A case of a call that was carried out.
    pub fn case(&mut self, spec: &Spec, case: &'static str) {
        *self.cases.entry((spec.name, case)).or_default() += 1;
    }

    pub fn print(&self) {
        println!(
            "{} calls in {} runs, {} of them on damaged or short stores; {} whole images of the Rust's state",
            self.calls, self.runs, self.on_damaged, self.wholes
        );
        println!("L: {}", joined(&self.limits, u64::to_string));
        println!("Q: {}", joined(&self.places, u64::to_string));
        println!("{}", joined(&self.rows, |(name, row)| format!("{name} {}", row.calls())));
        let packages: u64 = PACKAGES.iter().map(|spec| self.row(spec).calls()).sum();
        println!("of the {} package calls: {packages}", PACKAGES.len());
        let refused = joined(&REFUSALS, |number| format!("{number}: {}", self.refused(*number)));
        println!("refused by number: {refused}; where a later one applies too: {}", self.several);
        for (event, text) in Event::ALL {
            println!("{text:56}{:10}", self.met(*event));
        }
    }

    /// Each call by replies and refusals, then its cases.
    pub fn print_table(&self) {
        print!("{:31}{:>9}{:>9}{:>9}{:>9}{:>9}", "call", "calls", "carried", "0", "1", "more");
        REFUSALS.iter().for_each(|number| print!("{:>8}", format!("no,{number}")));
        println!();
        for spec in ALL {
            let row = self.row(spec);
            print!("{:31}{:>9}{:>9}", spec.name, row.calls(), row.carried_out());
            let counted = !matches!(spec.hands, Hands::Nothing | Hands::Figures);
            row.replied.iter().for_each(|n| {
                print!("{:>9}", if counted { n.to_string() } else { "-".to_owned() });
            });
            for number in REFUSALS {
                let shown = if spec.refusals.contains(&number) {
                    row.refused(number).to_string()
                } else {
                    "-".to_owned()
                };
                print!("{shown:>8}");
            }
            println!();
        }
        for spec in ALL.iter().filter(|spec| !spec.cases.is_empty()) {
            let cases = joined(spec.cases, |case| format!("{case} {}", self.met_case(spec, case)));
            println!("{}: {cases}", spec.name);
        }
    }

    fn row(&self, spec: &Spec) -> Row {
        self.rows.get(spec.name).cloned().unwrap_or_default()
    }

    fn met(&self, event: Event) -> u64 {
        self.events.get(&event).copied().unwrap_or_default()
    }

    fn met_case(&self, spec: &Spec, case: &'static str) -> u64 {
        self.cases.get(&(spec.name, case)).copied().unwrap_or_default()
    }

    fn refused(&self, number: u64) -> u64 {
        self.rows.values().map(|row| row.refused(number)).sum()
    }

    /// What a run of a round's calls should have met and has not.
    pub fn missing(&self) -> Vec<String> {
        let events = Event::ALL.iter().filter(|(event, _)| self.met(*event) == 0);
        let refused = REFUSALS.iter().filter(|number| self.refused(**number) == 0);
        events
            .map(|(_, text)| (*text).to_owned())
            .chain(refused.map(|number| format!("refusal {number}")))
            .collect()
    }

    /// What each of the calls should have met in a long run and has not: carried out with 0 and not, each refusal, each case.
    pub fn missing_of_calls(&self, specs: &[&Spec]) -> Vec<String> {
        let mut missing = Vec::new();
        for spec in specs {
            let row = self.row(spec);
            let [none, one, more] = row.replied;
            let counted = !matches!(spec.hands, Hands::Nothing | Hands::Figures);
            if one + more == 0 || (counted && none == 0) {
                missing.push(format!(
                    "{} replying {}",
                    spec.name,
                    if one + more == 0 { "not 0" } else { "0" }
                ));
            }
            let refusals = spec.refusals.iter().filter(|number| row.refused(**number) == 0);
            missing.extend(refusals.map(|number| format!("{} refused by {number}", spec.name)));
            let cases = spec.cases.iter().filter(|case| self.met_case(spec, case) == 0);
            missing.extend(cases.map(|case| format!("{}: {case}", spec.name)));
        }
        missing
    }
}

fn joined<T>(list: impl IntoIterator<Item = T>, text: impl Fn(T) -> String) -> String {
    list.into_iter().map(text).collect::<Vec<_>>().join(", ")
}
