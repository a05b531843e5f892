//! Who changes what is said of a refused node comes to a shape that is accepted: texts and records drawn at random.

mod common;

use common::{records, Draw};
use tool::automaton::{check, Refusal, ALL_PLACES};
use tool::record::{NODES, NULL, POINTERS, SIZE, UNDEFINED};
use tool::refusal::{hex, words};
use tool::source::Source;

/// Why the proved checks refuse a text or records, if they do, and what is said of it.
fn refused(input: Vec<u8>) -> Option<(Refusal, String)> {
    let source = Source::of_bytes("f", input).unwrap();
    let refusal = check(&source.records).err()?;
    Some((refusal, words(refusal, &source, ALL_PLACES)))
}

/// The shape of a text: where each pointer leads, and each node by its name. That is a name, `null` or `undefined`.
struct Drawn {
    pointers: Vec<String>,
    nodes: Vec<(String, String)>,
}

impl Drawn {
    fn new(d: &mut Draw) -> Drawn {
        let count = 1 + d.below(NODES);
        let mut value = |near: usize| match d.below(6) {
            0 => "null".into(),
            1 => "undefined".into(),
            2 | 3 => format!("n{}", near % count),
            _ => format!("n{}", d.below(count)),
        };
        let nodes = (0..count).map(|n| (format!("n{n}"), value(n + 1))).collect();
        Drawn { pointers: (0..POINTERS).map(|p| value(3 * p)).collect(), nodes }
    }

    fn text(&self) -> Vec<u8> {
        let pointers = self.pointers.iter().enumerate().map(|(p, value)| format!("p{p} -> {value}\n"));
        let nodes = self.nodes.iter().map(|(name, next)| format!("{name} -> {next}\n"));
        format!("stop\nshape\n{}{}", pointers.collect::<String>(), nodes.collect::<String>()).into_bytes()
    }

    /// `let a pointer lead to NAME, .. or leave NAME out`: the one, if a pointer is free, or the other.
    fn let_lead_or_leave_out(&mut self, change: &str, lead: bool) {
        let (name, _) = change.strip_prefix("let a pointer lead to `").unwrap().split_once("`, ").unwrap();
        match self.pointers.iter_mut().find(|value| lead && ["null", "undefined"].contains(&value.as_str())) {
            Some(value) => *value = name.into(),
            None => self.leave_out(name),
        }
    }

    /// `leave NAME out and let NAME lead to NEXT: ..`
    fn leave_out_and_let_lead(&mut self, change: &str) {
        let (name, rest) = change.strip_prefix("leave `").unwrap().split_once("` out and let `").unwrap();
        let (before, rest) = rest.split_once("` lead to ").unwrap();
        let next = match rest.split_once(": ").unwrap().0 {
            "itself" => before,
            next => next.trim_matches('`'),
        };
        self.nodes.iter_mut().find(|node| node.0 == before).unwrap().1 = next.into();
        self.leave_out(name);
    }

    fn leave_out(&mut self, name: &str) {
        self.nodes.retain(|node| node.0 != name);
        self.nodes.iter_mut().filter(|node| node.1 == name).for_each(|node| node.1 = "null".into());
    }
}

#[test]
fn what_is_to_be_changed_in_texts() {
    let mut d = Draw::new(11);
    let mut met = [0; 20];
    for _ in 0..5_000 {
        let mut drawn = Drawn::new(&mut d);
        let mut changes = 0;
        while let Some((refusal, said)) = refused(drawn.text()) {
            let said = said.replace("\n           ", " ");
            let change = said.split_once("\n  change:  ").expect("what to change").1;
            match refusal.number {
                9 => drawn.let_lead_or_leave_out(change, d.one_in(2)),
                18 => drawn.leave_out_and_let_lead(change),
                _ => panic!("{said}"),
            }
            met[refusal.number as usize] += 1;
            changes += 1;
            // each node is left out once, and each pointer led to one
            assert!(said.contains("\n  here:    ") && changes <= NODES + POINTERS, "{said}");
        }
    }
    assert!(met[9] > 1000 && met[18] > 1000, "{met:?}");
}

#[test]
fn what_should_stand_in_records_instead() {
    let mut d = Draw::new(12);
    let mut met = [0; 20];
    for _ in 0..20_000 {
        let count = 1 + d.below(NODES);
        let mut value = || [NULL, UNDEFINED, d.below(count) as u8, d.below(count) as u8][d.below(4)];
        let [held, next] = [POINTERS, count].map(|most| (0..most).map(|_| value()).collect::<Vec<u8>>());
        let records = records(&[(&held, &next)]);
        let Some((refusal, said)) = refused(records.clone()) else { continue };
        met[refusal.number as usize] += 1;
        assert!(said.contains("\n  here:    ") && said.lines().all(|l| l.chars().count() <= 100), "{said}");
        let given = said.split_once("\n  instead: ").map(|(_, rest)| rest.trim_end());
        assert_eq!(given.is_some(), refusal.number != 9, "{said}");
        if let Some(given) = given {
            let bytes: Vec<u8> = (0..SIZE).map(|at| u8::from_str_radix(&given[2 * at..2 * at + 2], 16).unwrap()).collect();
            assert_eq!(hex(&bytes), given);
            assert_eq!(check(&[&records[..SIZE], &bytes].concat()), Ok(()), "{said}");
        }
    }
    assert!([9, 18, 19].into_iter().all(|number: usize| met[number] > 500), "{met:?}");
}
