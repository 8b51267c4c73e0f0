//! Labels: their texts, their nesting and their truth, against the definition.

use second::file::read;

use super::{answer, assert_refused, with_body};
use crate::random::Random;

/// The letters, as bits, of the transitions from state 0 to state 1 that an edge with this label stands for.
fn letters_of(propositions: usize, label: &str) -> u32 {
    let file = answer(with_body(propositions, &format!("State: 0 [{label}] 1"))).expect("a label");
    let automaton = read(&file).expect("a file");
    assert_eq!(automaton.letters(), 1 << propositions);
    let letters = 0..automaton.letters();
    letters.fold(0, |letters, a| letters | automaton.transitions(a)[0] >> 1 << a)
}

/// Labels outside the subset where there is one proposition.
const OUTSIDE: &str = r#"0&&0;0||0;0 0;&0;0&;|0;0|;0!;!;();(0;0);)0(;0(0);(0)0;0&|0;1;10;00;01;0!0;tt;t0;0t;T;F;
true;-0;0.;0,0;a;"a";!!;(!);0 & ! | 0;t f;0&0]&[0;~0;0^0;0->0;[0];{0};0 --END--"#;

#[test]
fn labels_outside_the_subset_are_refused_with_17() {
    let labels = OUTSIDE.split(';').map(str::trim);
    assert_refused(17, labels.map(|label| with_body(1, &format!("State: 0 [{label}] 1"))));
}

#[test]
fn at_most_64_nots_and_parentheses_stand_around_a_place() {
    let nested = |nots: usize, pairs: usize| {
        let (front, behind) = ("!".repeat(nots) + &"(".repeat(pairs), ")".repeat(pairs));
        with_body(1, &format!("State: 0 [{front}0{behind}] 1"))
    };
    for (nots, pairs) in [(64, 0), (0, 64), (32, 32), (63, 1), (1, 63), (0, 0)] {
        assert!(answer(nested(nots, pairs)).is_ok(), "{nots} and {pairs}");
        if nots + pairs == 64 {
            assert_refused(17, [nested(nots + 1, pairs), nested(nots, pairs + 1)]);
        }
    }
    let whole = "!(".repeat(32);
    let label = |inside: &str| format!("{whole}{inside}{}", ")".repeat(32));
    assert_eq!(letters_of(1, &label("0&t|f")), 0b10);
    assert_eq!(letters_of(1, &format!("{0} & {0} | !0", label("0"))), 0b11);
    for inside in ["!0", "(0)", "0&!0", "0|t&(0)", "f|!t"] {
        assert_refused(17, [with_body(1, &format!("State: 0 [{}] 1", label(inside)))]);
    }
    assert_eq!(letters_of(2, &vec!["!0"; 200].join("&")), 0b0101);
    assert_eq!(letters_of(2, &vec!["(!(1))"; 200].join(" | ")), 0b0011);
}

#[test]
fn a_million_openings_need_no_stack() {
    let small = std::thread::Builder::new().stack_size(128 * 1024);
    let asked = small.spawn(|| {
        for opening in ["(", "!", "!(", "(!", "(0&", "(0|!(", "0&(", "[", "{"] {
            assert_refused(17, [with_body(1, &format!("State: 0 [{}", opening.repeat(1_000_000)))]);
        }
        for nesting in [64, 65] {
            let label = "(".repeat(nesting) + "0" + &")".repeat(nesting);
            let text = with_body(1, &format!("State: 0 [{label}] 1"));
            assert_eq!(answer(text).is_ok(), nesting == 64);
        }
    });
    asked.expect("a thread").join().expect("a small stack is enough");
}

#[test]
fn chains_have_any_length() {
    let small = std::thread::Builder::new().stack_size(128 * 1024);
    let asked = small.spawn(|| {
        assert_eq!(letters_of(2, &("0|".repeat(1_000_000) + "1")), 0b1110);
        assert_eq!(letters_of(2, &("0&".repeat(1_000_000) + "1")), 0b1000);
        assert_eq!(letters_of(2, &("f|!1&!0|".repeat(300_000) + "0&1")), 0b1001);
        assert_eq!(
            letters_of(2, &("(0|".to_string() + &"(1)|".repeat(300_000) + "f)&t")),
            0b1110
        );
    });
    asked.expect("a thread").join().expect("a small stack is enough");
}

#[test]
fn not_binds_tightest_and_or_loosest() {
    let labels = [
        ("t", 0b1111_1111),
        ("f", 0),
        ("0", 0b1010_1010),
        ("1", 0b1100_1100),
        ("2", 0b1111_0000),
        ("0|1&!2", 0b1010_1110),
        ("!2&1|0", 0b1010_1110),
        ("(0|1)&!2", 0b0000_1110),
        ("!0&1", 0b0100_0100),
        ("!(0&1)", 0b0111_0111),
        ("!0|1", 0b1101_1101),
        ("!(0|1)", 0b0001_0001),
        ("!!2", 0b1111_0000),
        ("0&1|0&2|1&2", 0b1110_1000),
        ("t&f|t", 0b1111_1111),
        ("t|f&f", 0b1111_1111),
        ("0&(1|2)", 0b1010_1000),
    ];
    for (label, letters) in labels {
        assert_eq!(letters_of(3, label), letters, "{label}");
    }
    assert_eq!(
        [letters_of(0, "t"), letters_of(0, "f"), letters_of(0, "!f&t")],
        [1, 0, 1]
    );
    assert_eq!(letters_of(4, "3"), 0xFF00);
    assert_eq!(letters_of(4, "0&!1&2&!3"), 1 << 5);
}

/// A label as the grammar says it.
enum Formula {
    Constant(bool),
    Proposition(usize),
    Not(Box<Formula>),
    And(Vec<Formula>),
    Or(Vec<Formula>),
}

impl Formula {
    fn drawn(random: &mut Random, propositions: usize, size: usize) -> Formula {
        let kinds = if size == 0 { 2 } else { 5 };
        let operands = |random: &mut Random| {
            let count = 2 + random.below(3);
            (0..count)
                .map(|_| Formula::drawn(random, propositions, size - 1))
                .collect()
        };
        match random.below(kinds) {
            0 if propositions == 0 || random.chance(1, 5) => Formula::Constant(random.chance(1, 2)),
            0 | 1 if propositions > 0 => Formula::Proposition(random.below(propositions)),
            2 => Formula::Not(Box::new(Formula::drawn(random, propositions, size - 1))),
            3 => Formula::And(operands(random)),
            4 => Formula::Or(operands(random)),
            _ => Formula::Constant(random.chance(1, 2)),
        }
    }

    fn truth(&self, letter: usize) -> bool {
        match self {
            Formula::Constant(truth) => *truth,
            Formula::Proposition(number) => letter / 2_usize.pow(*number as u32) % 2 == 1,
            Formula::Not(operand) => !operand.truth(letter),
            Formula::And(operands) => operands.iter().all(|operand| operand.truth(letter)),
            Formula::Or(operands) => operands.iter().any(|operand| operand.truth(letter)),
        }
    }

    /// The label with parentheses where an operator inside binds less than `around` does, and now and then where none are needed.
    fn text(&self, random: &mut Random, around: usize) -> String {
        let (text, binds) = match self {
            Formula::Constant(truth) => (if *truth { "t" } else { "f" }.to_string(), 3),
            Formula::Proposition(number) => (number.to_string(), 3),
            Formula::Not(operand) => (format!("!{}", operand.text(random, 2)), 2),
            Formula::And(operands) => (Formula::joined(random, operands, "&", 1), 1),
            Formula::Or(operands) => (Formula::joined(random, operands, "|", 0), 0),
        };
        let blank = [" ", "", "", "\n"][random.below(4)];
        if binds < around || random.chance(1, 8) {
            format!("({blank}{text}){blank}")
        } else {
            format!("{blank}{text}{blank}")
        }
    }

    fn joined(random: &mut Random, operands: &[Formula], sign: &str, binds: usize) -> String {
        let texts: Vec<String> = operands.iter().map(|operand| operand.text(random, binds)).collect();
        texts.join(sign)
    }
}

#[test]
fn a_label_stands_for_every_letter_that_makes_it_true() {
    let mut random = Random::new("labels", 0x5EED_0701);
    let mut met = [0; 3];
    for round in 0..4000 {
        let propositions = round % 5;
        let size = random.below(5);
        let formula = Formula::drawn(&mut random, propositions, size);
        let text = formula.text(&mut random, 0);
        let letters = 0..1 << propositions;
        let expected = letters.filter(|&a| formula.truth(a)).fold(0, |set, a| set | 1 << a);
        assert_eq!(letters_of(propositions, &text), expected, "{text}");
        let all = (1 << (1 << propositions)) - 1;
        met[usize::from(expected != 0) + usize::from(expected == all)] += 1;
    }
    println!("labels true of no letter, of some, of all: {met:?}");
    assert!(met.iter().all(|&count| count > 100));
}
