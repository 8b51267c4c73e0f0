//! Every row of the table of refusals but 16 to 18, by the calls that can give it; write.rs has 16, hanoi.rs the rows of Hanoi texts.

use edition::{contain, Argument, Buffers, Entry, Offer, Outcome, Refusal, Walk, ENTRY_BYTES};

const F: &[u8] = include_bytes!("../../../examples/f.ba");
const G: &[u8] = include_bytes!("../../../examples/g.ba");
const H: &[u8] = include_bytes!("../../../examples/h.ba");
const J: &[u8] = include_bytes!("../../../examples/j.ba");

/// A file for each of refusals 1 to 6.
const FILES: [&[u8]; 6] = [
    b"",
    b"AF\x00",
    b"AH\x00\x01\x00",
    b"AH\x01\x01\x00AF\x01",
    b"AH\x01\x01\x00AF\x00AF\x00",
    b"AH\x01\x01\x00AE",
];

/// The refusal of a file, as the call with this many files gives it.
fn of_file(number: usize, file: Option<Argument>) -> Refusal {
    let all = [
        Refusal::Ends { file },
        Refusal::Mark { file },
        Refusal::Header { file },
        Refusal::Outside { file },
        Refusal::Repeated { file },
        Refusal::Dead { file },
    ];
    all[number - 1]
}

fn opened(file: &[u8]) -> Entry {
    let mut entry = Entry::fresh();
    entry.open(file).expect("the file is well formed and has no dead state");
    entry
}

#[test]
fn contain_names_the_file_of_refusals_1_to_6() {
    for (place, file) in FILES.iter().enumerate() {
        let number = place + 1;
        let first = Buffers::largest().contain(file, H, 0).map(drop);
        assert_eq!(first, Err(of_file(number, Some(Argument::First))));
        let second = Buffers::largest().contain(H, file, 0).map(drop);
        assert_eq!(second, Err(of_file(number, Some(Argument::Second))));
    }
}

#[test]
fn open_and_offer_name_no_file() {
    for (place, file) in FILES.iter().enumerate() {
        let refusal = of_file(place + 1, None);
        assert_eq!(Entry::fresh().open(file), Err(refusal));
        assert_eq!(Buffers::largest().offer(&mut opened(J), file, 0), Err(refusal));
        assert_eq!(usize::from(refusal.number()), place + 1);
    }
}

#[test]
fn contain_refuses_letters_bound_slots_and_word() {
    let (mut work, mut word) = ([0; 280], [0; 4]);
    assert_eq!(contain(F, H, 0, &mut work, &mut word), Err(Refusal::Letters));
    assert_eq!(contain(F, G, 15, &mut work, &mut word), Err(Refusal::Bound));
    assert_eq!(contain(F, G, 1 << 32, &mut work, &mut word), Err(Refusal::Bound));
    let slots = Refusal::Slots { walk: None, slots: 7 };
    assert_eq!(contain(G, F, 1, &mut work, &mut word), Err(slots));
    let room = Refusal::Word { walk: None, needed: 1 };
    assert_eq!(contain(G, F, 0, &mut work, &mut []), Err(room));
    assert_eq!(
        contain(G, F, 0, &mut work, &mut word),
        Ok(Outcome::Differs { count: 2, word: &[0] })
    );
}

#[test]
fn offer_names_the_walk_of_refusals_10_and_11() {
    let mut word = [0; 4];
    let forward = Refusal::Slots {
        walk: Some(Walk::Forward),
        slots: 4,
    };
    assert_eq!(opened(F).offer(G, 1, &mut [0; 160], &mut word), Err(forward));
    let back = Refusal::Slots {
        walk: Some(Walk::Back),
        slots: 7,
    };
    assert_eq!(opened(F).offer(G, 1, &mut [0; 280], &mut word), Err(back));
    let room = Refusal::Word {
        walk: Some(Walk::Back),
        needed: 1,
    };
    assert_eq!(opened(F).offer(G, 0, &mut [0; 280], &mut []), Err(room));
    assert_eq!(
        opened(F).offer(G, 0, &mut [0; 280], &mut word),
        Ok(Offer::Back {
            forward: 4,
            back: 2,
            word: &[0]
        })
    );
}

#[test]
fn entries_refuse_9_and_12_to_15() {
    let mut bytes = opened(F).to_bytes();
    bytes[5..9].copy_from_slice(&183_072u32.to_le_bytes());
    assert_eq!(Entry::from_bytes(&bytes), Err(Refusal::Malformed));
    assert_eq!(Entry::from_bytes(&[0; ENTRY_BYTES - 1]), Err(Refusal::Malformed));
    assert_eq!(Entry::from_bytes(&[0; ENTRY_BYTES]), Ok(Entry::fresh()));
    assert_eq!(opened(F).open(G), Err(Refusal::AlreadyOpen));
    assert_eq!(Buffers::largest().offer(&mut Entry::fresh(), G, 0), Err(Refusal::Empty));
    assert_eq!(Entry::fresh().verdict(&[], &[0]), Err(Refusal::Empty));
    assert_eq!(Buffers::largest().offer(&mut opened(G), G, 0), Err(Refusal::NotSmaller));
    assert_eq!(opened(F).verdict(&[], &[]), Err(Refusal::Lasso));
    assert_eq!(opened(F).verdict(&[0; 4097], &[0]), Err(Refusal::Lasso));
    assert_eq!(opened(F).verdict(&[0; 4096], &[0]), Ok(false));
}

#[test]
fn every_number_has_a_sentence_and_advice_of_its_own() {
    let all: Vec<Refusal> = (0..=255).filter_map(Refusal::from_number).collect();
    let numbers: Vec<u8> = all.iter().map(Refusal::number).collect();
    let of_texts = [3, 4].map(|number| of_file(number, Some(Argument::Text)));
    assert_eq!(numbers, (1..=18).collect::<Vec<u8>>());
    let mut texts: Vec<String> = all
        .iter()
        .chain(&of_texts)
        .flat_map(|refusal| [refusal.to_string(), refusal.advice()])
        .collect();
    assert!(texts.iter().all(|text| text.len() > 10 && !text.contains(['{', '}'])));
    texts.sort();
    texts.dedup();
    assert_eq!(texts.len(), 40);
}

#[test]
fn sentences_have_the_file_the_walk_and_the_count() {
    let slots = Refusal::Slots {
        walk: Some(Walk::Back),
        slots: 7,
    };
    assert_eq!(
        slots.to_string(),
        "the back walk needs more than the 7 slots that it has"
    );
    let all = Refusal::Slots {
        walk: None,
        slots: 4096,
    };
    assert!(all.advice().starts_with("no walk gets more than 4096 slots"));
    let room = Refusal::Word {
        walk: Some(Walk::Forward),
        needed: 12,
    };
    assert_eq!(
        room.to_string(),
        "the forward walk found a word of 12 letters, and the word buffer is shorter"
    );
    assert_eq!(room.advice(), "give a word buffer of 12 bytes or more");
}
