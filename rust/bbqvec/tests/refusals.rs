//! Refusals by themselves: numbers, names and sentences.
use bbqvec::Refusal;
use std::collections::HashSet;

#[test]
fn numbers_1_to_15_have_names() {
    let mut sentences = HashSet::new();
    for number in 1..=15 {
        let refusal = Refusal::of(number).unwrap();
        assert_eq!(refusal.number(), Some(number));
        assert!(!matches!(refusal, Refusal::Other(_)));
        let text = refusal.to_string();
        let sentence = text.strip_prefix(&format!("refused {number}: ")).unwrap();
        assert!(sentences.insert(sentence.to_owned()), "{sentence}");
    }
    assert_eq!(Refusal::of(0), None);
    let named = [(Refusal::Geometry, 1), (Refusal::Length, 2), (Refusal::Id, 3), (Refusal::K, 4), (Refusal::NotFinite, 5), (Refusal::NoNorm, 6)];
    let further = [(Refusal::Projection, 7), (Refusal::NoLayer, 8), (Refusal::NoMark, 9), (Refusal::NanScore, 10), (Refusal::SharedId, 11)];
    let last = [(Refusal::FullCount, 12), (Refusal::BadSet, 13), (Refusal::NoRecall, 14), (Refusal::BadRecord, 15)];
    for (refusal, number) in named.into_iter().chain(further).chain(last) {
        assert_eq!(Refusal::of(number), Some(refusal));
    }
}

#[test]
fn other_numbers_are_kept() {
    for number in [16, 17, 22, 255, u32::MAX] {
        let refusal = Refusal::of(number).unwrap();
        assert_eq!((refusal, refusal.number()), (Refusal::Other(number), Some(number)));
        assert!(refusal.to_string().starts_with(&format!("refused {number}: ")));
    }
}

#[test]
fn other_bases_has_a_sentence_and_no_number() {
    assert_eq!(Refusal::OtherBases.number(), None);
    assert_eq!(Refusal::OtherBases.to_string(), "refused: the two indexes have different bases");
}

#[test]
fn a_refusal_is_an_error() {
    let refused = || -> Result<(), Box<dyn std::error::Error + Send + Sync>> { Ok(bbqvec::normalize(&mut [0.0])?) };
    let error = refused().unwrap_err();
    assert_eq!(error.downcast_ref(), Some(&Refusal::NoNorm));
    assert!(error.source().is_none());
}
