//! Records and their files, identifiers, places, and what is told of refusals.

use puretakoi::{file_to_list, kinds, limits, list_to_file, peek_identifier, records, refusals, Refusal, Span};

#[test]
fn a_list_goes_to_a_file_and_back() {
    let list: Vec<u32> = (0..16).map(|n| n * 0x0102_0304).collect();
    let file = list_to_file(&list).unwrap();
    assert_eq!(file.len(), 64);
    assert_eq!(file[4..8], [4, 3, 2, 1]);
    assert_eq!(file_to_list(&file), Ok(list));
    assert_eq!((list_to_file(&[]), file_to_list(&[])), (Ok(Vec::new()), Ok(Vec::new())));
}

#[test]
fn what_is_no_record_file_is_refused() {
    let refused = |number| Refusal { number, span: Span::START };
    assert_eq!(list_to_file(&[0; 9]), Err(refused(refusals::OUT_OF_PLACE)));
    assert_eq!(file_to_list(&[0; 33]), Err(refused(refusals::OUT_OF_PLACE)));
    assert_eq!(file_to_list(&[0; 31]), Err(refused(refusals::OUT_OF_PLACE)));
    let most = limits::MOST_TOKENS;
    assert!(list_to_file(&vec![0; 8 * most]).is_ok() && file_to_list(&vec![0; 32 * most]).is_ok());
    assert_eq!(list_to_file(&vec![0; 8 * (most + 1)]), Err(refused(refusals::TOO_LARGE)));
    assert_eq!(file_to_list(&vec![0; 32 * (most + 1)]), Err(refused(refusals::TOO_LARGE)));
}

#[test]
fn records_of_any_numbers() {
    let wild = [u32::MAX; 17];
    let all: Vec<_> = records(&wild).collect();
    assert_eq!(all.len(), 2);
    assert_eq!((all[0].value(b"kerb"), all[0].kind_name()), (None, "no kind"));
    let mut list = [0; 8];
    list[5..7].copy_from_slice(&[3, 2]);
    let record = records(&list).next().unwrap();
    assert_eq!(
        (record.value(b"kerbs"), record.value(b"kerb"), record.kind_name()),
        (Some(&b"bs"[..]), None, "no kind")
    );
}

#[test]
fn kinds_have_their_own_words() {
    let words = |kind| records(&[kind, 0, 1, 1, 0, 0, 0, 0]).next().unwrap().kind_name();
    assert_eq!((words(kinds::END_DOC_STRING_TAB), words(22)), ("end of text block, indented by tabs", "no kind"));
    assert_eq!((kinds::COMMENT, words(kinds::COMMENT)), (21, "comment"));
    let mut all: Vec<_> = (0..=21).map(words).collect();
    all.sort_unstable();
    all.dedup();
    assert_eq!(all.len(), 22);
}

#[test]
fn refusals_are_told_in_words() {
    let told = |number| Refusal { number, span: Span { line: 7, column: 3, position: 40 } };
    assert_eq!(told(refusals::UNEXPECTED_END_OF_FILE).name(), "unexpected end of file");
    assert!(told(refusals::UNEXPECTED_END_OF_FILE).advice().ends_with(" or the comment."));
    assert_eq!(told(refusals::WAIT).name(), "wait");
    assert_eq!(told(refusals::STRAY_INDENTATION).name(), "stray indentation");
    let line = "refused 13 at 7:3: a row starts with less than the closing line's indentation";
    assert_eq!(told(refusals::STRAY_INDENTATION).to_string(), line);
    for number in [0, 14, u32::MAX] {
        assert_eq!(told(number).name(), "no refusal");
    }
    for number in 1..=13 {
        assert_ne!(told(number).name(), "no refusal");
        assert!(!told(number).meaning().ends_with('.') && told(number).advice().ends_with('.'), "refusal {}", number);
    }
}

#[test]
fn identifiers() {
    assert_eq!(peek_identifier(b"<?php\n$kerb2;", 7), Some(7..12));
    assert_eq!(peek_identifier(b"<?php\n$kerb2;", 6), None);
    assert_eq!(peek_identifier(b"2a", 0), None);
    assert_eq!(peek_identifier(b"a", 1), None);
    assert_eq!(peek_identifier(b"a", usize::MAX), None);
}

#[test]
fn places_past_a_part() {
    assert_eq!(Span::START.past(b"ab\ncd"), Ok(Span { line: 2, column: 3, position: 5 }));
    let far = Span { line: 65_538, column: 1, position: 0 };
    assert_eq!(far.past(b""), Err(Refusal { number: refusals::BAD_SESSION, span: Span::START }));
    let large = vec![0; limits::MOST_BYTES + 1];
    assert_eq!(Span::START.past(&large), Err(Refusal { number: refusals::TOO_LARGE, span: Span::START }));
}
