//! What the calls leave and refuse.

use witbox::{check_order, dependency, list, propose, toposort, Error, Span, Token, Tokenizer};

#[test]
fn where_a_tokenizer_stands() {
    let mut tokens = Tokenizer::new("  ; \r", 10).unwrap();
    assert_eq!(tokens.position(), 10);
    assert_eq!(tokens.eat(Token::Id), Ok(false));
    assert_eq!(tokens.position(), 10);
    let wanted = Error::Wanted {
        at: 12,
        expected: Token::Id,
        found: Some(Token::Semicolon),
    };
    assert_eq!(tokens.expect(Token::Id), Err(wanted));
    assert_eq!(tokens.position(), 13);
    assert_eq!(tokens.next(), Err(Error::Unexpected(14, '\r')));
    assert_eq!(tokens.position(), 13);
    assert_eq!(tokens.eof_span(), Span::new(15, 15));
}

#[test]
fn the_end_is_not_wanted() {
    let mut tokens = Tokenizer::new(" ", 10).unwrap();
    let wanted = Error::Wanted {
        at: 11,
        expected: Token::Semicolon,
        found: None,
    };
    assert_eq!(tokens.clone().expect_semicolon(), Err(wanted));
    assert_eq!(wanted.to_string(), "`;` is wanted here, but the text ends");
    assert_eq!(tokens.next(), Ok(None));
    assert_eq!(tokens.position(), 11);
}

#[test]
fn spans_that_do_not_fit() {
    let tokens = Tokenizer::new("é a", 10).unwrap();
    for span in [
        Span::default(),
        Span::new(9, 11),
        Span::new(13, 12),
        Span::new(11, 12),
        Span::new(13, 15),
        Span::new(0, u32::MAX - 1),
    ] {
        assert_eq!(tokens.parse_id(span), Err(Error::BadSpan), "{span:?}");
        assert_eq!(tokens.string_literal(span), Err(Error::BadSpan), "{span:?}");
    }
    assert_eq!(tokens.parse_id(Span::new(13, 14)), Ok("a"));
    let explicit = tokens.parse_explicit_id(Span::new(13, 14));
    assert_eq!(explicit, Err(Error::BadSpan));
}

#[test]
#[should_panic(expected = "the span lies in the tokenizer's text")]
fn a_part_of_another_text() {
    let tokens = Tokenizer::new("a", 10).unwrap();
    tokens.get_span(Span::new(0, 1));
}

#[test]
fn texts_at_the_caps() {
    let blanks = " ".repeat(65_537);
    assert_eq!(list(&blanks, 0), Err(Error::TooLong(65_537)));
    assert_eq!(list(&blanks[1..], 0), Ok(vec![]));
    let rows = |count: usize| list(&";".repeat(count), 0).map(|rows| rows.len());
    assert_eq!(rows(4_096), Ok(4_096));
    assert_eq!(rows(4_097), Err(Error::TooManyRows(4_097)));
    assert_eq!(list("", u32::MAX), Err(Error::OutOfMap));
    assert_eq!(list("", u32::MAX - 1), Ok(vec![]));
    let end = Tokenizer::new("ab", u32::MAX - 3).unwrap().eof_span();
    assert_eq!(end.end(), u32::MAX - 1);
}

#[test]
fn bytes_are_checked() {
    assert_eq!(list(b"a\xC0\x80", 5), Err(Error::IllFormed(1)));
    let tokens = Tokenizer::from_bytes("é".as_bytes(), 5).unwrap();
    assert_eq!(tokens.get_span(Span::new(5, 7)), "é");
}

#[test]
fn orders() {
    let none: [(&str, &[&str]); 0] = [];
    assert_eq!(toposort(&none).unwrap().names, [""; 0]);
    let items: [(&str, &[&str]); 3] = [("a", &["b"]), ("b", &[]), ("c", &[])];
    let order = toposort(&items).unwrap();
    assert_eq!(order.names, ["b", "a", "c"]);
    assert_eq!((order.items, order.settled), (vec![1, 0, 2], 1));
    let twice: [(&str, &[&str]); 2] = [("a", &["b", "b"]), ("b", &[])];
    assert_eq!(toposort(&twice).unwrap().settled, 2);
}

#[test]
fn no_orders() {
    let circle = [
        ("a", vec!["b"]),
        ("b", vec!["d", "c"]),
        ("c", vec!["b"]),
        ("d", vec![]),
    ];
    let cycle = Error::TypeCycle {
        dependency: 0,
        settled: 1,
    };
    assert_eq!(toposort(&circle), Err(cycle));
    assert_eq!(cycle.numbers(), [30, 0, 0]);
    assert_eq!(dependency(&circle, 0), Some((0, "b")));
    assert_eq!(dependency(&circle, 3), Some((2, "b")));
    assert_eq!(dependency(&circle, 4), None);
    let repeated: [(&str, &[&str]); 2] = [("", &[]), ("", &[])];
    assert_eq!(toposort(&repeated), Err(Error::RepeatedName(1)));
    let missing: [(&str, &[&str]); 1] = [("a", &["b"])];
    assert_eq!(toposort(&missing), Err(Error::ItemNotFound(0)));
}

#[test]
fn proposed_orders() {
    let none: [(&str, &[&str]); 0] = [];
    assert_eq!(check_order(&none, &[]), Ok(()));
    assert_eq!(check_order(&none, &[0]), Err(Error::NotAnOrder(0)));
    let circle = [("a", vec!["b"]), ("b", vec!["a"])];
    assert_eq!(propose(&circle), toposort(&circle));
    assert_eq!(check_order(&circle, &[0, 1]), Err(Error::NotAnOrder(0)));
    let missing: [(&str, &[&str]); 1] = [("a", &["b"])];
    assert_eq!(check_order(&missing, &[7]), Err(Error::ItemNotFound(0)));
    assert_eq!(Error::NotAnOrder(3).numbers(), [33, 0, 3]);
    let names: Vec<String> = (0..256).map(|number| format!("item-{number}")).collect();
    let items: Vec<(&str, &[&str])> = names.iter().map(|name| (name.as_str(), &[][..])).collect();
    let backwards: Vec<usize> = (0..256).rev().collect();
    assert_eq!(check_order(&items, &backwards), Ok(()));
    let longer = [backwards.clone(), backwards].concat();
    assert_eq!(check_order(&items, &longer), Err(Error::NotAnOrder(256)));
    // an index that 32 bits do not hold is no item's
    assert_eq!(
        check_order(&items, &[usize::MAX]),
        Err(Error::NotAnOrder(0))
    );
}

#[test]
fn orders_at_the_caps() {
    let names: Vec<String> = (0..257).map(|number| format!("item-{number}")).collect();
    let items: Vec<(&str, &[&str])> = names.iter().map(|name| (name.as_str(), &[][..])).collect();
    assert_eq!(toposort(&items), Err(Error::TooManyItems));
    assert_eq!(toposort(&items[1..]).unwrap().items.len(), 256);
    let needs = |count: usize| [("a", vec![]), ("b", vec!["a"; count])];
    assert_eq!(toposort(&needs(2_048)).unwrap().settled, 2_048);
    assert_eq!(toposort(&needs(2_049)), Err(Error::TooManyItems));
    // the bytes of a name that comes again count once
    let long = "a".repeat(65_536);
    let again = [(long.as_str(), vec![]), ("", vec![long.as_str(); 2])];
    assert_eq!(toposort(&again).unwrap().settled, 2);
    let longer = "a".repeat(65_537);
    let one: [(&str, &[&str]); 1] = [(&longer, &[])];
    assert_eq!(toposort(&one), Err(Error::TooLong(65_537)));
}
