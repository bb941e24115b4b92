//! The messages are those of their class.

use speed::class::{CLASSES, LENGTHS, SERIES};
use speed::Class;
use trial::Rng;

fn messages(class: Class) -> Vec<Vec<u8>> {
    class.messages(&mut Rng::new(1), 100)
}

fn accepted(messages: &[Vec<u8>]) -> usize {
    let sound = messages.iter().filter(|m| plain::verdict(m).is_ok());
    sound.count()
}

#[test]
fn how_many_are_accepted() {
    for (name, class) in CLASSES {
        let expected = match class {
            Class::Damaged => 0,
            Class::Mix => 90,
            _ => 100,
        };
        assert_eq!(accepted(&messages(class)), expected, "{name}");
    }
}

#[test]
fn how_long_they_are() {
    let short = |m: &Vec<u8>| m.len() <= 24;
    let full = |m: &Vec<u8>| m.len() == 272;
    assert!(messages(Class::Short).iter().all(short));
    assert!(messages(Class::MLike).iter().all(|m| m.len() == 23));
    assert!(messages(Class::Full).iter().all(full));
    let mut mix = messages(Class::Mix);
    mix.retain(|m| plain::verdict(m).is_ok());
    assert_eq!(mix.iter().filter(|m| short(m)).count(), 45);
    assert_eq!(mix.iter().filter(|m| full(m)).count(), 45);
}

#[test]
fn the_series() {
    for (name, class) in SERIES {
        for len in LENGTHS {
            let messages = messages(class(len));
            assert_eq!(accepted(&messages), 100, "{name} {len}");
            assert!(messages.iter().all(|m| m.len() == len), "{name} {len}");
        }
    }
    let rows = |class: Class| plain::rows(&messages(class)[0]).unwrap().len();
    assert_eq!(LENGTHS.map(|len| rows(Class::Digits(len))), [8; 9]);
    assert_eq!(
        LENGTHS.map(|len| rows(Class::Parameters(len))),
        [9, 11, 15, 19, 23, 27, 31, 35, 39]
    );
}

#[test]
fn a_message_full_of_digits() {
    let message = &messages(Class::named("digits").unwrap())[0];
    let record = plain::read(message).unwrap();
    let number = &record.common.last().unwrap().transfers[0];
    assert_eq!(record.values_of(number).len(), 502);
}

#[test]
fn by_name() {
    for (name, class) in CLASSES {
        assert_eq!(Class::named(name), Some(class));
    }
    assert_eq!(Class::named("digits-23"), Some(Class::Digits(23)));
    assert_eq!(Class::named("digits-24"), None);
    assert_eq!(Class::named("short-23"), None);
    assert_eq!(Class::named(""), None);
}
