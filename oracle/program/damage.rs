//! Lines with one of their numbers, or one of their bytes, changed.
use crate::calls::Line;
use crate::printer::{push_line, push_number};
use crate::random::Random;

fn text_of(line: &Line) -> Vec<u8> {
    let mut text = vec![];
    push_line(&mut text, line);
    text.pop();
    text
}

fn numbers_of(text: &[u8]) -> Vec<usize> {
    std::str::from_utf8(text).unwrap().split(' ').map(|number| number.parse().unwrap()).collect()
}

fn text_from(numbers: &[usize]) -> Vec<u8> {
    let mut text = vec![];
    for number in numbers {
        push_number(&mut text, *number);
        text.push(b' ');
    }
    text.pop();
    text
}

fn other_number(random: &mut Random, number: usize) -> usize {
    match random.below(5) {
        0 => number.wrapping_add(1),
        1 => number.wrapping_sub(1),
        2 => random.below(4),
        3 => random.below(64),
        _ => random.at_a_limit(),
    }
}

/// Settings or a call with up to two of its numbers changed, in any field but the kind.
pub fn numbers(random: &mut Random, line: &Line) -> Vec<u8> {
    let mut numbers = numbers_of(&text_of(line));
    for _ in 0..1 + random.below(2) {
        let field = 1 + random.below(numbers.len() - 1);
        numbers[field] = other_number(random, numbers[field]);
    }
    text_from(&numbers)
}

/// A line that is no call. Of a state no digit is changed: a state that the Rust cannot have is not compared.
pub fn bytes(random: &mut Random, line: &Line) -> Vec<u8> {
    let mut text = text_of(line);
    let place = 1 + random.below(text.len());
    match random.below(8) {
        0 => text.insert(place, random.pick(b"-+.,x\r\t\0\xff#")),
        1 => text.push(b' '),
        2 => text.insert(0, b' '),
        3 => {
            let space = text.iter().position(|byte| *byte == b' ').unwrap();
            text.insert(space, b' ')
        }
        4 => text.extend_from_slice(b" 18446744073709551616"),
        5 => text.extend_from_slice(b" 0"),
        6 => text.extend(b" 7".repeat(2048)),
        _ => {
            let kind = random.pick(&[0, 11, 12, 255, usize::MAX]);
            let mut numbers = numbers_of(&text);
            numbers[0] = kind;
            text = text_from(&numbers);
        }
    }
    text
}
