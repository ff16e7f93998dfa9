//! Single functions of the reference, asked by name with decimal arguments (oracle/README.md).

/// Numbers of several types as those of a question or an answer.
macro_rules! decimals {
    ($($number:expr),* $(,)?) => { [$(i128::from($number)),*] };
}

mod configuration;
mod glass;
mod panel;
mod ram;
mod registers;

use std::io::{self, Write};

use super::random::Random;

/// A function's answer, and how questions for it are made.
pub(super) struct Leaf {
    pub(super) name: &'static str,
    /// `None` when the arguments are too few, too many or outside the function's types.
    answer: fn(&mut Arguments) -> Option<Vec<i128>>,
    /// The arguments of the question at a place: small domains are counted through.
    question: fn(u64, &mut Random) -> Vec<i128>,
}

/// The decimal arguments of a question, taken one after the other.
pub(super) struct Arguments<'a>(std::slice::Iter<'a, i128>);

impl Arguments<'_> {
    fn take<T: TryFrom<i128>>(&mut self) -> Option<T> {
        T::try_from(*self.0.next()?).ok()
    }

    /// A number from 0 to `largest`.
    fn up_to(&mut self, largest: u8) -> Option<u8> {
        self.take().filter(|&number| number <= largest)
    }

    fn truth(&mut self) -> Option<bool> {
        Some(self.up_to(1)? == 1)
    }

    fn array<T: TryFrom<i128> + Copy + Default, const N: usize>(&mut self) -> Option<[T; N]> {
        let mut array = [T::default(); N];
        for place in &mut array {
            *place = self.take()?;
        }
        Some(array)
    }
}

/// `1` and the value, or `0 0`.
fn option(value: Option<impl Into<i128>>) -> Vec<i128> {
    value.map_or_else(|| vec![0, 0], |value| vec![1, value.into()])
}

fn leaves() -> impl Iterator<Item = Leaf> {
    let rooms = [
        registers::leaves(),
        ram::leaves(),
        glass::leaves(),
        configuration::leaves(),
        panel::leaves(),
    ];
    rooms.into_iter().flatten()
}

/// The answer to a question; `None` when it is none.
pub(super) fn answer(question: &str) -> Option<String> {
    let mut words = question.split_ascii_whitespace();
    let name = words.next()?;
    let numbers: Option<Vec<i128>> = words.map(|word| word.parse().ok()).collect();
    let leaf = leaves().find(|leaf| leaf.name == name)?;
    let numbers = numbers?;
    let mut arguments = Arguments(numbers.iter());
    let answer = (leaf.answer)(&mut arguments)?;
    arguments.0.next().is_none().then(|| line(&answer))
}

fn line(numbers: &[i128]) -> String {
    let words: Vec<String> = numbers.iter().map(i128::to_string).collect();
    words.join(" ")
}

/// Answers each line of `input`, `bad question` where it is none.
pub(super) fn run(input: &[u8], out: &mut impl Write) -> io::Result<bool> {
    let text = String::from_utf8_lossy(input);
    for question in text.lines() {
        let answer = answer(question).unwrap_or_else(|| "bad question".to_owned());
        writeln!(out, "{answer}")?;
    }
    Ok(true)
}

/// Writes `count` questions for the function `name`, or for each function when it is `all`.
pub(super) fn generate(
    name: &str,
    seed: u64,
    count: u64,
    out: &mut impl Write,
) -> io::Result<bool> {
    let mut found = false;
    for leaf in leaves().filter(|leaf| name == "all" || leaf.name == name) {
        found = true;
        for place in 0..count {
            let mut random = Random::of_place(seed, place);
            let numbers = (leaf.question)(place, &mut random);
            writeln!(out, "{} {}", leaf.name, line(&numbers))?;
        }
    }
    if !found {
        eprintln!("no function {name}; the functions are:");
        leaves().for_each(|leaf| eprintln!("  {}", leaf.name));
    }
    Ok(found)
}
