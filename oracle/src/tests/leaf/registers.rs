//! Voltages, the kinds of the commands, and the registers' own arithmetic.

use super::{Arguments, Leaf, option};
use crate::ssd1677::tests::hash;
use crate::ssd1677::tests::listing::source_less_vcom;
use crate::ssd1677::tests::random::Random;
use crate::ssd1677::waveform::{
    Drive, gate_code_is_listed, source_millivolts, vcom_millivolts, vsl_millivolts,
};
use crate::ssd1677::{Kind, Params, Ssd1677, Ssd1677Config, kind, ten_bits};

/// Every byte in turn.
fn byte(place: u64, _: &mut Random) -> Vec<i128> {
    vec![i128::from(place % 256)]
}

fn kind_numbers(command: u8) -> [i128; 3] {
    match kind(command) {
        None => [0, 0, 0],
        Some(Kind::Write(Params::Exactly(count))) => [1, count.into(), count.into()],
        Some(Kind::Write(Params::Between(least, most))) => [2, least.into(), most.into()],
        Some(Kind::Write(Params::Stream)) => [3, 0, 0],
        Some(Kind::Read) => [4, 0, 0],
        Some(Kind::Unsupported(_)) => [5, 0, 0],
        Some(Kind::Reserved) => [6, 0, 0],
    }
}

/// The length of the name of a command that is not supported, 0 of another, and the hash of its
/// text with zeros behind it.
fn unsupported_name(arguments: &mut Arguments) -> Option<Vec<i128>> {
    let name = match kind(arguments.take()?) {
        Some(Kind::Unsupported(name)) => name,
        _ => "",
    };
    let mut bytes = [0; 44];
    bytes[..name.len()].copy_from_slice(name.as_bytes());
    Some(vec![name.len() as i128, hash::of_bytes(&bytes).into()])
}

fn ten_bits_answer(arguments: &mut Arguments) -> Option<Vec<i128>> {
    let (value, index, byte) = (arguments.take()?, arguments.take()?, arguments.take()?);
    Some(vec![ten_bits(value, index, byte).into()])
}

fn ten_bits_question(_: u64, random: &mut Random) -> Vec<i128> {
    let value = random.below(1024);
    let index = random.pick(&[0, 1, 1, 0, 2, 3]);
    vec![value.into(), index, random.byte().into()]
}

/// Which drive the border register gives: 0 none, 1 a LUT, 2 a fixed code.
fn border_drive(arguments: &mut Arguments) -> Option<Vec<i128>> {
    let mut device = Ssd1677::new(Ssd1677Config::default(), crate::lines::ONE_GIGAHERTZ).ok()?;
    device.regs.border = arguments.take()?;
    Some(match device.border_drive() {
        None => vec![0, 0],
        Some(Drive::Lut(lut)) => vec![1, i128::try_from(lut).ok()?],
        Some(Drive::Fixed(code)) => vec![2, code.into()],
    })
}

fn source_less_vcom_answer(arguments: &mut Arguments) -> Option<Vec<i128>> {
    let (code, vcom) = (arguments.up_to(3)?, arguments.up_to(3)?);
    Some(vec![
        source_less_vcom(code, vcom, arguments.array()?).into(),
    ])
}

fn source_less_vcom_question(place: u64, random: &mut Random) -> Vec<i128> {
    let listed = [0x41, 0xA8, 0x32];
    let voltage = |random: &mut Random, at: usize| match random.below(3) {
        0 => random.byte(),
        1 => random.pick(&[0x22, 0x23, 0x4B, 0x4C, 0x8E, 0xCE, 0x1A, 0x3A]),
        _ => listed[at],
    };
    let voltages: [u8; 3] = std::array::from_fn(|at| voltage(random, at));
    let mut numbers = vec![i128::from(place % 4), i128::from(place / 4 % 4)];
    numbers.extend(voltages.map(i128::from));
    numbers
}

pub(super) fn leaves() -> Vec<Leaf> {
    vec![
        Leaf {
            name: "source_millivolts",
            answer: |arguments| Some(option(source_millivolts(arguments.take()?))),
            question: byte,
        },
        Leaf {
            name: "vsl_millivolts",
            answer: |arguments| Some(option(vsl_millivolts(arguments.take()?))),
            question: byte,
        },
        Leaf {
            name: "vcom_millivolts",
            answer: |arguments| Some(option(vcom_millivolts(arguments.take()?))),
            question: byte,
        },
        Leaf {
            name: "gate_code_is_listed",
            answer: |arguments| Some(vec![gate_code_is_listed(arguments.take()?).into()]),
            question: byte,
        },
        Leaf {
            name: "kind",
            answer: |arguments| Some(kind_numbers(arguments.take()?).to_vec()),
            question: byte,
        },
        Leaf {
            name: "is_read_command",
            answer: |arguments| Some(vec![Ssd1677::is_read_command(arguments.take()?).into()]),
            question: byte,
        },
        Leaf {
            name: "unsupported_name",
            answer: unsupported_name,
            question: byte,
        },
        Leaf {
            name: "ten_bits",
            answer: ten_bits_answer,
            question: ten_bits_question,
        },
        Leaf {
            name: "border_drive",
            answer: border_drive,
            question: byte,
        },
        Leaf {
            name: "source_less_vcom",
            answer: source_less_vcom_answer,
            question: source_less_vcom_question,
        },
    ]
}
