//! Temperatures, the choice of a waveform, and the conditions of a start.

use super::{Arguments, Leaf, option};
use crate::ssd1677::config::find_waveform;
use crate::ssd1677::reference::gdeq0426t82_otp;
use crate::ssd1677::tests::configuration::{
    Configuration, FIELDS, FREQUENCY, Refusal, entry, largest, waveforms,
};
use crate::ssd1677::tests::configurations;
use crate::ssd1677::tests::random::Random;
use crate::ssd1677::{DisplayMode, LUT_BYTES, Temperature};

/// The last covering entry's place; a table that 12 refuses covers nothing.
fn find_waveform_answer(arguments: &mut Arguments) -> Option<Vec<i128>> {
    let mode = match arguments.truth()? {
        false => DisplayMode::One,
        true => DisplayMode::Two,
    };
    let temperature = Temperature::from_register(arguments.take()?);
    let mut table = Configuration::new();
    for _ in 0..arguments.take::<u8>()? {
        let mode = arguments.take()?;
        table.push_entry(mode, arguments.array()?, &[0; LUT_BYTES]);
    }
    let otp = waveforms(&table.otp).unwrap_or_default();
    let found = find_waveform(&otp, mode, temperature);
    let place = found.and_then(|found| otp.iter().position(|entry| std::ptr::eq(entry, found)));
    Some(option(place.map(|place| place as i128)))
}

fn find_waveform_question(_: u64, random: &mut Random) -> Vec<i128> {
    let entries = random.pick(&[0, 1, 2, 16, 17, 63, 64, 65]);
    let edges = [
        0x800, 0x801, 0xFFE, 0xFFF, 0, 1, 399, 400, 401, 0x7FE, 0x7FF,
    ];
    let register = |random: &mut Random| match random.below(3) {
        0 => random.below(4096),
        _ => random.pick(&edges),
    };
    // At −2048 the port departs from the reference (#107); as a bound it stays.
    let mut temperature = match register(random) {
        0x800 => 0x801,
        other => other,
    };
    if random.one_in(8) {
        // Bits above the twelfth do not count.
        temperature += 4096 * random.below(16);
    }
    let mut numbers = vec![random.truth().into(), temperature.into(), entries];
    for _ in 0..entries {
        let bad = random.one_in(200);
        let mode = if bad { 2 } else { random.below(2) };
        numbers.push(mode.into());
        for _ in 0..2 {
            let bad = random.one_in(400);
            numbers.push(if bad { 4096 } else { register(random).into() });
        }
    }
    numbers
}

/// A byte of the reference's waveforms, 118 an entry (SCOPE, OTP table).
fn reference_byte(arguments: &mut Arguments) -> Option<Vec<i128>> {
    let table: Vec<u8> = gdeq0426t82_otp().iter().flat_map(entry).collect();
    let place: u16 = arguments.take()?;
    Some(option(table.get(usize::from(place)).copied()))
}

/// The 54 fields, the table's length and its bytes.
fn validate(arguments: &mut Arguments) -> Option<Vec<i128>> {
    let mut configuration = Configuration::new();
    for field in 0..FIELDS {
        let number = arguments
            .take()
            .filter(|&number| number <= largest(field))?;
        configuration.fields[field] = number;
    }
    for _ in 0..arguments.take::<u16>()? {
        configuration.otp.push(arguments.take()?);
    }
    Some(match configuration.validated() {
        Ok(_) => vec![0, 0],
        Err(Refusal(number, value)) => vec![number.into(), value as i128],
    })
}

fn validate_question(_: u64, random: &mut Random) -> Vec<i128> {
    let mut configuration = if random.one_in(4) {
        configurations::any(random)
    } else {
        configurations::refused(random)
    };
    // Drawn last, so that the rest of a question is what it was before there was a frequency.
    let frequency = random.pick(&[1_000_000_000, 1_000_000_000, 1, 32_768, u32::MAX.into(), 0]);
    configuration.fields[FREQUENCY] = frequency;
    let mut numbers = configuration.fields.map(i128::from).to_vec();
    numbers.push(configuration.otp.len() as i128);
    numbers.extend(configuration.otp.into_iter().map(i128::from));
    numbers
}

/// All registers in turn, those with bits above the twelfth too.
fn word(place: u64, _: &mut Random) -> Vec<i128> {
    vec![i128::from(place % 0x1_0000)]
}

pub(super) fn leaves() -> Vec<Leaf> {
    vec![
        Leaf {
            name: "from_register",
            answer: |arguments| {
                let temperature = Temperature::from_register(arguments.take()?);
                Some(vec![temperature.sixteenths().into()])
            },
            question: word,
        },
        Leaf {
            name: "register",
            answer: |arguments| {
                let temperature = Temperature::from_sixteenths(arguments.take()?)?;
                Some(vec![temperature.register().into()])
            },
            question: |place, _| vec![i128::from(place % 4096) - 2048],
        },
        Leaf {
            name: "from_sixteenths",
            answer: |arguments| {
                let temperature = Temperature::from_sixteenths(arguments.take()?);
                Some(option(temperature.map(Temperature::sixteenths)))
            },
            question: |_, random| {
                let any = i128::from(random.below(0x1_0000)) - 0x8000;
                let edges = [
                    -32768, -2049, -2048, -2047, -1, 0, 1, 2046, 2047, 2048, 32767,
                ];
                let edge = random.pick(&edges);
                vec![random.pick(&[any, edge])]
            },
        },
        Leaf {
            name: "from_celsius",
            answer: |arguments| {
                let temperature = Temperature::from_celsius(arguments.take()?);
                Some(vec![temperature.sixteenths().into()])
            },
            question: |place, _| vec![i128::from(place % 256) - 128],
        },
        Leaf {
            name: "find_waveform",
            answer: find_waveform_answer,
            question: find_waveform_question,
        },
        Leaf {
            name: "gdeq0426t82_otp",
            answer: reference_byte,
            question: |place, _| vec![i128::from(place % 360)],
        },
        Leaf {
            name: "validate",
            answer: validate,
            question: validate_question,
        },
    ]
}
