//! Levels and greys, transfers, and what a setting decodes to.

use super::{Arguments, Leaf};
use crate::glass::{Transfer, gray, level};
use crate::ssd1677::tests::inside;
use crate::ssd1677::tests::random::Random;
use crate::ssd1677::tests::settings::{self, Periods, Setting};
use crate::ssd1677::waveform::{Drive, Waveform};

/// A transfer with these fields, for 0 ≤ lo ≤ hi: they are private to their module, but every such
/// transfer is a shift within `hi` − `lo` followed by one of `lo` within `hi`. `None` when the
/// first shift would leave 64 bits.
fn transfer(add: i64, lo: i64, hi: i64) -> Option<Transfer> {
    if lo < 0 || hi < lo {
        return None;
    }
    let first = Transfer::shift(add.checked_sub(lo)?, hi - lo);
    let transfer = first.then(Transfer::shift(lo, hi));
    assert_eq!(inside::transfer(transfer), [add, lo, hi], "a transfer");
    Some(transfer)
}

fn transfer_argument(arguments: &mut Arguments) -> Option<Transfer> {
    let [add, lo, hi] = arguments.array()?;
    transfer(add, lo, hi)
}

fn numbers(transfer: Transfer) -> Vec<i128> {
    inside::transfer(transfer).map(i128::from).to_vec()
}

/// A number of any size and sign, or one near an edge.
fn signed(random: &mut Random, swing: i64) -> i64 {
    let edges = [0, 1, -1, swing, -swing, swing - 1, i64::MAX, i64::MIN + 1];
    let any = random.any_size().cast_signed();
    match random.below(4) {
        0 => random.pick(&edges),
        1 => any.wrapping_neg(),
        2 => i64::try_from(random.between(0, swing.cast_unsigned())).unwrap_or(0),
        _ => any,
    }
}

/// A state from 0 to `swing`, its edges more often than chance would give them.
fn state(random: &mut Random, swing: i64) -> i64 {
    let inner = random.between(0, swing.cast_unsigned()).cast_signed();
    random.pick(&[inner, inner, 0, 1.min(swing), swing - 1, swing])
}

/// The fields of a transfer that `transfer` can build.
fn transfer_question(random: &mut Random, swing: i64) -> [i64; 3] {
    let (one, other) = (state(random, swing), state(random, swing));
    let (lo, hi) = (one.min(other), one.max(other));
    let add = signed(random, swing);
    let least = i64::MIN.saturating_add(lo);
    if random.truth() {
        [add.max(least), lo, hi]
    } else {
        [add, 0, swing]
    }
}

/// The periods and the setting at the end of a question.
fn periods_and_setting(arguments: &mut Arguments) -> Option<(Periods, Setting)> {
    Some((arguments.array()?, arguments.array()?))
}

fn waveform(arguments: &mut Arguments) -> Option<Waveform> {
    let (periods, setting) = periods_and_setting(arguments)?;
    Some(Waveform::from_setting(&setting, &periods))
}

pub(super) fn push_waveform(numbers: &mut Vec<i128>, periods: &Periods, setting: &Setting) {
    numbers.extend(periods.map(i128::from));
    numbers.extend(setting.map(i128::from));
}

fn waveform_question(_: u64, random: &mut Random) -> Vec<i128> {
    let mut numbers = Vec::new();
    let (periods, setting) = (settings::periods(random), settings::setting(random));
    push_waveform(&mut numbers, &periods, &setting);
    numbers
}

/// `frame_rate_code` is private to its module: with the periods 0 to 15, a group's period is its
/// code.
fn frame_rate_code(arguments: &mut Arguments) -> Option<Vec<i128>> {
    let group = usize::from(arguments.up_to(9)?);
    let mut setting: Setting = [0; _];
    setting[100..105].copy_from_slice(&arguments.array::<u8, 5>()?);
    let codes: Periods = std::array::from_fn(|code| code as u64);
    let numbers = inside::waveform(&Waveform::from_setting(&setting, &codes));
    Some(vec![numbers[26 * group + 5]])
}

/// The transfer of a question's display, and whether it is a whole one.
fn displayed(arguments: &mut Arguments) -> Option<(Transfer, bool)> {
    let drive = match arguments.up_to(1)? {
        0 => Drive::Lut(usize::from(arguments.up_to(4)?)),
        _ => Drive::Fixed(arguments.up_to(3)?),
    };
    let swing = arguments.take().filter(|&swing: &i64| swing > 0)?;
    let positive_drives_black = arguments.truth()?;
    let cut = arguments.truth()?;
    let until = arguments.take()?;
    let waveform = waveform(arguments)?;
    let until = cut.then_some(until);
    let transfer = waveform.transfer(drive, swing, positive_drives_black, until);
    Some((transfer, !cut))
}

/// The reference's transfer, with nothing added where the ends of a whole display's have met: they
/// take every state to one, however it came about.
fn combined_answer(arguments: &mut Arguments) -> Option<Vec<i128>> {
    let (transfer, whole) = displayed(arguments)?;
    let [add, lo, hi] = inside::transfer(transfer);
    let counts = !whole || lo < hi;
    Some(decimals![if counts { add } else { 0 }, lo, hi].to_vec())
}

fn whole_or_cut_question(_: u64, random: &mut Random) -> Vec<i128> {
    let fixed = random.one_in(4);
    let code = random.below(if fixed { 4 } else { 5 });
    let (periods, setting) = (settings::periods(random), settings::setting(random));
    let cut = random.truth();
    let until = if cut {
        settings::cut(&setting, &periods, random)
    } else {
        0
    };
    let swing = settings::swing(random);
    let mut numbers = decimals![fixed, code, swing].to_vec();
    numbers.extend(decimals![random.truth(), cut, until]);
    push_waveform(&mut numbers, &periods, &setting);
    numbers
}

/// A whole display whose second group repeats a pass that goes farther one way than the other, after a first that drives:
/// how often it runs shows, and that it runs after what was driven before.
fn repeated_question(random: &mut Random) -> Vec<i128> {
    let mut setting: Setting = [0; _];
    for lut in 0..4 {
        setting[10 * lut] = random.pick(&[0x40, 0x80]);
        setting[10 * lut + 1] = random.pick(&[0x56, 0xA9]);
    }
    setting[50] = random.pick(&[1, 5, 19]);
    setting[55..59].fill(random.pick(&[1, 3]));
    setting[59] = random.byte();
    settings::make_listed(&mut setting, random);
    let swing = random.pick(&[settings::SWING, 100 * settings::SWING]);
    let mut numbers = decimals![0, random.below(4), swing, random.truth(), 0, 0].to_vec();
    push_waveform(&mut numbers, &[settings::PERIOD; 16], &setting);
    numbers
}

fn combined_question(place: u64, random: &mut Random) -> Vec<i128> {
    if place % 8 == 7 {
        return repeated_question(random);
    }
    whole_or_cut_question(place, random)
}

fn gray_question(_: u64, random: &mut Random) -> Vec<i128> {
    let swing = settings::swing(random);
    // Half way between two greys, and one off it, is where rounding shows.
    let half = level(random.byte(), swing).saturating_add(swing / 510);
    let state = match random.below(4) {
        0 => signed(random, swing),
        1 => half.saturating_add(random.pick(&[-1, 0, 1])),
        _ => state(random, swing),
    };
    vec![state.into(), swing.into()]
}

pub(super) fn leaves() -> Vec<Leaf> {
    let mut leaves = transfers();
    leaves.extend([
        Leaf {
            name: "from_setting",
            answer: |arguments| Some(inside::waveform(&waveform(arguments)?)),
            question: waveform_question,
        },
        Leaf {
            name: "duration_ns",
            answer: |arguments| Some(vec![waveform(arguments)?.duration_ns().into()]),
            question: waveform_question,
        },
        Leaf {
            name: "frame_rate_code",
            answer: frame_rate_code,
            question: |place, random| {
                let bytes = std::iter::repeat_with(|| random.byte().into());
                let group = std::iter::once(i128::from(place % 10));
                group.chain(bytes.take(5)).collect()
            },
        },
        Leaf {
            name: "transfer",
            answer: |arguments| Some(numbers(displayed(arguments)?.0)),
            question: whole_or_cut_question,
        },
        Leaf {
            name: "combined",
            answer: combined_answer,
            question: combined_question,
        },
    ]);
    leaves
}

fn transfers() -> Vec<Leaf> {
    vec![
        Leaf {
            name: "level",
            answer: |arguments| {
                let gray = arguments.take()?;
                Some(vec![level(gray, arguments.take()?).into()])
            },
            question: |place, random| vec![i128::from(place % 256), settings::swing(random).into()],
        },
        Leaf {
            name: "gray",
            answer: |arguments| {
                let state = arguments.take()?;
                let swing = arguments.take().filter(|&swing: &i64| swing > 0)?;
                Some(vec![gray(state, swing).into()])
            },
            question: gray_question,
        },
        Leaf {
            name: "then",
            answer: |arguments| {
                let first = transfer_argument(arguments)?;
                Some(numbers(first.then(transfer_argument(arguments)?)))
            },
            question: |_, random| {
                let swing = settings::swing(random);
                let first = transfer_question(random, swing);
                let next = transfer_question(random, swing);
                first.into_iter().chain(next).map(i128::from).collect()
            },
        },
        Leaf {
            name: "apply",
            answer: |arguments| {
                let transfer = transfer_argument(arguments)?;
                Some(vec![transfer.apply(arguments.take()?).into()])
            },
            question: |_, random| {
                let swing = settings::swing(random);
                let mut numbers = transfer_question(random, swing).map(i128::from).to_vec();
                let outside = random.truth();
                let any = if outside { signed } else { state };
                numbers.push(any(random, swing).into());
                numbers
            },
        },
    ]
}
