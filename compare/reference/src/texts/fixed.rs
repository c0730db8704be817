//! The fixed calls: every refusal at its boundary, in rooms too short, just enough and longer; and bad shapes of the line.

use super::answer::told;
use super::call::{Call, Function};
use super::generate::{line, list_of, Case};
use super::lists::INPUT_MOST;
use crate::limits::FIELDS;
use crate::outside::{around, in_line, in_words, with};
use crate::replays;
use crate::states::bench::{bench, crafts};
use crate::states::fields::{context_numbers, ContextNumbers};
use crate::states::fixed::CONTEXT_VALUES;
use crate::states::mode::Mode;
use crafty::Action;

/// The example of the scope's paper.
const LINE: &str = "50 50 100 100 8 200 0 0 40 100 0 33 0 0 0";
const LIST: &str = "Veneration BasicSynthesis BasicSynthesis";
/// The shortest name, so that a list of some bytes is as long as it can be.
const SHORT: &str = "Reflect\n";
const UNKNOWN: u8 = 31;

pub fn cases() -> impl Iterator<Item = Case> {
    let texts = texts().into_iter().flat_map(|text| {
        [Call::new(Function::ReplayText, &text), Call::new(Function::Print, &text)]
    });
    let read = words().into_iter().map(|text| Call::new(Function::ReadList, &text));
    let lists = lists().into_iter().flat_map(|list| {
        [Call::new(Function::WriteList, &list), Call::new(Function::MacroTime, &list)]
    });
    texts.chain(read).chain(lists).chain(replays()).flat_map(in_rooms).chain([first_field()])
}

/// A factor above its limit before a number of steps that is no byte: the place is the factor's.
fn first_field() -> Case {
    let text = line(&with(&example(), &[(2, 200_071), (4, 256)]));
    let call = Call::new(Function::ReplayText, text.as_bytes());
    let case = Case::new(call.clone(), &told(&call), 0);
    assert_eq!((case.answer.number, case.answer.value), (1, 2));
    case
}

/// Of a call that needs some room: none, one number less than it needs, just enough, and more.
fn in_rooms(call: Call) -> Vec<Case> {
    let told = told(&call);
    let needed = told.as_ref().map_or(0, |told| told.value);
    let rooms = match call.function {
        Function::MacroTime => vec![0],
        _ => vec![0, needed.saturating_sub(1), needed, needed + 1, needed + 40],
    };
    rooms.into_iter().map(|room| Case::new(call.clone(), &told, room)).collect()
}

// ---- inputs of the replay program

fn texts() -> Vec<Vec<u8>> {
    let mut texts: Vec<String> = shapes().into_iter().map(|line| line + LIST).collect();
    texts.extend(shapes());
    texts.extend(wide_values());
    texts.extend(fields());
    texts.extend(crafts().into_iter().map(|(context, _, list)| {
        let names: Vec<&str> = list.iter().map(Action::name).collect();
        line(&context_numbers(&context)) + &names.join(" ")
    }));
    texts.extend(refused_twice());
    let mut texts: Vec<Vec<u8>> = texts.into_iter().map(String::into_bytes).collect();
    texts.extend(sizes());
    texts
}

/// First lines: good ones, and every shape that is none.
fn shapes() -> Vec<String> {
    let fourteen = LINE.rsplit_once(' ').expect("fifteen numbers").0;
    vec![
        format!("{LINE}\n"),
        format!("{LINE}\n\n"),
        LINE.replace("200", "0000000200") + "\n",
        LINE.replace("200", "00000000200") + "\n",
        String::new(),
        "\n".to_string(),
        " \n".to_string(),
        LINE.to_string(),
        format!("{LINE} "),
        format!("{fourteen}\n"),
        format!("{fourteen} \n"),
        format!("{LINE} 0\n"),
        format!("{LINE} \n"),
        format!("{LINE}\r\n"),
        format!("{LINE}\t\n"),
        format!("{LINE}\0\n"),
        format!(" {LINE}\n"),
        format!("\n{LINE}\n"),
        format!("+{LINE}\n"),
        format!("-{LINE}\n"),
        LINE.replace("200", "-200") + "\n",
        LINE.replace("200", "2e2") + "\n",
        LINE.replace("200", "20.") + "\n",
        LINE.replace("200", "0x2") + "\n",
        LINE.replace("200 ", "200  ") + "\n",
        LINE.replace("200 ", "200\t") + "\n",
        LINE.replace("200 ", "200,") + "\n",
        LINE.replace("200 ", "200\n") + "\n",
        LINE.replace("200 ", "200\r") + "\n",
        LINE.replace("200 ", " ") + "\n",
    ]
}

/// Each number in turn on both sides of its limits, of its type's and of 2^32.
fn wide_values() -> Vec<String> {
    let mut texts = Vec::new();
    for (place, values) in CONTEXT_VALUES.iter().enumerate() {
        let values = values.iter().map(|value| u64::from(*value));
        for value in values.chain([2, 256, 257, u64::from(u32::MAX), 1 << 32, 9_999_999_999]) {
            let mut numbers: Vec<String> = LINE.split(' ').map(str::to_string).collect();
            numbers[place] = value.to_string();
            texts.push(format!("{}\n{LIST}", numbers.join(" ")));
        }
    }
    texts
}

/// Each number at its limits, and every two outside.
fn fields() -> Vec<String> {
    let lines = around(&example(), &in_line());
    lines.iter().map(|numbers| line(numbers) + LIST).collect()
}

fn example() -> [u64; FIELDS] {
    let numbers = LINE.split(' ').map(|number| number.parse().expect("a number"));
    numbers.collect::<Vec<u64>>().try_into().expect("fifteen numbers")
}

/// What is refused for two reasons, by the number that comes first.
fn refused_twice() -> Vec<String> {
    let outside = LINE.replace("200", "1000001");
    vec![
        format!("{outside}\nNope"),
        format!("{outside} \nNope"),
        format!("{LINE} \nNope"),
        format!("{LINE}\nNope Nope"),
        format!("{LINE}\n{LIST} Nope {LIST}"),
    ]
}

/// As long as an input may be, and one byte longer: spaces and words behind a line, one word, and no line at all.
fn sizes() -> Vec<Vec<u8>> {
    let mut texts = Vec::new();
    for size in [INPUT_MOST, INPUT_MOST + 1] {
        texts.extend([
            padded(&format!("{LINE}\n{LIST}"), " ", size),
            padded(&format!("{LINE}\n"), SHORT, size),
            padded(&format!("{LINE}\n"), "x", size),
            padded("", "1", size),
            padded("", "1 ", size),
        ]);
    }
    texts
}

fn padded(start: &str, more: &str, size: usize) -> Vec<u8> {
    let mut text = start.as_bytes().to_vec();
    text.extend(more.bytes().cycle().take(size - start.len()));
    text
}

/// The longest input of the replay program, all of it words that are known, and the longest list within one.
pub fn longest() -> (Vec<u8>, Vec<u8>) {
    let line = format!("{LINE}\n");
    let more = (INPUT_MOST - line.len()) / SHORT.len() * SHORT.len();
    let list = SHORT.repeat(more / SHORT.len());
    (padded(&(line + &list), " ", INPUT_MOST), SHORT.repeat(INPUT_MOST / SHORT.len()).into_bytes())
}

// ---- lists

fn words() -> Vec<Vec<u8>> {
    let mut texts: Vec<Vec<u8>> =
        Action::ACTIONS.iter().map(|action| action.name().into()).collect();
    let parted = |gap: u8| [b"BasicTouch", &[gap][..], b"Observe"].concat();
    texts.extend((0..=u8::MAX).map(parted));
    let more: [&[u8]; 9] = [
        b"",
        b" \t\r\n",
        b"BasicTouch\nNope",
        b"Nope",
        b"  Nope Nope",
        b"BasicTouch BasicTouc",
        b"BasicTouch Basic Touch",
        b"BasicTouch\0",
        b"BasicTouch\xff Observe",
    ];
    texts.extend(more.map(<[u8]>::to_vec));
    texts.push(longest().1);
    texts.push([longest().1, b"Observe Nope".to_vec()].concat());
    texts
}

fn lists() -> Vec<Vec<u8>> {
    let all: Vec<u8> = (0..UNKNOWN).collect();
    let mut lists: Vec<Vec<u8>> = (0..=u8::MAX).map(|number| vec![number]).collect();
    lists.extend(all.iter().flat_map(|first| all.iter().map(|last| vec![*first, *last])));
    lists.extend([vec![], [&all[..], &[UNKNOWN, 255]].concat(), all]);
    for size in [INPUT_MOST, INPUT_MOST + 1] {
        let same = vec![Action::DelicateSynthesisTraited as u8; size];
        let mut wrong = same.clone();
        wrong[size - 1] = UNKNOWN;
        lists.extend([same, wrong]);
    }
    lists
}

// ---- replays by numbers

fn replays() -> Vec<Call> {
    let fixed = replays::fixed()
        .into_iter()
        .map(|replay| Call::replay(replay.context, replay.mode, &list_of(&replay)));
    fixed.chain(wide_contexts()).chain(outside_contexts()).collect()
}

/// Numbers that do not fit the type of their field.
fn wide_contexts() -> impl Iterator<Item = Call> {
    let places = 0..ContextNumbers::default().len();
    places.flat_map(|place| {
        [2, 255, 256, 257, u32::MAX].map(|value| {
            let mut context = context_numbers(&bench());
            context[place] = value;
            Call::replay(context, Mode::Strict, &[Action::BasicTouch as u8])
        })
    })
}

/// Each number at its limits, and every two outside.
fn outside_contexts() -> impl Iterator<Item = Call> {
    let contexts = around(&context_numbers(&bench()), &in_words());
    contexts
        .into_iter()
        .map(|context| Call::replay(context, Mode::Plain, &[Action::BasicTouch as u8]))
}
