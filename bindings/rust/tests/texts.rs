//! Lists and inputs as text, refusals, and lent room.

use brothlantern::{lent, macro_time, print, read_list, replay_text, write_list, Refusal};
use std::time::Duration;

const LINE: &str = "50 50 100 100 8 200 0 0 40 100 0 33 0 0 0";
const OUTPUT: &str = "    0/  200 progress |     0/    0 quality | 40/40 durability | 100/100 cp
    0/  200 progress |     0/    0 quality | 40/40 durability |  82/100 cp
  150/  200 progress |     0/    0 quality | 30/40 durability |  82/100 cp
  300/  200 progress |     0/    0 quality | 20/40 durability |  82/100 cp
finished 3F000000 executed 3 of 3
";

/// The most that each field of the line takes.
const MOST: [u64; 15] = [
    4_294_967_295,
    4_294_967_295,
    200_070,
    200_070,
    255,
    1_000_000,
    1_000_000,
    1_000_000,
    97,
    1_000_000,
    1,
    2_147_483_647,
    1,
    1,
    1,
];

fn input() -> Vec<u8> {
    format!("{LINE}\nVeneration BasicSynthesis BasicSynthesis\n").into_bytes()
}

#[test]
fn replays_the_example() {
    assert_eq!(replay_text(&input()).as_deref(), Ok(OUTPUT));
    assert_eq!(print(&input()), OUTPUT);
}

#[test]
fn refuses_an_input() {
    let refused = |text: String| replay_text(text.as_bytes()).unwrap_err();
    let outside = LINE.replace("40", "98");
    assert_eq!(refused(format!("{LINE} ")), Refusal::MalformedLine);
    assert_eq!(refused(format!("{outside}\nNope")), Refusal::OutsideLimits { place: 8 });
    assert_eq!(refused(format!("{LINE}\nVeneration Nope")), Refusal::UnknownWord { offset: 53 });
    assert_eq!(refused(" ".repeat(65_536)), Refusal::MalformedLine);
    assert_eq!(refused(" ".repeat(65_537)), Refusal::TooLong);
    assert_eq!(print(b"no numbers\n"), "refused 12\n");
    assert_eq!(print(format!("{outside}\n").as_bytes()), "refused 1\n");
    assert_eq!(print(&[b' '; 65_537]), "refused 13\n");
}

/// The line, with numbers at some places.
fn line_with(numbers: &[(usize, u64)]) -> String {
    let mut words: Vec<String> = LINE.split(' ').map(str::to_string).collect();
    for (place, number) in numbers {
        words[*place] = number.to_string();
    }
    words.join(" ") + "\n"
}

/// Whatever is wrong with it, and with a later one.
#[test]
fn tells_the_first_field_outside() {
    for (place, most) in MOST.into_iter().enumerate() {
        assert!(replay_text(line_with(&[(place, most)]).as_bytes()).is_ok(), "{place}");
        for (later, later_most) in MOST.into_iter().enumerate().skip(place) {
            let line = line_with(&[(later, later_most + 1), (place, most + 1)]);
            assert_eq!(replay_text(line.as_bytes()), Err(Refusal::OutsideLimits { place }));
        }
    }
}

#[test]
fn writes_what_it_reads() {
    let list: Vec<u8> = (0..31).collect();
    let text = write_list(&list).unwrap();
    assert_eq!(text.lines().count(), 31);
    assert_eq!(read_list(text.as_bytes()), Ok(list));
    assert_eq!(read_list(b"\tBasicTouch\r\n Observe"), Ok(vec![1, 3]));
    assert_eq!(read_list(b""), Ok(vec![]));
    assert_eq!(read_list(b"BasicTouch\nNope"), Err(Refusal::UnknownWord { offset: 11 }));
}

#[test]
fn refuses_a_list() {
    assert_eq!(write_list(&[0, 31]), Err(Refusal::UnknownAction { place: 1 }));
    assert_eq!(macro_time(&[255]), Err(Refusal::UnknownAction { place: 0 }));
    assert_eq!(macro_time(&[5, 31]), Err(Refusal::UnknownAction { place: 1 }));
    assert_eq!(write_list(&[31; 65_537]), Err(Refusal::TooLong));
    assert_eq!(macro_time(&[31; 65_537]), Err(Refusal::TooLong));
    assert_eq!(macro_time(&[0; 65_536]), Ok(Duration::from_secs(3 * 65_535)));
}

/// Veneration and MastersMend wait 2 and 3 seconds, and nothing waits for the last action.
#[test]
fn times_a_list() {
    assert_eq!(macro_time(&[5, 2, 2]), Ok(Duration::from_secs(5)));
    assert_eq!(macro_time(&[5, 2]), Ok(Duration::from_secs(2)));
    assert_eq!(macro_time(&[2, 5]), Ok(Duration::from_secs(3)));
    assert_eq!(macro_time(&[2]), Ok(Duration::ZERO));
    assert_eq!(macro_time(&[]), Ok(Duration::ZERO));
}

#[test]
fn leaves_the_room_of_a_refusal() {
    let mut room = [7; 800];
    let short = lent::replay_text(&input(), &mut room[..OUTPUT.len() - 1]);
    assert_eq!(short, Err(Refusal::NoRoom { needed: OUTPUT.len() }));
    assert_eq!(lent::read_list(b"BasicTouch Nope", &mut room).unwrap_err().number(), 5);
    assert_eq!(room, [7; 800]);
}

#[test]
fn writes_no_further() {
    let mut room = [7; 800];
    assert_eq!(lent::replay_text(&input(), &mut room), Ok(OUTPUT.len()));
    assert_eq!(&room[..OUTPUT.len()], OUTPUT.as_bytes());
    assert!(room[OUTPUT.len()..].iter().all(|byte| *byte == 7));
}
