//! Damaged hour files: calls that are refused, lines that are ill formed, files cut off or too large.

use crate::hours::*;

const FILE_LIMIT: usize = 32_768;

/// A way to make a file at fault, with its name. Some leave a file sound now and then; the programs must still agree.
pub type Damage = (&'static str, fn(&mut Dice) -> Vec<u8>);

#[rustfmt::skip]
pub const DAMAGES: &[Damage] = &[
    ("asset line spoiled", |dice| spoiled_call(dice, ASSET)),
    ("offer line spoiled", |dice| spoiled_call(dice, OFFER)),
    ("order line spoiled", |dice| spoiled_call(dice, ORDER)),
    ("order line spoiled", |dice| spoiled_call(dice, ORDER)),
    ("shed line spoiled", |dice| spoiled_call(dice, SHED)),
    ("meter line spoiled", |dice| spoiled_call(dice, METER)),
    ("instruct line spoiled", |dice| spoiled_call(dice, INSTRUCT)),
    ("instruct line spoiled", |dice| spoiled_call(dice, INSTRUCT)),
    ("unsound blocks", unsound_blocks),
    ("asset enrolled twice", |dice| call_again(dice, ASSET)),
    ("instruction not free", |dice| call_again(dice, INSTRUCT)),
    ("reading missing", reading_missing),
    ("no weights", no_weights),
    ("call spoiled, odd byte", |dice| odd_byte(spoiled_call(dice, ORDER), dice)),
    ("cut off", |dice| cut_off(some_hour(dice).text(), dice)),
    ("odd byte", |dice| odd_byte(some_hour(dice).text(), dice)),
    ("odd byte, cut off", |dice| cut_off(odd_byte(some_hour(dice).text(), dice), dice)),
    ("odd number", odd_number),
    ("odd number", odd_number),
    ("odd fields", odd_fields),
    ("odd fields, cut off", |dice| cut_off(odd_fields(dice), dice)),
    ("odd letter", |dice| odd_line(dice, ASSET, "asset=1,", ODD_LETTERS)),
    ("odd blocks", |dice| odd_line(dice, OFFER, "offer=1", ODD_OFFERS)),
    ("eighth block", |dice| odd_line(dice, OFFER, "offer=1,1:1,1:2,1:3,1:4,1:5,1:6,1:7", EIGHTH_BLOCKS)),
    ("odd rule name", |dice| odd_line(dice, RULE, "rule=", ODD_RULES)),
    ("odd key", odd_key),
    ("wrong order of lines", wrong_order),
    ("line doubled or missing", doubled_or_missing),
    ("CR before LF", cr_before_lf),
    ("odd end", odd_end),
    ("few bytes", few_bytes),
    ("at the size limit", |dice| sized(dice, FILE_LIMIT)),
    ("at the size limit, odd byte", |dice| odd_byte(sized(dice, FILE_LIMIT), dice)),
    ("about the size limit", about_the_limit),
];

/// Numbers beyond most ranges. Some differ from a number in range by high bits only.
const SPOILERS: &[u32] = &[61, 257, 65_537, 65_600, 1_000_001, 16_777_217, 0x8000_0001, u32::MAX - 1, u32::MAX];
#[rustfmt::skip]
const ODD_NUMBERS: &[&str] = &[
    "", "-1", "+1", " 1", "1 ", "00", "01", "007", "0x1", "1.0", "1e3", "4294967295", "4294967296", "4294967300",
    "5000000000", "9999999999", "999999999", "12345678901", "42949672950", "10000000000", "18446744073709551617", "0",
    "1\0", "١", "1,", "1:1", "1_000", "1000001", "65", "33",
];
const ODD_BYTES: &[u8] = b"\0\t\n\n\r !+,,--./00999:::;=@AGILXZ[_`aghlrz{~\x7f\x80\xa0\xc3\xff";
const ODD_LETTERS: &[&str] = &["", ",1", "g,1", "GG,1", "1,1", "G", "G,", "@,1", "[,1", "Q,x", "G,01"];
const ODD_OFFERS: &[&str] = &["", ",", ",5", ",5:", ",:5", ",5:5,", ",5;5", ",5:5:5", ",5:05", ",05:5", ",5,5:5"];
const EIGHTH_BLOCKS: &[&str] = &["", ",1:8", ",", ":8", "x", ",1"];
#[rustfmt::skip]
const ODD_RULES: &[&str] = &[
    "", "l", "larg", "Largest", "largests", "largest ", "runing", "rubbing", "r", "running,1", "1", "larunning", "runningg",
];
#[rustfmt::skip]
const FEW_BYTES: &[&[u8]] = &[
    b"", b"\n", b"h", b"hour", b"hour=", b"hour=0", b"hour=0\n", b"\xef\xbb\xbfhour=7\n", b"hour=7\nasset", b"hour=7\nrule=r",
];
#[rustfmt::skip]
const SURPLUS: &[&[u8]] = &[
    b"\n", b"\0", b" ", b"\r\n", b"rule=largest\n", b"rule=", b"meter=1,1\n", b"hour=7\n", b"\xff",
];

/// An hour that is small as a rule, so that damage hits every part of it.
fn some_hour(dice: &mut Dice) -> Hour {
    let assets = dice.between(3, 12);
    if dice.one_in(4) { any_hour(dice) } else { hour_with(dice, assets, 4) }
}

fn some_asset(dice: &mut Dice, hour: &Hour) -> Asset {
    let none = Asset { number: 1, letter: 'G', blocks: Vec::new() };
    if hour.assets.is_empty() { none } else { dice.pick(&hour.assets) }
}

/// Adds a line of this key of which none, one or several fields are beyond their ranges, or do not fit the hour.
fn spoiled_call(dice: &mut Dice, key: usize) -> Vec<u8> {
    let mut hour = some_hour(dice);
    let (one, another) = (some_asset(dice, &hour), some_asset(dice, &hour));
    let (number, minute) = (dice.between(1, 64), dice.between(0, 59));
    // Any assets, enrolled or not, or two that are enrolled.
    let any_assets = dice.one_in(if key == ASSET { 2 } else { 6 });
    let (asset, sink) = if any_assets { (number, minute + 1) } else { (one.number, another.number) };
    let letter = dice.pick(&['G', 'I', 'L', 'X', 'Q', 'A', 'Z']);
    let (low, high) = if one.is_source() { (500, 99_999) } else { (99_999, 500) };
    let (spoiled_field, several) = (dice.between(0, 6), dice.one_in(2));
    let mut field = 0;
    let mut spoil = |fair: u32, highest: u32| {
        field += 1;
        let spoiler = dice.pick(SPOILERS);
        let spoiled = if several { dice.one_in(2) } else { field == spoiled_field };
        if spoiled { dice.pick(&[0, highest + 1, highest + 1, spoiler]) } else { fair }
    };
    let asset = spoil(asset, 64);
    let line = match key {
        ASSET => format!("asset={asset},{letter},{}", spoil(number.min(32), 32)),
        OFFER => format!("offer={asset},{}:{low},{}:{}", spoil(3, 1_000), spoil(997, 997), spoil(high, 99_999)),
        ORDER => {
            format!("order={asset},{},{}", spoil(minute.max(number.min(59)), 59), spoil(one.capacity(), one.capacity()))
        }
        SHED => format!("shed={},{}", spoil(minute, 59), spoil(minute + number % 2, 60)),
        METER => format!("meter={asset},{}", spoil(1_000_000, 1_000_000)),
        _ => format!("instruct={},{asset},{},{}", spoil(number, 64), spoil(sink, 64), spoil(1_000_000, 1_000_000)),
    };
    put_among(dice, &mut hour.lines[key], line);
    hour.text()
}

/// As a rule after the other lines of its key.
fn put_among(dice: &mut Dice, lines: &mut Vec<String>, line: String) {
    let place = if dice.one_in(3) { dice.place(lines.len() + 1) } else { lines.len() };
    lines.insert(place, line);
}

fn unsound_blocks(dice: &mut Dice) -> Vec<u8> {
    let mut hour = some_hour(dice);
    let asset = some_asset(dice, &hour);
    let mut blocks = any_blocks(dice, asset.is_source(), 99_999);
    let place = dice.place(blocks.len());
    match dice.place(6) {
        0 => blocks[place].0 = dice.pick(&[0, 0, 1_001, u32::MAX]),
        1 => blocks[place].1 = dice.pick(&[100_000, 100_000, u32::MAX]),
        2 => blocks[place].0 += 1_001 - blocks.iter().map(|block| block.0).sum::<u32>(),
        3 => blocks = vec![(u32::MAX, 1), (1, 2), (5, 3)],
        4 => blocks.reverse(),
        _ => blocks = vec![(3, 70), (4, 70)],
    }
    put_among(dice, &mut hour.lines[OFFER], offer_line(asset.number, &blocks));
    hour.text()
}

/// Says a line of this key again.
fn call_again(dice: &mut Dice, key: usize) -> Vec<u8> {
    let mut hour = some_hour(dice);
    if !hour.lines[key].is_empty() {
        let again = dice.pick(&hour.lines[key]);
        put_among(dice, &mut hour.lines[key], again);
    }
    hour.text()
}

fn reading_missing(dice: &mut Dice) -> Vec<u8> {
    let mut hour = some_hour(dice);
    for _ in 0..dice.between(1, 3) {
        let missing = format!("meter={},", some_asset(dice, &hour).number);
        hour.lines[METER].retain(|line| !line.starts_with(&missing));
    }
    hour.text()
}

/// A source is paid a margin, and no sink has a reading above 0.
fn no_weights(dice: &mut Dice) -> Vec<u8> {
    let mut hour = some_hour(dice);
    let sinks: Vec<u32> = hour.assets.iter().filter(|asset| !asset.is_source()).map(|asset| asset.number).collect();
    hour.lines[METER].extend(sinks.iter().map(|sink| format!("meter={sink},0")));
    if let Some(source) = hour.assets.iter().find(|asset| asset.is_source()) {
        let number = source.number;
        hour.lines[OFFER].push(format!("offer={number},1000:99999"));
        hour.lines[ORDER].retain(|line| !line.starts_with(&format!("order={number},")));
        hour.lines[ORDER].push(format!("order={number},{},1000", dice.between(1, 59)));
        hour.lines[METER].push(format!("meter={number},{}", dice.pick(&[1, 900_000])));
    }
    hour.text()
}

fn cut_off(mut text: Vec<u8>, dice: &mut Dice) -> Vec<u8> {
    text.truncate(dice.place(text.len() + 1));
    text
}

/// Changes, inserts or removes one byte; in a large file too the first and the last lines get their part.
fn odd_byte(mut text: Vec<u8>, dice: &mut Dice) -> Vec<u8> {
    let any = dice.next() as u8;
    let byte = if dice.one_in(4) { any } else { dice.pick(ODD_BYTES) };
    let reach = if dice.one_in(2) { text.len() } else { text.len().min(40) };
    let place = if dice.one_in(4) { text.len() - 1 - dice.place(reach) } else { dice.place(reach) };
    match dice.place(3) {
        0 => text[place] = byte,
        1 => text.insert(place, byte),
        _ => drop(text.remove(place)),
    }
    text
}

/// Puts an odd number, or the same with a zero in front, in the place of one number of the file.
fn odd_number(dice: &mut Dice) -> Vec<u8> {
    let text = some_hour(dice).text();
    let is_digit = |place: usize| text.get(place).is_some_and(u8::is_ascii_digit);
    let starts: Vec<usize> = (1..text.len()).filter(|&place| is_digit(place) && !is_digit(place - 1)).collect();
    let start = dice.pick(&starts);
    let end = (start..text.len()).find(|&place| !is_digit(place)).unwrap_or(text.len());
    let zero_in_front = [b"0", &text[start..end]].concat();
    let odd = if dice.one_in(4) { zero_in_front } else { dice.pick(ODD_NUMBERS).as_bytes().to_vec() };
    [&text[..start], &odd, &text[end..]].concat()
}

/// One line with a field too many or too few, or with odd signs between its fields.
fn odd_fields(dice: &mut Dice) -> Vec<u8> {
    with_lines(dice, |dice, lines| {
        let place = dice.place(lines.len());
        let line = lines[place].clone();
        let cut = line.rfind([',', ':', '=']).unwrap_or(0);
        lines[place] = match dice.place(5) {
            0 => line + dice.pick(&[",", ",1", ",1:1", ":", ":1", "=", " ", "\t", "0", ",G", "=1"]),
            1 => line[..cut].to_string(),
            2 => line[..=cut].to_string(),
            3 => line.replacen(',', dice.pick(&[",,", ":", ";", "", ", "]), 1),
            _ => line.replacen('=', dice.pick(&["", "==", "= ", " =", ":"]), 1),
        };
    })
}

/// One line of this key that has an odd end; it may stand in the place of another.
fn odd_line(dice: &mut Dice, key: usize, start: &str, ends: &[&str]) -> Vec<u8> {
    let mut hour = some_hour(dice);
    if key == RULE || dice.one_in(4) {
        hour.lines[key].pop();
    }
    let line = format!("{start}{}", dice.pick(ends));
    put_among(dice, &mut hour.lines[key], line);
    hour.text()
}

/// Changes the lines of an hour, whatever their keys.
fn with_lines(dice: &mut Dice, change: impl FnOnce(&mut Dice, &mut Vec<String>)) -> Vec<u8> {
    let mut lines = some_hour(dice).lines.concat();
    change(dice, &mut lines);
    text_of(&lines)
}

/// A key misspelled, unfinished, of another line, or without `=`.
fn odd_key(dice: &mut Dice) -> Vec<u8> {
    with_lines(dice, |dice, lines| {
        let place = dice.place(lines.len());
        let (key, fields) = lines[place].split_once('=').unwrap_or(("", ""));
        let short = &key[..dice.place(key.len() + 1)];
        let other = dice.pick(&["hour", "asset", "offer", "order", "shed", "meter", "instruct", "rule"]);
        let upper = key.to_uppercase();
        lines[place] = match dice.place(5) {
            0 => short.to_string(),
            1 => format!("{key}{fields}"),
            2 => format!("{other}={fields}"),
            3 => format!("{short}={fields}"),
            _ => dice.pick(&[format!("{key}s={fields}"), format!(" {key}={fields}"), format!("{upper}={fields}")]),
        };
    })
}

fn wrong_order(dice: &mut Dice) -> Vec<u8> {
    with_lines(dice, |dice, lines| {
        let (from, to) = (dice.place(lines.len()), dice.place(lines.len()));
        let moved = lines[from].clone();
        match dice.place(3) {
            0 => lines.swap(from, to),
            1 => lines.insert(to, moved),
            _ => {
                lines.remove(from);
                lines.insert(to, moved);
            }
        }
    })
}

/// A line doubled, missing or with an empty line in front; the `hour` and the `rule` line more often than others.
fn doubled_or_missing(dice: &mut Dice) -> Vec<u8> {
    with_lines(dice, |dice, lines| {
        let (last, any) = (lines.len() - 1, dice.place(lines.len()));
        let place = dice.pick(&[0, last, any, any]);
        match dice.place(3) {
            0 => lines.insert(place, lines[place].clone()),
            1 => lines.insert(place, String::new()),
            _ => drop(lines.remove(place)),
        }
    })
}

fn cr_before_lf(dice: &mut Dice) -> Vec<u8> {
    with_lines(dice, |dice, lines| {
        let place = dice.place(lines.len());
        let every = dice.one_in(3);
        lines.iter_mut().enumerate().filter(|(at, _)| every || *at == place).for_each(|(_, line)| line.push('\r'));
    })
}

/// The last LF missing, or bytes after it.
fn odd_end(dice: &mut Dice) -> Vec<u8> {
    let mut text = some_hour(dice).text();
    if dice.one_in(3) {
        text.pop();
    } else {
        text.extend(dice.pick(SURPLUS));
    }
    text
}

fn few_bytes(dice: &mut Dice) -> Vec<u8> {
    let mut text = dice.pick(FEW_BYTES).to_vec();
    for _ in 0..dice.pick(&[0, 0, 1, 2, 6]) {
        text.push(dice.pick(ODD_BYTES));
    }
    text
}

fn sized(dice: &mut Dice, size: usize) -> Vec<u8> {
    let assets = dice.between(1, 64);
    let hour = hour_with(dice, assets, 32);
    filled_up(dice, hour, size)
}

fn about_the_limit(dice: &mut Dice) -> Vec<u8> {
    let over = FILE_LIMIT + dice.pick(&[1, 1, 2, 3_000, 40_000]);
    match dice.place(6) {
        0 => sized(dice, FILE_LIMIT - 1),
        1 => vec![dice.pick(b"\nh7\0"); over],
        2 => odd_byte(sized(dice, over), dice),
        3 => [sized(dice, FILE_LIMIT), b"\n".to_vec()].concat(),
        _ => sized(dice, over),
    }
}
