//! Recordings in the written form, whole and damaged, and records of every sort to be written.

use reference::record::RECORD_LENGTH;
use reference::text::to_text;

use crate::numbers::Numbers;

const NAMES: [&str; 10] = [
    "read", "write", "acquire", "release", "prewait", "postwait", "notify", "fork", "join", "yield",
];

/// A good line of each kind, with small and with large fields.
const GOOD: [&str; 20] = [
    "0 read 0 0\n",
    "15 read 255 65535\n",
    "0 write 3 5\n",
    "9 write 100 10000\n",
    "0 acquire 0\n",
    "15 acquire 31\n",
    "0 release 9\n",
    "10 release 10\n",
    "0 prewait 0\n",
    "15 prewait 31\n",
    "0 postwait 1\n",
    "15 postwait 31\n",
    "0 notify 0\n",
    "11 notify 30\n",
    "0 fork 0\n",
    "15 fork 15\n",
    "0 join 9\n",
    "15 join 10\n",
    "0 yield\n",
    "15 yield\n",
];

/// 2 to the power 8, 16, 32, 64 and 128, and thirty digits: what is left over after wrapping around
/// would be in range.
const WRAPPING: [&str; 6] = [
    "256",
    "65536",
    "4294967296",
    "18446744073709551616",
    "340282366920938463463374607431768211456",
    "100000000000000000000000000000",
];

/// The line with one thing wrong: between its words, behind them, in their letters.
fn damages_of(line: &str) -> Vec<String> {
    let bare = line.trim_end_matches('\n');
    let (head, last) = bare.rsplit_once(' ').unwrap_or((bare, ""));
    vec![
        bare.replace(' ', "  ") + "\n",
        bare.replacen(' ', "  ", 1) + "\n",
        bare.replacen(' ', "\t", 1) + "\n",
        bare.replacen(' ', "", 1) + "\n",
        format!(" {line}"),
        format!("{bare} \n"),
        format!("{bare}\t\n"),
        format!("{bare}\r\n"),
        format!("{bare}\0\n"),
        format!("\0{line}"),
        format!("0{line}"),
        format!("+{line}"),
        format!("-{line}"),
        format!("{bare} 0\n"),
        format!("{bare}0\n"),
        format!("{head}\n"),
        format!("{head} \n"),
        format!("{head} 0{last}\n"),
        format!("{head} +{last}\n"),
        format!("{head} v{last}\n"),
        bare.to_uppercase() + "\n",
        bare.to_string(),
        format!("{bare}\n\n"),
        format!("{bare}{line}"),
    ]
}

/// Lines with each field too large by one, by wrapping around, and by many digits.
fn too_large() -> Vec<String> {
    let mut lines: Vec<String> = Vec::new();
    let mut numbers: Vec<String> = ["16", "32", "257", "65537", "99999"].map(String::from).into();
    for number in WRAPPING {
        numbers.push(number.to_string());
        numbers.push(format!("{}9", &number[..number.len() - 1]));
    }
    for number in numbers {
        lines.push(format!("{number} yield\n"));
        lines.push(format!("0 write {number} 5\n"));
        lines.push(format!("0 write 3 {number}\n"));
        lines.push(format!("0 acquire {number}\n"));
        lines.push(format!("0 fork {number}\n"));
    }
    lines
}

fn odd_lines() -> Vec<String> {
    let odd = [
        "\n",
        " \n",
        "\0\n",
        "\t\n",
        "\r\n",
        "0\n",
        "0 \n",
        "yield\n",
        " yield\n",
        "0 wait 0\n",
        "0 yiel\n",
        "0 yields\n",
        "0 Yield\n",
        "0 1\n",
        "0 1 3 5\n",
        "0 write 3 5 7\n",
        "0 write v3 5\n",
        "0 acquire m0\n",
        "0 write 3 0x5\n",
        "0 write 3 5.\n",
        "0 write 3 1e3\n",
        "0 write 3 \u{0665}\n",
        "# 0 yield\n",
        "0 yield # x\n",
        "0 yield;\n",
        "0 yield",
        "0 write 3 5",
        "0",
        " ",
    ];
    odd.map(String::from).into()
}

/// Texts that every run compares.
pub fn fixed() -> Vec<Vec<u8>> {
    let mut damaged = odd_lines();
    damaged.extend(too_large());
    // Every kind meets every damage, in short and in long lines by turns.
    for (place, line) in GOOD.iter().enumerate() {
        let damages = damages_of(line).into_iter().enumerate();
        damaged.extend(damages.filter(|(at, _)| (at + place) % 2 == 0).map(|(_, line)| line));
    }
    let mut texts: Vec<String> = GOOD.map(String::from).into();
    texts.extend([String::new(), GOOD.concat()]);
    for (place, line) in damaged.iter().enumerate() {
        let around = [GOOD[place % 20], GOOD[(7 * place + 3) % 20]];
        texts.push(format!("{line}{}{}", around[0], around[1]));
        texts.push(format!("{}{line}{}", around[0], around[1]));
        texts.push(format!("{}{}{line}", around[0], around[1]));
    }
    texts.extend(many_lines());
    texts.extend(long_texts());
    texts.into_iter().map(String::into_bytes).collect()
}

/// Around the limit of lines and around the limit of what is read.
fn many_lines() -> Vec<String> {
    let mut texts = Vec::new();
    for lines in [1023, 1024, 1025, 1026, 4000] {
        for line in ["0 yield\n", "15 write 255 65535\n", "\n", "x\n"] {
            let text = line.repeat(lines);
            texts.push(format!("{text}0 yield"));
            texts.push(format!("x\n{text}"));
            texts.push(format!("{text}x\n"));
            texts.push(text);
        }
    }
    for length in [32766, 32767, 32768, 32769, 40000, 70000] {
        let zeros = "0".repeat(length);
        texts.push(zeros.clone());
        texts.push(format!("{zeros}\n"));
        texts.push(format!("0 yield\n{}", &zeros[8..]));
        for feeds in [1024, 1025] {
            texts.push(format!("{}{}", &zeros[feeds..], "\n".repeat(feeds)));
            let good = "0 yield\n".repeat(feeds);
            texts.push(format!("{good}{}", &zeros[good.len()..]));
        }
    }
    texts
}

/// Texts of one long line among others, with the last line feed that is allowed or the first too
/// many. What is behind the long line begins around the places where the program reads on.
fn long_texts() -> Vec<String> {
    let mut texts = Vec::new();
    for place in [32767, 32768, 32769, 65535, 65536, 65537, 100000] {
        for line in ["0 yield\n", "15 write 255 65535\n", "\n"] {
            for before in [0, 1, 1000, 1023, 1024] {
                let beginning = line.repeat(before);
                let zeros = "0".repeat(place - beginning.len());
                for behind in [1024 - before, 1025 - before] {
                    texts.push(format!("{beginning}{zeros}{}", line.repeat(behind)));
                }
            }
        }
    }
    texts
}

/// A random text.
pub fn any(numbers: &mut Numbers) -> Vec<u8> {
    if numbers.percent(4) {
        return long(numbers);
    }
    match numbers.below(10) {
        0 => (0..numbers.below(40)).map(|_| numbers.byte()).collect(),
        1..=3 => soup(numbers),
        4..=5 => written(numbers),
        _ => {
            let mut text = written(numbers);
            for _ in 0..1 + numbers.below(2) {
                damage(&mut text, numbers);
            }
            text
        }
    }
}

/// The text of random records without a fault, mostly few.
fn written(numbers: &mut Numbers) -> Vec<u8> {
    let records = match numbers.below(20) {
        0 => 1000 + numbers.below(25),
        1..=3 => numbers.below(200),
        _ => numbers.below(6),
    };
    to_text(&(0..records).flat_map(|_| good_record(numbers)).collect::<Vec<u8>>())
}

/// Lines of the form, then many bytes with line feeds anywhere, about 1,024 in all.
fn long(numbers: &mut Numbers) -> Vec<u8> {
    let lines = numbers.below(1000);
    let mut text = to_text(&(0..lines).flat_map(|_| good_record(numbers)).collect::<Vec<u8>>());
    let mut rest = vec![b'0'; 15000 + numbers.below(100000)];
    for _ in lines..1015 + numbers.below(20) {
        let place = numbers.below(rest.len());
        rest[place] = b'\n';
    }
    text.extend(rest);
    text
}

/// Words and numbers, mostly in the order that a line has.
fn soup(numbers: &mut Numbers) -> Vec<u8> {
    let mut text = Vec::new();
    for _ in 0..1 + numbers.below(4) {
        let name = numbers.one_of(&NAMES).to_string();
        let mut words = vec![digits(numbers), name];
        words.extend((0..numbers.below(4)).map(|_| digits(numbers)));
        if numbers.percent(10) {
            words.swap(0, 1);
        }
        let between = if numbers.percent(95) { " " } else { "  " };
        text.extend(words.join(between).into_bytes());
        if numbers.percent(95) {
            text.push(b'\n');
        }
    }
    text
}

fn digits(numbers: &mut Numbers) -> String {
    match numbers.below(20) {
        0 => numbers.one_of(&WRAPPING).to_string(),
        1 => format!("0{}", numbers.below(20)),
        2 => numbers.any().to_string(),
        3 => (65530 + numbers.below(12)).to_string(),
        4 => (250 + numbers.below(12)).to_string(),
        5 => (10 + numbers.below(25)).to_string(),
        _ => numbers.below(10).to_string(),
    }
}

fn damage(text: &mut Vec<u8>, numbers: &mut Numbers) {
    if text.is_empty() {
        text.push(numbers.byte());
        return;
    }
    let at = numbers.below(text.len());
    let byte = numbers.one_of(b" \n\r\t\x0000123456789aeimrwyAY;-+.\xFF");
    match numbers.below(7) {
        0 => text[at] ^= 1 << numbers.below(8),
        1 => text[at] = byte,
        2 => text.insert(at, byte),
        3 => text.push(byte),
        4 => text.truncate(at),
        5 => drop(text.remove(at)),
        _ => text.insert(at, text[at]),
    }
}

/// Records around the limits of length, and faults of each number at the first, a middle and the
/// last record.
pub fn records() -> Vec<Vec<u8>> {
    let good = [0xA7, 0x7A, 2, 15, 255, 0, 255, 255];
    let mut inputs: Vec<Vec<u8>> =
        [1023, 1024, 1025, 1026, 3000].map(|records| good.repeat(records)).into();
    for length in (1..16).chain(8184..8208) {
        inputs.push(good.repeat(1100)[..length].to_vec());
    }
    let faults = [
        [0xB8, 0x8B, 2, 0, 0, 0, 0, 0],
        [0xA7, 0x7B, 0, 16, 0, 1, 0, 0],
        [0xA7, 0x7A, 0, 16, 0, 1, 0, 0],
        [0xA7, 0x7A, 11, 0, 0, 0, 0, 0],
        [0xA7, 0x7A, 10, 16, 0, 0, 0, 0],
        [0xA7, 0x7A, 3, 0, 32, 0, 0, 0],
        [0xA7, 0x7A, 8, 0, 16, 0, 0, 0],
        [0xA7, 0x7A, 1, 0, 0, 1, 0, 0],
        [0xA7, 0x7A, 9, 0, 0, 0, 0, 1],
    ];
    for fault in faults {
        for place in [0, 1, 2, 511, 1023] {
            let mut input = good.repeat((place + 2).min(1024));
            input[RECORD_LENGTH * place..][..RECORD_LENGTH].copy_from_slice(&fault);
            inputs.push(input);
        }
    }
    // Every value of a field has its own line.
    for kind in 1..=10 {
        let limit = [255, 255, 31, 31, 31, 31, 31, 15, 15, 0][usize::from(kind) - 1];
        let all = |target: u8| [0xA7, 0x7A, kind, target % 16, target, 0, 0, 0];
        inputs.push((0..=limit).flat_map(all).collect());
    }
    inputs
}

/// Random records of all kinds, now and then with faults. They are no possible history.
pub fn any_records(numbers: &mut Numbers) -> Vec<u8> {
    let records = if numbers.percent(5) { 1000 + numbers.below(30) } else { numbers.below(30) };
    let mut input: Vec<u8> = (0..records).flat_map(|_| good_record(numbers)).collect();
    if numbers.percent(40) && !input.is_empty() {
        for _ in 0..1 + numbers.below(3) {
            let at = numbers.below(input.len());
            input[at] = numbers.one_of(&[0, 1, 10, 11, 15, 16, 31, 32, 255, 0x7A, 0xA7]);
        }
    }
    if numbers.percent(5) {
        input.truncate(numbers.below(input.len() + 1));
    }
    input
}

/// A record without a fault, its fields often at their limits and at their numbers of digits.
fn good_record(numbers: &mut Numbers) -> [u8; RECORD_LENGTH] {
    let kind = 1 + numbers.below(10) as u8;
    let thread = numbers.below(16) as u8;
    let target = match kind {
        1 | 2 if numbers.percent(50) => numbers.byte(),
        1 | 2 => numbers.one_of(&[0, 9, 10, 99, 100, 199, 200, 255]),
        3..=7 => numbers.below(32) as u8,
        8 | 9 => numbers.below(16) as u8,
        _ => 0,
    };
    let value = match kind {
        1 | 2 if numbers.percent(50) => numbers.any() as u16,
        1 | 2 => numbers.one_of(&[0, 9, 10, 99, 100, 999, 1000, 9999, 10000, 65535]),
        _ => 0,
    };
    let [low, high] = value.to_le_bytes();
    [0xA7, 0x7A, kind, thread, target, 0, low, high]
}
