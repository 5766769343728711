//! Recordings that every run compares: document 01's examples, the edges of its limits, and each
//! hard shape in several sizes up to the largest.

use reference::record::encode_all;
use reference::words::events;

use crate::numbers::Numbers;
use crate::shapes::{shape, SHAPES};

/// P1 to P11, in order.
const EXAMPLES: [&str; 11] = [
    "",
    "0 write 3 5\n",
    "0 fork 1\n0 read 0 0\n1 write 0 1\n0 write 0 1\n",
    "0 fork 1\n0 read 0 0\n1 write 0 1\n0 yield\n0 write 0 1\n",
    "0 fork 1\n0 read 0 0\n1 read 0 0\n0 read 0 0\n",
    "0 fork 1\n0 acquire 0\n0 release 0\n1 acquire 0\n1 release 0\n0 acquire 0\n",
    "0 fork 1\n0 acquire 0\n0 prewait 0\n1 acquire 0\n1 notify 0\n1 release 0\n0 postwait 0\n0 release 0\n",
    "0 fork 1\n1 write 0 1\n0 join 1\n0 read 0 1\n",
    "0 fork 1\n0 fork 2\n0 yield\n0 write 0 1\n1 read 0 1\n1 write 1 1\n2 read 1 1\n2 write 2 1\n0 read 2 1\n",
    "0 read 0 7\n",
    "0 acquire 0\n0 acquire 0\n",
];

/// All of document 01's examples.
pub fn examples() -> Vec<Vec<u8>> {
    let one = encode_all(&events("0 yield\n"));
    let mut inputs: Vec<Vec<u8>> = EXAMPLES.iter().map(|text| encode_all(&events(text))).collect();
    inputs.extend([7, 8193, 8199, 8200].map(|length| vec![0; length]));
    inputs.extend([511, 512, 513, 1024, 1025, 2000].map(|times| one.repeat(times)));
    inputs.push(vec![0xA7, 0x7A, 10, 16, 0, 0, 0, 0]);
    inputs
}

/// Exactly so many transactions, and then each kind of record where one more would begin.
fn at_the_limit_of_transactions() -> Vec<Vec<u8>> {
    let beginning =
        "0 fork 1\n0 fork 2\n0 fork 3\n0 yield\n1 acquire 0\n1 prewait 0\n3 acquire 1\n3 yield\n";
    let last = [
        "0 read 0 0\n",
        "0 read 0 1\n",
        "0 write 0 1\n",
        "0 acquire 0\n",
        "3 release 1\n",
        "3 prewait 1\n",
        "1 postwait 0\n",
        "3 notify 1\n",
        "0 fork 4\n",
        "0 join 2\n",
        "0 yield\n",
        "2 yield\n",
        "0 fork 0\n",
        "4 yield\n",
        "1 yield\n",
        "0 release 0\n",
        "0 join 0\n",
    ];
    let mut inputs = Vec::new();
    for yields in [508, 509, 510] {
        for record in last {
            let text = format!("{beginning}{}{record}0 yield\n", "0 yield\n".repeat(yields));
            inputs.push(encode_all(&events(&text)));
        }
    }
    inputs
}

/// Two faults at one record: the lowest number wins.
fn two_faults_at_once() -> Vec<Vec<u8>> {
    [
        "0 acquire 0\n0 prewait 0\n0 join 0\n",
        "0 acquire 0\n0 prewait 0\n0 fork 0\n",
        "0 acquire 0\n0 prewait 0\n0 acquire 0\n",
        "0 acquire 0\n0 prewait 0\n0 release 0\n",
        "0 write 0 0\n0 acquire 0\n0 prewait 0\n0 read 0 1\n",
        "0 fork 1\n0 acquire 0\n0 prewait 0\n1 acquire 0\n0 postwait 0\n",
        "0 fork 1\n0 acquire 0\n0 prewait 0\n1 join 0\n0 postwait 0\n",
        "0 fork 1\n0 acquire 0\n1 postwait 0\n",
        "0 write 0 0\n0 fork 1\n0 join 1\n1 read 0 1\n",
        "0 fork 1\n0 join 1\n1 fork 1\n",
        "1 fork 1\n",
        "1 join 1\n",
    ]
    .iter()
    .map(|text| encode_all(&events(text)))
    .collect()
}

/// Recordings that start late: a first read makes a value known, whoever reads, and from then on
/// every read is held to it.
fn started_late() -> Vec<Vec<u8>> {
    [
        "0 read 0 7\n",
        "0 read 0 0\n0 read 0 1\n",
        "0 read 0 7\n0 read 0 7\n",
        "0 read 0 7\n0 read 0 0\n",
        "0 read 255 65535\n0 read 255 65534\n",
        "0 fork 1\n1 read 0 7\n0 read 0 7\n",
        "0 fork 1\n1 read 0 7\n0 read 0 8\n",
        "0 fork 1\n1 read 0 7\n0 read 0 0\n",
        "0 fork 1\n0 read 0 7\n1 write 0 7\n0 read 0 7\n",
        "0 fork 1\n0 read 0 7\n1 write 0 8\n0 read 0 7\n",
        "0 fork 1\n1 write 0 3\n0 read 0 0\n",
        "0 fork 1\n1 write 0 0\n0 read 0 0\n1 read 1 9\n0 write 1 9\n",
        "0 fork 1\n0 fork 2\n1 read 0 7\n2 read 0 7\n0 yield\n0 write 0 1\n1 read 0 1\n",
        "0 fork 1\n0 read 0 7\n1 read 0 7\n0 read 0 7\n",
    ]
    .iter()
    .map(|text| encode_all(&events(text)))
    .collect()
}

/// What may look wrong and isn't.
fn allowed_by_the_machine() -> Vec<Vec<u8>> {
    [
        "0 fork 1\n0 join 1\n0 join 1\n0 join 1\n",
        "0 fork 1\n0 fork 2\n0 yield\n1 join 2\n0 join 2\n1 join 0\n",
        "0 fork 1\n1 join 0\n1 join 0\n",
        "0 fork 1\n1 acquire 0\n0 join 1\n0 join 1\n0 write 0 1\n",
        "0 fork 1\n1 acquire 0\n1 prewait 0\n0 join 1\n0 acquire 0\n",
        "0 fork 1\n0 acquire 0\n0 prewait 0\n1 join 0\n1 acquire 0\n",
        "0 acquire 0\n0 prewait 0\n0 postwait 0\n0 prewait 0\n",
        "0 fork 1\n0 acquire 0\n0 acquire 1\n0 prewait 0\n1 acquire 0\n1 notify 0\n",
        "0 fork 15\n15 fork 1\n1 fork 7\n0 join 7\n15 join 0\n15 join 7\n",
        "0 fork 1\n0 yield\n1 fork 2\n0 join 2\n",
    ]
    .iter()
    .map(|text| encode_all(&events(text)))
    .collect()
}

/// Single records with each field at its limits and one past them, for every kind and for no kind.
pub fn limits_of_fields() -> Vec<Vec<u8>> {
    let mut inputs = Vec::new();
    for kind in (0..=12).chain([128, 255]) {
        for thread in [0, 15, 16, 255] {
            for target in [0, 1, 15, 16, 31, 32, 128, 255] {
                for spare in [0, 1, 255] {
                    for value in [[0, 0], [1, 0], [0, 1], [255, 255]] {
                        let [low, high] = value;
                        inputs.push(vec![0xA7, 0x7A, kind, thread, target, spare, low, high]);
                    }
                }
            }
        }
    }
    for mark in [[0xA7, 0x7B], [0xA6, 0x7A], [0x7A, 0xA7], [0, 0]] {
        inputs.push(vec![mark[0], mark[1], 10, 0, 0, 0, 0, 0]);
    }
    inputs
}

pub fn recordings() -> Vec<Vec<u8>> {
    let mut inputs = examples();
    inputs.extend(at_the_limit_of_transactions());
    inputs.extend(two_faults_at_once());
    inputs.extend(started_late());
    inputs.extend(allowed_by_the_machine());
    let mut numbers = Numbers::from_seed(0);
    for which in 0..SHAPES {
        for records in [8, 16, 32, 64, 128, 256, 512, 1023, 1024, 1024, 1024, 1025] {
            inputs.push(encode_all(&shape(which, records, &mut numbers)));
        }
    }
    inputs
}
