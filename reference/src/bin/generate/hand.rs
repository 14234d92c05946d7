//! Programs made by hand for what random ones rarely show, each on both chips.

use reference::draft::{constant, hex, row, Draft, END};

fn set(d: u32) -> u32 {
    constant(0, d, 3 * d + 1)
}

fn input(d: u32) -> u32 {
    row(9, 0, d, 0, 0, 0)
}

fn put(a: u32) -> u32 {
    row(10, 0, 0, a, 0, 0)
}

fn copy(d: u32, a: u32) -> u32 {
    row(2, 0, d, a, 0, 0)
}

fn add(d: u32, a: u32, b: u32) -> u32 {
    row(3, 0, d, a, b, 0)
}

fn less(a: u32, b: u32, target: u32) -> u32 {
    row(12, 0, 0, a, b, target)
}

fn jump(target: u32) -> u32 {
    row(11, 0, 0, 0, 0, target)
}

fn weighed(weight: u32, row: u32) -> u32 {
    row & !(3 << 26) | weight << 26
}

fn programs() -> Vec<Draft> {
    let mut all: Vec<Draft> = Vec::new();
    let mut add_draft = |classes: &[u8], rows: &[u32]| all.push(Draft::new(classes, rows));

    // The worked cases of the documents.
    add_draft(&[], &[END]);
    add_draft(&[2, 2], &[constant(0, 0, 7), copy(1, 0), put(1), END]);
    let five: Vec<u32> =
        (0..5).map(|v| constant(0, v, v + 1)).chain((0..5).map(put)).chain([END]).collect();
    add_draft(&[2; 5], &five);
    add_draft(&[2, 2], &[constant(0, 0, 7), copy(1, 0), add(0, 0, 0), put(1), put(0), END]);
    add_draft(&[2, 2], &[constant(0, 0, 1), constant(0, 1, 2), put(0), END]);
    add_draft(&[2, 2], &[constant(0, 0, 7), copy(1, 0), put(0), put(1), END]);
    add_draft(&[2], &[put(0), END]);
    add_draft(&[], &[jump(2), END, END]);

    for class in 0..3u8 {
        // Many live at once, from what a chip holds to far more, by class and weight.
        for count in [3u32, 4, 5, 6, 7, 8, 9, 12] {
            let rows: Vec<u32> =
                (0..count).map(set).chain((0..count).map(put)).chain([END]).collect();
            add_draft(&vec![class; count as usize], &rows);
            let rows: Vec<u32> = (0..count)
                .map(|v| weighed(v % 4, input(v)))
                .chain((0..count).rev().map(|v| weighed(v % 4, put(v))))
                .chain([END])
                .collect();
            add_draft(&vec![class; count as usize], &rows);
        }
        // All 64 live, pairs read together; sums in which every place is spilled.
        let pairs: Vec<u32> =
            (0..64).map(set).chain((0..63).map(|v| less(v, v + 1, 65 + v))).chain([END]).collect();
        add_draft(&[class; 64], &pairs);
        let sums: Vec<u32> = [set(0)]
            .into_iter()
            .chain((1..64).map(|v| add(v, v - 1, v - 1)))
            .chain((0..63).map(|v| add(v, 63 - v, v)))
            .chain([END])
            .collect();
        add_draft(&[class; 64], &sums);
        // Nothing but copies: 127 source rows for one code row.
        let mut chain = vec![set(0)];
        chain.extend((0..126).map(|i| copy((i + 1) % 64, i % 64)));
        chain.push(END);
        add_draft(&[class; 64], &chain);
        chain[127] = jump(1);
        add_draft(&[class; 64], &chain);
        chain[126] = put(62);
        add_draft(&[class; 64], &chain);
        // Copies over soft edges, all ends live to the end.
        for count in [2u32, 4, 6, 9, 14] {
            let rows: Vec<u32> = [input(0)]
                .into_iter()
                .chain((1..count).map(|v| copy(v, v / 2)))
                .chain((0..count).map(put))
                .chain([END])
                .collect();
            add_draft(&vec![class; count as usize], &rows);
        }
        // Unread results while others are live; variables that no row names.
        add_draft(&[class; 64], &[input(3), set(40), set(41), put(3), END]);
        add_draft(&[class; 4], &[input(0), add(1, 0, 0), copy(2, 0), put(0), END]);
        // A copy to itself: kept neither in code nor when spilled.
        add_draft(&[class; 2], &[input(0), copy(0, 0), put(0), END]);
        let mut wide: Vec<u32> = (0..9).map(set).collect();
        wide.extend([copy(0, 0), less(0, 1, 9), copy(8, 8), add(0, 0, 0)]);
        wide.extend((0..9).map(put));
        wide.push(jump(9));
        add_draft(&[class; 9], &wide);
        // Jumps to a row with loads, and to dropped copies before it.
        let mut looped: Vec<u32> = (0..8).map(input).collect();
        looped.extend([
            copy(1, 0),
            copy(2, 1),
            add(7, 7, 0),
            put(7),
            less(7, 6, 8),
            less(6, 7, 10),
        ]);
        looped.extend((0..8).map(put));
        looped.push(jump(9));
        add_draft(&[class; 8], &looped);
        // Copies whose merging would leave a node that fails.
        let mut hard: Vec<u32> = (0..7).map(set).collect();
        hard.extend([copy(7, 0), copy(8, 1), add(0, 7, 8), copy(9, 7), add(1, 9, 8)]);
        hard.extend((0..10).map(put));
        hard.push(END);
        add_draft(&[class; 10], &hard);
    }

    // Classes together: bytes and halves block words, and the other way round.
    for order in [[0u8, 1, 2], [2, 1, 0], [1, 2, 0], [0, 2, 1]] {
        for count in [4usize, 7, 10, 15] {
            let classes: Vec<u8> = (0..count).map(|v| order[v % 3]).collect();
            let rows: Vec<u32> =
                (0..count as u32).map(set).chain((0..count as u32).map(put)).chain([END]).collect();
            add_draft(&classes, &rows);
        }
    }
    // Conversions while all are live.
    let mixed = [0, 0, 1, 1, 2, 2];
    add_draft(
        &mixed,
        &[
            input(0),
            row(7, 1, 2, 0, 0, 0),
            row(7, 2, 4, 0, 0, 0),
            row(7, 0, 5, 2, 0, 0),
            row(8, 3, 1, 5, 0, 0),
            row(8, 0, 3, 4, 0, 0),
            row(4, 0, 4, 4, 5, 0),
            row(5, 0, 2, 2, 3, 0),
            row(6, 0, 0, 0, 1, 0),
            put(0),
            put(1),
            put(2),
            put(3),
            put(4),
            put(5),
            jump(0),
        ],
    );
    all
}

/// Each program on both chips.
pub fn compile() -> Vec<String> {
    let line = |draft: &Draft, chip| format!("{} {chip}", hex(&draft.bytes()));
    programs().iter().flat_map(|draft| [line(draft, 0), line(draft, 1)]).collect()
}

/// Rehearsals at the edges of calls, on both chips.
pub fn rehearse() -> Vec<String> {
    let many = |count: usize| {
        let numbers: Vec<String> =
            (0..count as u32).map(|i| (i * 77_777_777).to_string()).collect();
        format!(
            "> restart {count} {}",
            if count == 0 { "-".to_string() } else { numbers.join(",") }
        )
    };
    let text =
        |calls: &[&str]| -> Vec<String> { calls.iter().map(|call| format!("> {call}")).collect() };
    let scripts: Vec<(Draft, Vec<String>)> = vec![
        // The edges of n and of restart, on a player that ends at once.
        (
            Draft::new(&[], &[END]),
            [
                text(&[
                    "open",
                    "state",
                    "source 0",
                    "code 0",
                    "source 65536",
                    "code 65536",
                    "source 65535",
                ]),
                text(&["code 65535", "source 1", "code 0", "restart 257", "source 1"]),
                vec![many(256), many(0)],
                text(&["source 1", "code 1", "state"]),
            ]
            .concat(),
        ),
        // Two outputs, one side far ahead; refused calls between.
        (
            Draft::new(
                &[2, 2],
                &[constant(0, 0, 7), copy(1, 0), add(0, 0, 0), put(1), put(0), END],
            ),
            [
                text(&[
                    "open",
                    "source 3",
                    "code 4",
                    "code 65536",
                    "state",
                    "code 20",
                    "code 1",
                    "source 765",
                ]),
                text(&[
                    "state",
                    "restart 0 -",
                    "source 5",
                    "restart 300",
                    "source 1",
                    "code 5",
                    "state",
                ]),
                text(&["restart 0 -", "state", "code 6", "source 6", "open", "state"]),
            ]
            .concat(),
        ),
        // Endless output: 256 numbers, then full.
        (
            Draft::new(&[1], &[set(0), put(0), add(0, 0, 0), jump(1)]),
            [
                text(&[
                    "open",
                    "source 767",
                    "source 1",
                    "source 1",
                    "state",
                    "source 1",
                    "source 1",
                    "state",
                ]),
                text(&[
                    "code 767",
                    "code 3",
                    "code 3",
                    "code 9",
                    "state",
                    "restart 0 -",
                    "code 65535",
                    "code 2",
                ]),
                text(&["source 65535", "state"]),
            ]
            .concat(),
        ),
        // Each number taken in is put out: input and output both run to their end.
        (
            Draft::new(
                &[0, 1, 2],
                &[input(0), input(1), input(2), put(2), put(0), put(1), jump(0)],
            ),
            [
                text(&["open", "source 5", "code 5", "state"]),
                vec![many(256)],
                text(&["source 400", "code 300", "state", "source 65535", "code 65535", "state"]),
                vec![many(255), "> code 65535".into(), many(1)],
                text(&["source 65535", "code 1", "code 1", "code 1", "state"]),
            ]
            .concat(),
        ),
        // 256 in, 256 out: the 257th input comes first; and the other way round.
        (
            Draft::new(&[2], &[input(0), put(0), jump(0)]),
            [text(&["open"]), vec![many(256)], text(&["source 65535", "code 65535", "state"])]
                .concat(),
        ),
        (
            Draft::new(&[2], &[input(0), put(0), put(0), jump(0)]),
            [text(&["open"]), vec![many(256)], text(&["code 65535", "source 65535", "state"])]
                .concat(),
        ),
        // A loop without output: it runs on.
        (
            Draft::new(&[], &[jump(0)]),
            text(&["open", "source 65535", "source 65535", "code 65535", "code 7", "state"]),
        ),
    ];
    let mut lines = Vec::new();
    for (draft, calls) in &scripts {
        for chip in 0..2 {
            lines.push(format!("{} {chip}", hex(&draft.bytes())));
            lines.extend(calls.iter().cloned());
        }
    }
    // Everything else made by hand that is admitted, played to the end.
    for line in compile() {
        let (file, _) = line.split_once(' ').expect("a file and a chip");
        let bytes: Vec<u8> = (0..file.len() / 2)
            .map(|i| u8::from_str_radix(&file[2 * i..2 * i + 2], 16).expect("hexadecimal"))
            .collect();
        if reference::source::admit(&bytes).is_ok() && file.len() < 300 {
            lines.push(line.clone());
            lines.extend(text(&["open"]));
            lines.push(many(20));
            lines.extend(text(&["code 17", "source 40", "code 4000", "source 4000", "state"]));
        }
    }
    lines
}
