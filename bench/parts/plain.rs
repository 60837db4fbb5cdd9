//! Makes the text of a part by a plain loop over what its rows are made of, as `main.rt.txt` does
//! by `part_text`: of the same words, with the same output.
use std::fmt::Write;
use std::{env, fs, hint};

/// The words of a line.
fn words_of(line: &str) -> Vec<&str> {
    line.split([' ', '\t'])
        .filter(|it| !it.is_empty())
        .collect()
}

/// The number of a line.
fn number_of(line: &str) -> i64 {
    words_of(line)[1].parse().unwrap()
}

/// Makes a text so often, and gives the last one.
fn texts_of<T>(rows: &[T], times: u32, add: impl Fn(&T, &mut String)) -> String {
    let mut text = String::new();
    for _ in 0..times {
        text = String::new();
        for row in hint::black_box(rows) {
            add(row, &mut text);
        }
        hint::black_box(&text);
    }
    text
}

fn main() {
    let words: Vec<String> = env::args().collect();
    let lines = fs::read_to_string(&words[1]).unwrap();
    let lines: Vec<&str> = lines.lines().collect();
    let times = words[3].parse().unwrap();
    let text = match words[2].as_str() {
        "texts" => texts_of(&lines, times, |line, out| {
            out.push_str(line);
            out.push('\n');
        }),
        "lists" => {
            let rows: Vec<Vec<&str>> = lines.iter().map(|it| words_of(it)).collect();
            texts_of(&rows, times, |items, out| {
                out.push_str("CompactBuffer(");
                for (place, item) in items.iter().enumerate() {
                    if place > 0 {
                        out.push_str(", ");
                    }
                    out.push_str(item);
                }
                out.push_str(")\n");
            })
        }
        "numbers" => {
            let rows: Vec<i64> = lines.iter().map(|it| number_of(it)).collect();
            texts_of(&rows, times, |number, out| {
                writeln!(out, "{number}").unwrap()
            })
        }
        "truths" => {
            let rows: Vec<bool> = lines.iter().map(|it| number_of(it) < 500).collect();
            texts_of(&rows, times, |truth, out| {
                out.push_str(if *truth { "true\n" } else { "false\n" })
            })
        }
        _ => {
            let rows: Vec<(&str, i64)> = lines
                .iter()
                .map(|it| (words_of(it)[0], number_of(it)))
                .collect();
            texts_of(&rows, times, |(word, number), out| {
                out.push('(');
                out.push_str(word);
                writeln!(out, ",{number})").unwrap();
            })
        }
    };
    fs::write(&words[4], text).unwrap();
}
