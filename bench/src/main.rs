//! Measures the library beside the reference model, a plain C version and memcpy,
//! and prints a Markdown table of ns for one run.

mod counting;
mod exchanging;
mod hearing;
mod inputs;
#[cfg(openssl)]
mod openssl;
mod plain;
mod queueing;
mod retaining;
mod sealing;
#[cfg(test)]
mod tests;
mod timing;

use timing::{Measured, OFFSETS, ROUNDS};

fn main() {
    hearing::check_plain();
    counting::check_plain();
    exchanging::check_plain();
    queueing::check_plain();
    retaining::check_plain();
    sealing::check_plain();
    println!(
        "ns for one run, best / median of {ROUNDS} rounds at {} pairs of offsets within a page\n",
        OFFSETS.len()
    );
    heading();
    let example = inputs::example();
    row("read, example", hearing::reading(&example));
    row("originate, example", hearing::originating(&inputs::PAYLOAD));
    row("hear, example", hearing::hearing(&example));
    row(
        "hear, path of 6",
        hearing::hearing(&inputs::pdu(6, &inputs::PAYLOAD)),
    );
    row(
        "hear, payload of 4,095",
        hearing::hearing(&inputs::pdu(0, &[7; 4_095])),
    );
    row(
        "walk, full batch of 819 PDUs",
        hearing::walking(&inputs::batch_of_small()),
    );
    row(
        "walk, full batch of 4 PDUs",
        hearing::walking(&inputs::batch_of_large()),
    );
    row(
        "count a PDU of a held station, full table",
        counting::counting(),
    );
    row(
        "hear and count, example, full table",
        counting::hearing_and_counting(),
    );
    row("read an exchange, full PDU", exchanging::reading());
    row("write an exchange, full PDU", exchanging::writing());
    row(
        "retain one of 64 bytes beside 15, and free it",
        retaining::retaining_and_freeing(64),
    );
    row(
        "retry, 16 PDUs of 64 bytes, the first sent again",
        retaining::retrying(64, 0),
    );
    row(
        "retry, 16 PDUs of 64 bytes, none due",
        retaining::retrying(64, 1),
    );
    row("queue level, 1 PDU of 64 bytes", queueing::level(1));
    row("queue level, 32 PDUs of 64 bytes", queueing::level(32));
    row(
        "queue, add one of 64 bytes and clear",
        queueing::adding_and_clearing(64),
    );
    row(
        "queue, add and take one of 64 bytes behind 31",
        queueing::adding_and_taking(31, 1, 64),
    );
    row(
        "queue, add 32 PDUs of 64 bytes and take all",
        queueing::adding_and_taking(0, 32, 64),
    );
    row(
        "queue, add and take one of 2,048 bytes",
        queueing::adding_and_taking(0, 1, 2_048),
    );
    for payload in [64, 4_088] {
        row(
            &format!("seal, payload of {payload}"),
            sealing::sealing(payload),
        );
        row(
            &format!("open, payload of {payload}"),
            sealing::opening(payload),
        );
    }
    for payload in [64, 4_088] {
        if let Some(measured) = sealing::openssl(payload) {
            let Measured { best, median } = measured;
            println!("\nOpenSSL, counter mode and SHA-1 over {payload} bytes and 4: {best:.1} / {median:.1}");
        }
    }
    println!("\nHow the node's cost grows:\n");
    growth(&example);
    println!(
        "\nThe reference model is rust/reference. memcpy copies the PDU that is read, written or repeated, or \
         every PDU of the batch, one by one, or a station's words, or the exchange that is read, or a level, or \
         each PDU that is added and then the batch that is taken, or a PDU that is retained or sent again, or one that is \
         sealed or opened. Ratios are of the best rounds."
    );
}

/// The rows that show how the node's cost grows.
fn growth(example: &[u8]) {
    heading();
    for bytes in [0, 256, 1_024, 4_095] {
        let pdu = inputs::pdu(0, &vec![7; bytes]);
        row(&format!("hear, payload of {bytes}"), hearing::hearing(&pdu));
    }
    for entries in [0, 6, 60, 250] {
        let pdu = inputs::pdu(entries, &inputs::PAYLOAD);
        row(&format!("hear, path of {entries}"), hearing::hearing(&pdu));
    }
    for ranges in [1, 16, 64] {
        row(
            &format!("hear, ranges in each of four lists: {ranges}"),
            hearing::hearing_by_lists(example, ranges),
        );
    }
}

/// The first two lines of a table.
fn heading() {
    println!("| case | library | model | plain C | memcpy | library : plain C | library : model |");
    println!("|---|---:|---:|---:|---:|---:|---:|");
}

/// One line of the table.
fn row(name: &str, measured: [Measured; 4]) {
    let [library, reference, plain, copy] = measured;
    let cell = |measured: Measured| format!("{:.1} / {:.1}", measured.best, measured.median);
    println!(
        "| {name} | {} | {} | {} | {} | {:.2} | {:.2} |",
        cell(library),
        cell(reference),
        cell(plain),
        cell(copy),
        library.best / plain.best,
        library.best / reference.best,
    );
}
