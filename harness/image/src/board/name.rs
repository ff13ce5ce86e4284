use super::{ROW, SIZES, length, length_at, row_at, writer_at};

/// What a byte of a board of that capacity is.
pub fn name(capacity: usize, at: usize) -> String {
    let columns = [
        SIZES,
        writer_at(capacity, 0),
        length_at(capacity, 0, 0),
        row_at(capacity, 0, 0),
    ];
    match columns.iter().rposition(|begin| *begin <= at) {
        None => format!(
            "byte {} of {}",
            at % 8,
            ["K", "stored", "handed out"][at / 8]
        ),
        _ if at >= length(capacity) => format!("byte {at}, past the end"),
        Some(column @ 0..=1) => {
            let place = at - columns[column];
            format!(
                "cue {}: byte {} of {}",
                place / 8,
                place % 8,
                ["start", "writer"][column]
            )
        }
        Some(2) => {
            let place = at - columns[2];
            format!("cue {}: length of row {}", place / 2, place % 2)
        }
        _ => {
            let place = at - columns[3];
            format!(
                "cue {}: byte {} of row {}",
                place / (2 * ROW),
                place % ROW,
                place / ROW % 2
            )
        }
    }
}
