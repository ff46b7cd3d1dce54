//! What an answer means: the rule in words, what stands at its place, and what to do.

use phieulakhon::{Accepted, Params, Refusal};

/// The bytes of section 1, in their order.
const PARAMETERS: [&str; 4] = ["n", "b", "k", "q"];

/// Values of a leaf.
pub const VALUES: usize = 2;

enum Item {
    Count(&'static str, usize),
    Parameter(&'static str),
    Root(usize),
    Coefficient(usize),
    Value {
        query: usize,
        layer: usize,
        value: usize,
    },
    Sibling {
        query: usize,
        layer: usize,
        height: usize,
    },
}

impl Item {
    fn length(&self) -> usize {
        match self {
            Item::Count(..) => 2,
            Item::Parameter(_) => 1,
            Item::Coefficient(_) | Item::Value { .. } => 4,
            Item::Root(_) | Item::Sibling { .. } => 32,
        }
    }

    fn words(&self) -> String {
        match self {
            Item::Count(section, count) => {
                format!("the count of {section}, which has to be {count}")
            }
            Item::Parameter(name) => format!("parameter {name} in section 1"),
            Item::Root(layer) => format!("the root of layer {layer} in section 2"),
            Item::Coefficient(i) => format!("final coefficient {i} in section 3"),
            Item::Value {
                query,
                layer,
                value,
            } => {
                format!("value {value} of query {query} in layer {layer}, in section 4")
            }
            Item::Sibling {
                query,
                layer,
                height,
            } => {
                format!("the sibling at height {height} of query {query} in layer {layer}, in section 4")
            }
        }
    }
}

/// The items of a file with these parameters, in its order; none where they are not valid. Should
/// they not make up the length that the proved call gives, nothing is said of places.
fn items(params: Params) -> Vec<Item> {
    let Some(length) = params.file_length() else {
        return Vec::new();
    };
    let [n, b, k, q] = [params.n, params.b, params.k, params.q].map(usize::from);
    let mut items = vec![Item::Count("section 1, the parameters", PARAMETERS.len())];
    items.extend(PARAMETERS.map(Item::Parameter));
    items.push(Item::Count("section 2, the roots", k));
    items.extend((0..k).map(Item::Root));
    items.push(Item::Count(
        "section 3, the final coefficients",
        1 << (n - b - k),
    ));
    items.extend((0..1 << (n - b - k)).map(Item::Coefficient));
    items.push(Item::Count("section 4, the queries", q));
    for query in 0..q {
        for layer in 0..k {
            items.extend((0..VALUES).map(|value| Item::Value {
                query,
                layer,
                value,
            }));
            let heights = 0..n - layer - 1;
            items.extend(heights.map(|height| Item::Sibling {
                query,
                layer,
                height,
            }));
        }
    }
    if items.iter().map(Item::length).sum::<usize>() != length {
        items.clear();
    }
    items
}

/// Which byte of which item the byte with that number is, counted from 1.
fn byte_in_words(params: Params, number: usize) -> Option<String> {
    let mut before = 0;
    for item in items(params) {
        let end = before + item.length();
        if before < number && number <= end {
            let (byte, of) = (number - before, item.length());
            return Some(format!("byte {byte} of {of} of {}", item.words()));
        }
        before = end;
    }
    None
}

fn place_in_words(refusal: Refusal, params: Params) -> Option<String> {
    let place = refusal.place() as usize;
    let length = params.file_length()?;
    match refusal {
        Refusal::TooFewBytes { .. } => {
            let next = byte_in_words(params, place + 1)?;
            Some(format!(
                "{place} bytes came of {length}; the next is {next}"
            ))
        }
        Refusal::ByteAfterTheEnd { .. } => Some(format!(
            "byte {place} stands after the file's {length} bytes"
        )),
        Refusal::ParametersDiffer { .. } => {
            let first = (place + 1).checked_sub(PARAMETERS.len())?;
            let names = PARAMETERS.join(", ");
            Some(format!(
                "bytes {first} to {place} are the {names} that the proof was made for"
            ))
        }
        _ => {
            let byte = byte_in_words(params, place)?;
            Some(format!("byte {place} of {length} is {byte}"))
        }
    }
}

/// What to do, word for word as docs/REFUSALS.md says it.
fn advice(number: u8) -> &'static str {
    match number {
        1 => "purge, if you asked for this batch's parameters and context",
        10 => "the caller's own mistake: check the four bytes before the proof",
        20 => "the proof was made for other parameters, or is a stub: do not purge",
        21 => "the proof was made for other parameters",
        22 => "a writer that does not reduce, or damage",
        23 => "damage, a forged value, or another batch's proof: a wrong context draws other leaves, and is nearly always seen here first",
        24 => "the layers do not belong together: a faulty or cheating prover, or one that still draws challenges from 4 bytes, as all did before request 2026-01",
        25 => "the final coefficients do not belong to the layers: a faulty or cheating prover, or one that still draws challenges from 4 bytes",
        26 => "the file was cut off: fetch it again",
        27 => "something was appended, or the length of another job was used",
        _ => "keep the raw table",
    }
}

pub fn refusal(refusal: Refusal, params: Params) -> Vec<String> {
    let mut lines = vec![format!("why: {}", refusal.message())];
    lines.extend(place_in_words(refusal, params).map(|place| format!("place: {place}")));
    lines.push(format!(
        "to do: keep the raw table; {}",
        advice(refusal.number())
    ));
    lines
}

pub fn acceptance(accepted: &Accepted) -> Vec<String> {
    let Params { n, b, k, q, .. } = accepted.params();
    vec![
        format!(
            "why: all {} bytes are those of a proof that holds",
            accepted.length()
        ),
        format!(
            "judged for: n {n}, b {b}, k {k}, q {q}, context {}",
            accepted.context()
        ),
        format!("to do: {}", advice(1)),
    ]
}

#[cfg(test)]
mod tests {
    use super::*;
    use phieulakhon::opening;
    use std::fs;
    use std::path::Path;

    fn all_valid() -> impl Iterator<Item = Params> {
        let of_b = |n| (1..=8).map(move |b| (n, b));
        let of_k = |(n, b)| (1..=12).map(move |k| (n, b, k));
        let of_q = |(n, b, k)| [1, 2, 64].map(|q| Params::new(n, b, k, q));
        let all = (2..=20).flat_map(of_b).flat_map(of_k).flat_map(of_q);
        all.filter(|params| params.file_length().is_some())
    }

    /// The items make up the file, and the openings stand where the look-up finds them.
    #[test]
    fn items_are_the_files() {
        let mut tried = 0;
        for params in all_valid() {
            let items = items(params);
            let length = params.file_length().expect("valid");
            assert_eq!(
                items.iter().map(Item::length).sum::<usize>(),
                length,
                "{params:?}"
            );
            let proof = vec![0; length];
            let mut before = 0;
            for item in items {
                if let Item::Value {
                    query,
                    layer,
                    value: 0,
                } = item
                {
                    let part = opening(params, &proof, query, layer).expect("an opening");
                    let start = part.as_ptr() as usize - proof.as_ptr() as usize;
                    assert_eq!(start, before, "{params:?} {query} {layer}");
                }
                before += item.length();
            }
            tried += 1;
        }
        assert!(tried > 500, "{tried} parameters");
    }

    /// The table of docs/REFUSALS.md, Reading a place.
    #[test]
    fn places() {
        let params = Params::new(4, 2, 1, 2);
        let words =
            |place| place_in_words(Refusal::CountDiffers { place }, params).expect("a place");
        assert_eq!(
            words(52),
            "byte 52 of 260 is byte 2 of 2 of the count of section 4, the queries, which has to be 2"
        );
        assert_eq!(
            words(6),
            "byte 6 of 260 is byte 1 of 1 of parameter q in section 1"
        );
        assert_eq!(
            words(40),
            "byte 40 of 260 is byte 32 of 32 of the root of layer 0 in section 2"
        );
        assert_eq!(
            words(46),
            "byte 46 of 260 is byte 4 of 4 of final coefficient 0 in section 3"
        );
        assert_eq!(
            words(60),
            "byte 60 of 260 is byte 4 of 4 of value 1 of query 0 in layer 0, in section 4"
        );
        assert_eq!(
            words(260),
            "byte 260 of 260 is byte 32 of 32 of the sibling at height 2 of query 1 in layer 0, in section 4"
        );
        let other = place_in_words(Refusal::ParametersDiffer { place: 6 }, params);
        assert_eq!(
            other.expect("a place"),
            "bytes 3 to 6 are the n, b, k, q that the proof was made for"
        );
        let short = place_in_words(Refusal::TooFewBytes { place: 0 }, params);
        assert_eq!(
            short.expect("a place"),
            "0 bytes came of 260; the next is byte 1 of 2 of the count of section 1, the parameters, which has to be 4"
        );
        let not_valid = Params::new(4, 2, 1, 0);
        assert_eq!(place_in_words(Refusal::ParametersNotValid, not_valid), None);
    }

    #[test]
    fn the_advice_is_the_papers() {
        let path = Path::new(env!("CARGO_MANIFEST_DIR")).join("../../docs/REFUSALS.md");
        let paper = fs::read_to_string(path).expect("docs/REFUSALS.md");
        for number in [1, 10, 20, 21, 22, 23, 24, 25, 26, 27] {
            let row = paper
                .lines()
                .find(|line| line.starts_with(&format!("| {number} |")));
            let columns: Vec<&str> = row.expect("a row").split(" | ").collect();
            assert_eq!(columns[4], advice(number), "{number}");
        }
    }
}
