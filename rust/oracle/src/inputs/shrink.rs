//! From an input on which the two disagree to a small one on which they still do.

use crate::inputs::spelling::spelt;

/// An input of a comparison.
pub trait Case: Clone + Send {
    /// Inputs that are smaller, the smallest first.
    fn smaller(&self) -> Vec<Self>;
    fn size(&self) -> usize;
    fn show(&self) -> String;
}

/// The cases that differ from one in one field, for each field and each of its values.
macro_rules! with_each {
    ($case:expr, $($field:ident in $values:expr),+ $(,)?) => {{
        let mut found = Vec::new();
        $(for $field in $values {
            let mut other = $case.clone();
            other.$field = $field;
            found.push(other);
        })+
        found
    }};
}

pub(crate) use with_each;

/// The smallest input found on which `fails` still holds, by going to a smaller one while it does.
pub fn shrink<C: Case>(mut case: C, fails: impl Fn(&C) -> bool) -> C {
    while let Some(next) = case.smaller().into_iter().find(|smaller| fails(smaller)) {
        case = next;
    }
    case
}

/// The list with a run of items left out: runs of half its length first, then of a quarter, down
/// to single items.
pub fn shorter<T: Clone>(items: &[T]) -> Vec<Vec<T>> {
    let mut found = Vec::new();
    let mut run = items.len();
    while run > 0 {
        for from in (0..items.len()).step_by(run) {
            let end = items.len().min(from + run);
            found.push([&items[..from], &items[end..]].concat());
        }
        run /= 2;
    }
    found
}

/// The list with one of its items made plainer, in each way that there is.
pub fn plainer<T: Clone + PartialEq>(items: &[T], plain: impl Fn(&T) -> Vec<T>) -> Vec<Vec<T>> {
    let mut found = Vec::new();
    for (i, item) in items.iter().enumerate() {
        for other in plain(item) {
            let mut copy = items.to_vec();
            copy[i] = other;
            found.push(copy);
        }
    }
    found
}

/// Lines with a right checksum that state less than this one does, if it has one: a shorter payload,
/// one of zeros, the address 0000.
fn plainer_line(line: &[u8]) -> Vec<Vec<u8>> {
    let digits = line.strip_prefix(b":").unwrap_or(&[]);
    let value = |&digit: &u8| char::from(digit).to_digit(16);
    let values: Vec<u32> = digits.iter().filter_map(value).collect();
    let bytes: Vec<u8> = values
        .chunks(2)
        .map(|two| (two[0] * 16 + two[two.len() - 1]) as u8)
        .collect();
    if values.len() != digits.len() || digits.len() % 2 == 1 || bytes.len() < 5 {
        return vec![];
    }
    let (head, payload) = (&bytes[..4], &bytes[4..bytes.len() - 1]);
    let with = |head: &[u8], payload: &[u8]| spelt(&[head, payload].concat());
    let mut found = Vec::new();
    for n in smaller_number(payload.len()) {
        let lost = (payload.len() - n) as u8;
        found.push(with(
            &[head[0].wrapping_sub(lost), head[1], head[2], head[3]],
            &payload[..n],
        ));
    }
    found.push(with(&[head[0], 0, 0, head[3]], payload));
    found.push(with(head, &vec![0; payload.len()]));
    found.retain(|other| other.len() < line.len() || zeros(other) > zeros(line));
    found
}

fn zeros(line: &[u8]) -> usize {
    line.iter().filter(|&&byte| byte == b'0').count()
}

/// Smaller texts: with lines left out or plainer, then shorter ones, then those with a 0 in place of
/// another byte.
pub fn smaller_text(text: &[u8]) -> Vec<Vec<u8>> {
    let lines: Vec<Vec<u8>> = text
        .split(|&byte| byte == b'\n')
        .map(<[u8]>::to_vec)
        .collect();
    let joined = |lines: Vec<Vec<u8>>| lines.join(&b'\n');
    let mut found: Vec<Vec<u8>> = Vec::new();
    if lines.len() > 1 {
        found.extend(shorter(&lines).into_iter().map(joined));
    }
    found.extend(
        plainer(&lines, |line| plainer_line(line))
            .into_iter()
            .map(joined),
    );
    found.extend(shorter(text));
    let plain = |&byte: &u8| {
        if byte == b'0' {
            vec![]
        } else {
            vec![b'0']
        }
    };
    found.extend(plainer(text, plain));
    found
}

/// Numbers smaller than n: with all of n taken off first, then half of it, then a quarter, down to 1.
pub fn smaller_number(n: usize) -> Vec<usize> {
    let mut found = Vec::new();
    let mut off = n;
    while off > 0 {
        found.push(n - off);
        off /= 2;
    }
    found
}

/// Sets of flags with one of them taken away.
pub fn fewer_flags(flags: u8) -> impl Iterator<Item = u8> {
    let fewer = (0..8).map(move |bit| flags & !(1 << bit));
    fewer.filter(move |&fewer| fewer != flags)
}

/// A text as one reads it: all that is not a plain character is escaped, and a long run of one
/// character stands as `0{520}`.
pub fn readable(text: &[u8]) -> String {
    let mut line = String::from("\"");
    let mut rest = text;
    while let Some(&byte) = rest.first() {
        let run = rest.iter().take_while(|&&other| other == byte).count();
        let one = byte.escape_ascii().to_string();
        line += &if run > 16 {
            format!("{one}{{{run}}}")
        } else {
            one.repeat(run)
        };
        rest = &rest[run..];
    }
    line + "\""
}
