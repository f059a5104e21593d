//! What the files have in common: a names line, then value lines of decimal numbers parted by commas,
//! every line ended by byte 10.

use std::ops::RangeInclusive;

/// The most value lines that a file or a record may have.
pub const MOST_LINES: usize = 64;

/// The most digits that a number may have.
const MOST_DIGITS: usize = 5;

/// The first rule that a file or a record breaks, and where.
#[derive(Clone, Copy, Debug, PartialEq, Eq)]
pub struct Refusal {
    /// The rule's number in the refusal list, or 0 if no rule is broken.
    pub number: u8,
    /// The breaking line, or 0 where the rule names none. The names line is line 1.
    pub line: usize,
}

impl Refusal {
    /// No rule is broken.
    pub const NONE: Refusal = Refusal { number: 0, line: 0 };

    /// The names line breaks the rule.
    pub(crate) fn of_names(number: u8) -> Refusal {
        Refusal { number, line: 1 }
    }

    /// Value line `n` breaks the rule. Value lines count from 0 and follow the names line.
    pub(crate) fn of_value_line(number: u8, n: usize) -> Refusal {
        Refusal {
            number,
            line: n + 2,
        }
    }

    /// The rule is about the whole file or record and names no line.
    pub(crate) fn of_whole(number: u8) -> Refusal {
        Refusal { number, line: 0 }
    }

    /// The rule alone, if one is broken. A call on records names no line.
    pub(crate) fn try_rule(self) -> Result<(), u8> {
        match self.number {
            0 => Ok(()),
            number => Err(number),
        }
    }
}

/// A reader's answer. With a refusal comes a record of no lines; from the reader of limits comes the
/// record that it was handed.
#[derive(Clone, Debug, PartialEq, Eq)]
pub struct Reading<Record> {
    pub refusal: Refusal,
    pub record: Record,
}

/// Tries one rule over the first `count` value lines.
pub(crate) fn try_lines(
    number: u8,
    count: usize,
    mut breaks: impl FnMut(usize) -> bool,
) -> Result<(), Refusal> {
    match (0..count).find(|&n| breaks(n)) {
        Some(n) => Err(Refusal::of_value_line(number, n)),
        None => Ok(()),
    }
}

/// Rule 3.
pub(crate) fn try_count(count: usize) -> Result<(), Refusal> {
    if (1..=MOST_LINES).contains(&count) {
        Ok(())
    } else {
        Err(Refusal::of_whole(3))
    }
}

/// Whether one of the numbers leaves its range.
pub(crate) fn leaves_range(numbers: &[u8], ranges: &[RangeInclusive<u8>]) -> bool {
    let mut both = numbers.iter().zip(ranges);
    both.any(|(number, range)| !range.contains(number))
}

/// The numbers of a file that passes the rules 1 to 4, an array for each column.
pub(crate) struct Columns<const K: usize> {
    pub count: u8,
    pub columns: [[u8; MOST_LINES]; K],
}

/// Reads a file of K columns by the rules 1 to 4. `names` includes the byte 10, and `ranges` has each
/// column's range.
pub(crate) fn read_columns<const K: usize>(
    file: &[u8],
    names: &[u8],
    ranges: &[RangeInclusive<u8>; K],
) -> Result<Columns<K>, Refusal> {
    let mut rest = file.strip_prefix(names).ok_or(Refusal::of_names(1))?;
    let mut columns = [[0; MOST_LINES]; K];
    let mut lines = 0;
    let mut out_of_range = None;
    while !rest.is_empty() {
        let (numbers, length) = read_line::<K>(rest).ok_or(Refusal::of_value_line(2, lines))?;
        // Rule 2 is for every line, so the walk goes on past the lines that a record can hold.
        if lines < MOST_LINES {
            for k in 0..K {
                match u8::try_from(numbers[k]) {
                    Ok(number) if ranges[k].contains(&number) => columns[k][lines] = number,
                    _ => {
                        out_of_range.get_or_insert(lines);
                    }
                }
            }
        }
        rest = &rest[length..];
        lines += 1;
    }
    try_count(lines)?;
    match out_of_range {
        Some(n) => Err(Refusal::of_value_line(4, n)),
        None => Ok(Columns {
            count: lines as u8,
            columns,
        }),
    }
}

/// The K numbers of the line at the start of `text`, and the line's length with its byte 10; nothing
/// if the line has not that form.
fn read_line<const K: usize>(text: &[u8]) -> Option<([u32; K], usize)> {
    let mut numbers = [0; K];
    let mut at = 0;
    for (k, number) in numbers.iter_mut().enumerate() {
        let (value, digits) = read_number(&text[at..])?;
        let end = if k + 1 == K { b'\n' } else { b',' };
        if text.get(at + digits) != Some(&end) {
            return None;
        }
        *number = value;
        at += digits + 1;
    }
    Some((numbers, at))
}

/// The number at the start of `text` and how many digits it has; nothing if there is none, or one
/// of too many digits or with a needless leading zero.
fn read_number(text: &[u8]) -> Option<(u32, usize)> {
    let mut value = 0;
    let mut digits = 0;
    while let Some(digit) = text.get(digits).filter(|byte| byte.is_ascii_digit()) {
        let after_zero = digits == 1 && value == 0;
        if after_zero || digits == MOST_DIGITS {
            return None;
        }
        value = 10 * value + u32::from(digit - b'0');
        digits += 1;
    }
    (digits > 0).then_some((value, digits))
}

/// Where value line `n` starts in the file and how long it is without its byte 10. Only byte 10 ends
/// a line, and the first line of the file is never a value line, whatever it says.
pub fn value_line(file: &[u8], n: usize) -> Option<(usize, usize)> {
    let mut ends = (0..file.len()).filter(|&at| file[at] == b'\n');
    let start = ends.nth(n)? + 1;
    let end = ends.next()?;
    Some((start, end - start))
}

/// The bytes of value line `n`, without its byte 10; none if there is no such line.
pub fn value_line_bytes(file: &[u8], n: usize) -> &[u8] {
    match value_line(file, n) {
        Some((start, length)) => &file[start..start + length],
        None => &[],
    }
}

#[cfg(test)]
pub(crate) mod tests {
    use super::*;

    /// A file of a names line and these value lines, each ended by byte 10.
    pub(crate) fn file_of(names: &[u8], lines: &[&str]) -> Vec<u8> {
        let mut file = names.to_vec();
        for line in lines {
            file.extend_from_slice(line.as_bytes());
            file.push(b'\n');
        }
        file
    }

    fn number(text: &str) -> Option<u32> {
        let (value, digits) = read_number(text.as_bytes())?;
        (digits == text.len()).then_some(value)
    }

    #[test]
    fn numbers_have_one_to_five_digits_and_no_needless_zero() {
        assert_eq!(number("0"), Some(0));
        assert_eq!(number("7"), Some(7));
        assert_eq!(number("10"), Some(10));
        assert_eq!(number("99999"), Some(99999));
        for bad in [
            "", "00", "01", "000001", "100000", "+1", "-1", " 1", "1 ", "a",
        ] {
            assert_eq!(number(bad), None, "{bad:?}");
        }
    }

    #[test]
    fn a_line_has_exactly_its_numbers_and_byte_10() {
        assert_eq!(read_line::<3>(b"1,20,300\n"), Some(([1, 20, 300], 9)));
        assert_eq!(read_line::<3>(b"1,20,300\n4,5"), Some(([1, 20, 300], 9)));
        for bad in [
            "",
            "\n",
            "1,2\n",
            "1,2,3,4\n",
            "1,2,3",
            "1,2,3\r\n",
            "1,2,3,\n",
            ",1,2,3\n",
            "1,,3\n",
            "1, 2,3\n",
            "1,2\n3\n",
            "1,2,3\0\n",
        ] {
            assert_eq!(read_line::<3>(bad.as_bytes()), None, "{bad:?}");
        }
    }

    #[test]
    fn value_lines_follow_the_first_line() {
        let file = b"names\n1,2\n\n3,4\ntail";
        assert_eq!(value_line(file, 0), Some((6, 3)));
        assert_eq!(value_line_bytes(file, 0), b"1,2");
        assert_eq!(value_line(file, 1), Some((10, 0)));
        assert_eq!(value_line(file, 2), Some((11, 3)));
        assert_eq!(value_line_bytes(file, 2), b"3,4");
        assert_eq!(value_line(file, 3), None);
        assert_eq!(value_line_bytes(file, 3), b"");
        assert_eq!(value_line(file, usize::MAX), None);
    }

    #[test]
    fn only_byte_10_ends_a_line() {
        assert_eq!(value_line(b"", 0), None);
        assert_eq!(value_line(b"names", 0), None);
        assert_eq!(value_line(b"names\n", 0), None);
        assert_eq!(value_line(b"names\n1\r2", 0), None);
        assert_eq!(value_line_bytes(b"\n1\r2\0\x0b\n", 0), b"1\r2\0\x0b");
    }
}
