//! A second reader, written from the papers alone (paper 01, "The sheet" and "Refused, by place"; paper 02, requests 3, 6, 7, 9 and 11).

use crate::problem::{Item, Need, Problem, Range, Ranged};

/// The line before the first item's.
const BEFORE_ITEMS: u64 = 3;

#[derive(Clone, Copy, Debug, PartialEq)]
pub struct Refusal {
    pub number: u64,
    pub line: u64,
}

/// A refusal at the line of item k.
pub fn at_item(number: u64, k: usize) -> Refusal {
    Refusal { number, line: BEFORE_ITEMS + 1 + k as u64 }
}

/// What is done about items of weight 0, low and high, and price 0.
#[derive(Clone, Copy, PartialEq)]
pub enum Blanks {
    Refused,
    Kept,
}

/// What a line has in a place.
enum Place {
    Word(&'static [u8]),
    Mark,
    Number,
    NumberOrNone,
}

impl Place {
    fn takes(&self, field: &[u8]) -> bool {
        match self {
            Place::Word(word) => field == *word,
            Place::Mark => matches!(field, b"W" | b"L"),
            Place::Number => is_number(field),
            Place::NumberOrNone => field == b"none" || is_number(field),
        }
    }

    /// The number of a wrong field's refusal. A field that is missing is empty.
    fn fault(&self, field: &[u8]) -> u64 {
        match self {
            _ if field.is_empty() => 2,
            Place::Word(_) => 12,
            Place::Mark => 2,
            Place::Number | Place::NumberOrNone => 13,
        }
    }
}

fn is_number(field: &[u8]) -> bool {
    let digits = field.strip_prefix(b"-").unwrap_or(field);
    field == b"0" || matches!(digits, [b'1'..=b'9', rest @ ..] if rest.iter().all(u8::is_ascii_digit))
}

/// A number of any length; one beyond every range is cut to a trillion.
fn number(field: &[u8]) -> i64 {
    let digits = field.strip_prefix(b"-").unwrap_or(field);
    let size = digits.iter().fold(0i64, |n, d| (10 * n + (d - b'0') as i64).min(1_000_000_000_000));
    if digits.len() < field.len() {
        -size
    } else {
        size
    }
}

struct Lines<'a> {
    rest: &'a [u8],
    line: u64,
}

impl<'a> Lines<'a> {
    fn refuse<T>(&self, number: u64) -> Result<T, Refusal> {
        Err(Refusal { number, line: self.line })
    }

    /// The fields of the next line, each right in its place. Of the line's faults of form the leftmost is told; that nothing closes it is the last.
    fn fields<const N: usize>(&mut self, places: [Place; N]) -> Result<[&'a [u8]; N], Refusal> {
        self.line += 1;
        let end = self.rest.iter().position(|&b| b == b'\n');
        let mut found = self.rest[..end.unwrap_or(self.rest.len())].split(|&b| b == b' ');
        let fields = std::array::from_fn(|_| found.next().unwrap_or_default());
        if let Some((place, field)) = places.iter().zip(fields).find(|(place, field)| !place.takes(field)) {
            return self.refuse(place.fault(field));
        }
        match end {
            Some(end) if found.next().is_none() => self.rest = &self.rest[end + 1..],
            _ => return self.refuse(2),
        }
        Ok(fields)
    }

    /// The count of a heading `word m`, within lo to hi.
    fn heading(&mut self, word: &'static [u8], lo: i64, hi: i64) -> Result<i64, Refusal> {
        let [_, count] = self.fields([Place::Word(word), Place::Number])?;
        let count = number(count);
        if lo <= count && count <= hi {
            Ok(count)
        } else {
            self.refuse(3)
        }
    }

    fn figure(&self, field: &[u8], range: i64) -> Result<i64, Refusal> {
        let value = number(field);
        if value.abs() <= range {
            Ok(value)
        } else {
            self.refuse(4)
        }
    }

    fn limit(&mut self) -> Result<i64, Refusal> {
        let [limit] = self.fields([Place::Number])?;
        self.figure(limit, 100_000_000)
    }

    fn item(&mut self, blanks: Blanks) -> Result<Item<Range>, Refusal> {
        let [mark, low, high, price] = self.fields([Place::Mark, Place::Number, Place::Number, Place::Number])?;
        let weight = Range { low: self.figure(low, 1000)?, high: self.figure(high, 1000)? };
        let price = self.figure(price, 10_000)?;
        if weight.low > weight.high {
            return self.refuse(19);
        }
        let item = Item { integer: mark == b"W", weight, price, lower: None, upper: None };
        if item.is_blank() && blanks == Blanks::Refused {
            return self.refuse(15);
        }
        Ok(item)
    }

    /// The bound of item k, whose turn it is.
    fn bound(&mut self, k: i64) -> Result<Option<i64>, Refusal> {
        let [item, value] = self.fields([Place::Number, Place::NumberOrNone])?;
        match value {
            _ if number(item) != k => self.refuse(5),
            b"none" => Ok(None),
            _ => self.figure(value, 10_000).map(Some),
        }
    }

    /// A section of bounds, one for each item.
    fn bounds(&mut self, word: &'static [u8], n: i64) -> Result<Vec<Option<i64>>, Refusal> {
        self.heading(word, n, n)?;
        (1..=n).map(|k| self.bound(k)).collect()
    }

    /// A need that comes after `last`.
    fn need(&mut self, items: &[Item<Range>], last: Option<Need>) -> Result<Need, Refusal> {
        let fields = self.fields([Place::Number, Place::Number])?;
        let n = items.len() as i64;
        let [item, cover] = fields.map(number);
        if [item, cover].iter().any(|k| !(1..=n).contains(k)) || item == cover {
            return self.refuse(5);
        }
        let need = Need { item: item as usize - 1, cover: cover as usize - 1 };
        if last.is_some_and(|l| need <= l) {
            return self.refuse(5);
        }
        if !items[need.item].may_be_named() || !items[need.cover].may_be_named() {
            return self.refuse(14);
        }
        Ok(need)
    }

    fn needs(&mut self, items: &[Item<Range>]) -> Result<Vec<Need>, Refusal> {
        let mut needs = vec![];
        for _ in 0..self.heading(b"needs", 0, 16)? {
            needs.push(self.need(items, needs.last().copied())?);
        }
        Ok(needs)
    }
}

pub fn read(sheet: &[u8]) -> Result<Ranged, Refusal> {
    read_by(sheet, Blanks::Refused)
}

pub fn read_by(sheet: &[u8], blanks: Blanks) -> Result<Ranged, Refusal> {
    if sheet.len() > 4096 {
        return Err(Refusal { number: 1, line: 0 });
    }
    let mut lines = Lines { rest: sheet, line: 0 };
    lines.heading(b"limit", 1, 1)?;
    let limit = lines.limit()?;
    let n = lines.heading(b"items", 1, 16)?;
    let mut items = (0..n).map(|_| lines.item(blanks)).collect::<Result<Vec<Item<Range>>, Refusal>>()?;
    items.iter_mut().zip(lines.bounds(b"lower", n)?).for_each(|(i, bound)| i.lower = bound);
    items.iter_mut().zip(lines.bounds(b"upper", n)?).for_each(|(i, bound)| i.upper = bound);
    let needs = lines.needs(&items)?;
    if !lines.rest.is_empty() {
        return Err(Refusal { number: 2, line: lines.line + 1 });
    }
    if let Some(k) = items.iter().position(|i| !i.weight.is_exact() && !i.is_never_below_nought()) {
        return Err(at_item(20, k));
    }
    Ok(Problem { limit, items, needs })
}
