//! Fields of a line, read strictly: decimals without plus sign or leading zero, bits of 16 digits 0-9 and A-F.

use opentelemetry::KeyValue;

/// Document 01's key 4294967295 and how the Rust names it.
const OVERFLOW_KEY: u32 = u32::MAX;
const OVERFLOW_NAME: &str = "otel.metric.overflow";

const MOST_ATTRIBUTES: usize = 8;
const MOST_SETS: usize = 30;

/// What a line `e` asks for.
pub struct Start {
    pub max_size: u32,
    pub max_scale: i8,
    pub limit: usize,
    pub start: u64,
}

impl Start {
    /// `SIZE SCALE LIMIT START`, within document 01's limits.
    pub fn read(fields: &[u8]) -> Option<Self> {
        let mut fields = fields.split(|b| *b == b' ');
        let wanted = Start {
            max_size: decimal(fields.next()?)?.try_into().ok()?,
            max_scale: signed(fields.next()?)?.try_into().ok()?,
            limit: decimal(fields.next()?)?.try_into().ok()?,
            start: decimal(fields.next()?)?,
        };
        let allowed = fields.next().is_none()
            && (3..=160).contains(&wanted.max_size)
            && (-10..=10).contains(&wanted.max_scale)
            && wanted.limit <= MOST_SETS;
        allowed.then_some(wanted)
    }
}

/// Key texts are made once each and live for ever, so that an attribute holds a static text. They are few, so a list serves.
#[derive(Default)]
pub struct Keys(Vec<(u32, &'static str)>);

impl Keys {
    fn text(&mut self, key: u32) -> &'static str {
        if let Some((_, text)) = self.0.iter().find(|(k, _)| *k == key) {
            return text;
        }
        let text = match key {
            OVERFLOW_KEY => OVERFLOW_NAME,
            _ => Box::leak(format!("{key:010}").into_boxed_str()),
        };
        self.0.push((key, text));
        text
    }

    fn attribute(&mut self, key: u32, value: u32) -> KeyValue {
        if key == OVERFLOW_KEY && value == 1 {
            KeyValue::new(OVERFLOW_NAME, true)
        } else {
            KeyValue::new(self.text(key), i64::from(value))
        }
    }
}

/// The key number of a key's text.
pub fn key_number(text: &str) -> u32 {
    match text {
        OVERFLOW_NAME => OVERFLOW_KEY,
        _ => text.parse().expect("a text of Keys"),
    }
}

/// `BITS SET`: the finite value, its set put into `set`.
pub fn board(fields: &[u8], keys: &mut Keys, set: &mut Vec<KeyValue>) -> Option<f64> {
    let (digits, rest) = fields.split_at_checked(16)?;
    let value = f64::from_bits(bits(digits)?);
    let field = rest.strip_prefix(b" ")?;
    read_set(field, keys, set)?;
    value.is_finite().then_some(value)
}

/// `-`, or KEY:VALUE joined by commas.
fn read_set(field: &[u8], keys: &mut Keys, set: &mut Vec<KeyValue>) -> Option<()> {
    set.clear();
    if field == b"-" {
        return Some(());
    }
    for attribute in field.split(|b| *b == b',') {
        if set.len() == MOST_ATTRIBUTES {
            return None;
        }
        let colon = attribute.iter().position(|b| *b == b':')?;
        let key = decimal(&attribute[..colon])?.try_into().ok()?;
        let value = decimal(&attribute[colon + 1..])?.try_into().ok()?;
        set.push(keys.attribute(key, value));
    }
    Some(())
}

pub fn decimal(field: &[u8]) -> Option<u64> {
    if field.is_empty() || (field[0] == b'0' && field.len() > 1) {
        return None;
    }
    field.iter().try_fold(0u64, |number, b| {
        let digit = b.wrapping_sub(b'0');
        if digit > 9 {
            return None;
        }
        number.checked_mul(10)?.checked_add(u64::from(digit))
    })
}

fn signed(field: &[u8]) -> Option<i64> {
    match field.strip_prefix(b"-") {
        Some(digits) => decimal(digits)
            .filter(|size| *size != 0)
            .and_then(|size| 0i64.checked_sub_unsigned(size)),
        None => decimal(field)?.try_into().ok(),
    }
}

/// 16 hexadecimal digits.
fn bits(digits: &[u8]) -> Option<u64> {
    digits.iter().try_fold(0u64, |number, b| {
        let digit = match b {
            b'0'..=b'9' => b - b'0',
            b'A'..=b'F' => b - b'A' + 10,
            _ => return None,
        };
        Some(number << 4 | u64::from(digit))
    })
}
