//! The packets of a trace in CSV, or its first fault.

const FIELDS: [&str; 14] = [
    "switch",
    "qid",
    "uid",
    "srcip",
    "dstip",
    "srcport",
    "dstport",
    "proto",
    "pkt_len",
    "payload_len",
    "tcpseq",
    "tin",
    "tout",
    "qsize",
];
pub const SWITCH: usize = 0;
pub const QID: usize = 1;
pub const UID: usize = 2;
pub const SRCIP: usize = 3;
pub const DSTIP: usize = 4;
pub const DSTPORT: usize = 6;
pub const PROTO: usize = 7;
pub const PKT_LEN: usize = 8;
pub const PAYLOAD_LEN: usize = 9;
pub const TCPSEQ: usize = 10;
pub const TIN: usize = 11;
pub const TOUT: usize = 12;
pub const QSIZE: usize = 13;
pub const FIVE: u32 = 0b11111 << SRCIP;
pub const ALL: u32 = (1 << 14) - 1;
const MAX_BYTES: usize = 268_435_456;
const MAX_RECORDS: u32 = 4_194_304;

pub type Words = [u64; 14];

/// Where a field of a record stands: in the text, or unquoted in a buffer.
#[derive(Clone, Copy)]
struct Place {
    quoted: bool,
    start: usize,
    end: usize,
}

/// The records of a text, in order.
struct Records<'a> {
    text: &'a [u8],
    at: usize,
    unquoted: Vec<u8>,
    places: Vec<Place>,
}

impl<'a> Records<'a> {
    fn new(text: &'a [u8]) -> Records<'a> {
        let text = text.strip_prefix(b"\xEF\xBB\xBF").unwrap_or(text);
        Records {
            text,
            at: 0,
            unquoted: Vec::new(),
            places: Vec::new(),
        }
    }

    /// What ends a field: a comma, or the end of a line.
    fn at_end(&self) -> bool {
        matches!(self.text.get(self.at), None | Some(b',' | b'\n' | b'\r'))
    }

    fn plain(&mut self) {
        let start = self.at;
        while !self.at_end() {
            self.at += 1;
        }
        self.places.push(Place {
            quoted: false,
            start,
            end: self.at,
        });
    }

    /// A field after its opening quote. Two quotes are one, and what comes after the closing quote belongs to the field.
    fn quoted(&mut self) {
        let start = self.unquoted.len();
        while let Some(&byte) = self.text.get(self.at) {
            self.at += 1;
            if byte != b'"' {
                self.unquoted.push(byte);
            } else if self.text.get(self.at) == Some(&b'"') {
                self.at += 1;
                self.unquoted.push(b'"');
            } else {
                while !self.at_end() {
                    self.unquoted.push(self.text[self.at]);
                    self.at += 1;
                }
                break;
            }
        }
        self.places.push(Place {
            quoted: true,
            start,
            end: self.unquoted.len(),
        });
    }

    /// Goes to the next record, and says whether there is one. An empty line is none.
    fn advance(&mut self) -> bool {
        while let Some(b'\n' | b'\r') = self.text.get(self.at) {
            self.at += 1;
        }
        if self.at == self.text.len() {
            return false;
        }
        self.places.clear();
        self.unquoted.clear();
        loop {
            if self.text.get(self.at) == Some(&b'"') {
                self.at += 1;
                self.quoted();
            } else {
                self.plain();
            }
            if self.text.get(self.at) != Some(&b',') {
                return true;
            }
            self.at += 1;
        }
    }

    /// A field without the blanks around it.
    fn field(&self, column: usize) -> &[u8] {
        let Place { quoted, start, end } = self.places[column];
        let mut bytes = if quoted {
            &self.unquoted[start..end]
        } else {
            &self.text[start..end]
        };
        while let [b' ' | b'\t', rest @ ..] = bytes {
            bytes = rest;
        }
        while let [rest @ .., b' ' | b'\t'] = bytes {
            bytes = rest;
        }
        bytes
    }
}

fn decimal(bytes: &[u8], most_digits: usize) -> Option<u64> {
    if bytes.is_empty() || bytes.len() > most_digits {
        return None;
    }
    let mut number = 0u64;
    if bytes.len() < 20 {
        for &byte in bytes {
            let digit = byte.wrapping_sub(b'0');
            if digit > 9 {
                return None;
            }
            number = number * 10 + u64::from(digit);
        }
        return Some(number);
    }
    for &byte in bytes {
        let digit = byte.wrapping_sub(b'0');
        if digit > 9 {
            return None;
        }
        number = number.checked_mul(10)?.checked_add(u64::from(digit))?;
    }
    Some(number)
}

fn quad(bytes: &[u8]) -> Option<u64> {
    let mut parts = bytes.split(|&byte| byte == b'.');
    let mut address = 0;
    for _ in 0..4 {
        let part = decimal(parts.next()?, 3).filter(|&part| part < 256)?;
        address = address << 8 | part;
    }
    if parts.next().is_none() {
        Some(address)
    } else {
        None
    }
}

fn word(field: usize, bytes: &[u8]) -> Option<u64> {
    decimal(bytes, 20).or_else(|| match field {
        SRCIP | DSTIP => quad(bytes),
        TOUT if bytes == b"inf" => Some(u64::MAX),
        _ => None,
    })
}

/// The read fields with their columns, or the header's first fault.
fn columns(header: &Records, reads: u32) -> Result<Vec<(usize, usize)>, String> {
    let mut columns = Vec::new();
    for (field, name) in FIELDS
        .iter()
        .enumerate()
        .filter(|(field, _)| reads >> field & 1 == 1)
    {
        let mut named =
            (0..header.places.len()).filter(|&column| header.field(column) == name.as_bytes());
        match (named.next(), named.next()) {
            (None, _) => return Err(format!("FieldMissing({name})")),
            (Some(column), None) => columns.push((field, column)),
            (Some(_), Some(_)) => return Err(format!("FieldTwice({name})")),
        }
    }
    Ok(columns)
}

/// Takes each packet of a trace in order, or gives the trace's first fault.
pub fn packets(text: &[u8], reads: u32, mut take: impl FnMut(&Words)) -> Result<(), String> {
    if text.len() > MAX_BYTES {
        return Err("TraceTooLong".to_string());
    }
    let mut records = Records::new(text);
    if !records.advance() {
        return Err("NoHeader".to_string());
    }
    let columns = columns(&records, reads)?;
    let width = records.places.len();
    let mut words = [0; 14];
    let mut number = 0;
    while records.advance() {
        number += 1;
        if number > MAX_RECORDS {
            return Err("TooManyPackets".to_string());
        }
        if records.places.len() != width {
            return Err(format!("FieldCount({number})"));
        }
        for &(field, column) in &columns {
            match word(field, records.field(column)) {
                Some(found) => words[field] = found,
                None => return Err(format!("BadNumber({number},{})", FIELDS[field])),
            }
        }
        take(&words);
    }
    Ok(())
}
